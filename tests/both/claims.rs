// Defines the claims that a run compares, how often the hypotheses of each held, and how often an answer was another where they did not.
// Assumes the statements of crates/both_claims/specs and, of editions, of crates/supervisor_claims/specs.

macro_rules! claims {
    ($($name:ident: $words:literal,)*) => {
        #[derive(Clone, Copy, Debug, PartialEq, Eq)]
        pub enum Claim { $($name),* }
        pub const CLAIMS: &[(Claim, &str)] = &[$((Claim::$name, $words)),*];
    };
}

claims! {
    OneAnswer: "one answer under each number, to what the caller asked for",
    FreshAnswer: "fresh-answer",
    AlertAnswer: "alert-answer",
    ListAge: "list-age and not-replaced",
    NeverReplaced: "never-replaced",
    ValueAsked: "value-asked",
    SetThenGot: "set-then-got",
    SameEdition: "same-edition-same-list",
    AlertsInOrder: "alerts-in-order",
    AlertsPosted: "alerts-posted",
    Progress: "round-trip and progress",
}

/// How often a claim came up with its hypotheses, and without them; and how often what it says was not so then.
#[derive(Clone, Copy, Default)]
pub struct Count {
    pub held: u64,
    pub void: u64,
    pub wrong: u64,
}

#[derive(Default)]
pub struct Claims {
    pub counts: [Count; CLAIMS.len()],
    /// The one claim that is compared, where it is one alone.
    pub only: Option<Claim>,
    /// The first answer that the supervisor had not made, where the hypotheses did not hold.
    pub first_wrong: Option<String>,
}

impl Claims {
    /// A claim came up: with its hypotheses it must be so.
    pub fn settle(&mut self, claim: Claim, held: bool, said: Result<(), String>) -> Result<(), String> {
        if self.only.is_some_and(|only| only != claim) {
            return Ok(());
        }
        let count = &mut self.counts[claim as usize];
        if held {
            count.held += 1;
            return said.map_err(|difference| format!("{}: {difference}", CLAIMS[claim as usize].1));
        }
        count.void += 1;
        if let Err(difference) = said {
            count.wrong += 1;
            if claim == Claim::FreshAnswer {
                self.first_wrong.get_or_insert(difference);
            }
        }
        Ok(())
    }

    /// Answers that the supervisor had not made.
    pub fn wrong(&self) -> u64 {
        self.counts[Claim::FreshAnswer as usize].wrong
    }
}

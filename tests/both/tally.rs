// Defines a tally: counts that begin at 0, each with the words under which it is printed.
// Assumes nothing.

/// A struct `Tally` of these counts, and its list in words.
macro_rules! tally {
    ($($field:ident: $words:literal,)*) => {
        #[derive(Default)]
        pub struct Tally { $(pub $field: u64),* }

        impl Tally {
            pub fn counts(&self) -> Vec<(&'static str, u64)> {
                vec![$(($words, self.$field)),*]
            }
        }
    };
}

pub(crate) use tally;

// The driver of a snippet's `ask` and `hear`: for each line of standard input a fresh end asks. It is interrupted where the line's first
// word says so, and hears the line's other words, pieces in hex. Prints what was handed out and all that went to the wire. Assumes that it
// stands behind the snippet in one file.

fn line(words: &str) -> Result<String, Refusal> {
    let mut storage = oatcastle::requester::RequesterStorage::new();
    let mut main = Requester::start_in(&mut storage);
    let (mut wire, mut alerts, mut handed) = (Vec::new(), Vec::new(), String::new());
    ask(&mut main, &mut wire)?;
    for word in words.split(' ') {
        if word == "interrupt" {
            main.interrupt()?;
            wire.extend_from_slice(main.send(&mut [0; LONGEST_FRAME])?);
            continue;
        }
        let answer = hear(&mut main, &bytes(word), &mut wire, &mut alerts)?;
        for alert in alerts.drain(..) {
            handed += &format!("alert {} ", hex(&alert));
        }
        if let Some((command, data)) = answer {
            handed += &format!("answer {command:02x} {} ", hex(&data));
        }
    }
    Ok(format!("{handed}sent {}", hex(&wire)))
}

fn main() {
    for words in std::io::stdin().lines() {
        match line(&words.expect("a line")) {
            Ok(said) => println!("{said}"),
            Err(refusal) => println!("{refusal}"),
        }
    }
}

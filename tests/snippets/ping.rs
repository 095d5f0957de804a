// The driver of a snippet's `ping`: for each line of standard input a fresh end asks over a wire that brings the line's words, pieces in hex, and then nothing; the word
// `interrupt` is a read that gives none. Prints what was handed out and all that went to the wire. Assumes that it stands behind the snippet in one file.

struct Wire {
    pieces: std::collections::VecDeque<Vec<u8>>,
    sent: Vec<u8>,
}

impl Uart for Wire {
    type Error = std::convert::Infallible;

    fn read(&mut self, room: &mut [u8]) -> Result<usize, Self::Error> {
        let Some(mut piece) = self.pieces.pop_front() else { return Ok(0) };
        let length = piece.len().min(room.len());
        room[..length].copy_from_slice(&piece[..length]);
        if length < piece.len() {
            self.pieces.push_front(piece.split_off(length));
        }
        Ok(length)
    }

    fn write(&mut self, bytes: &[u8]) -> Result<(), Self::Error> {
        self.sent.extend_from_slice(bytes);
        Ok(())
    }
}

fn line(words: &str) -> Result<String, AskError<std::convert::Infallible>> {
    let mut storage = oatcastle::requester::RequesterStorage::new();
    let mut main = Requester::start_in(&mut storage);
    let pieces = words.split(' ').map(|word| if word == "interrupt" { Vec::new() } else { bytes(word) }).collect();
    let (mut wire, mut alerts, mut handed) = (Wire { pieces, sent: Vec::new() }, Vec::new(), String::new());
    let answer = ping(&mut main, &mut wire, &mut alerts)?;
    for alert in alerts {
        handed += &format!("alert {} ", hex(&alert));
    }
    if let Some((command, data)) = answer {
        handed += &format!("answer {command:02x} {} ", hex(&data));
    }
    Ok(format!("{handed}sent {}", hex(&wire.sent)))
}

fn main() {
    for words in std::io::stdin().lines() {
        match line(&words.expect("a line")) {
            Ok(said) => println!("{said}"),
            Err(error) => println!("{error}"),
        }
    }
}

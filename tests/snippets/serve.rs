// The driver of a snippet's `started` and `serve`: for each line of standard input the supervisor starts again and serves the line's words, pieces in hex. Prints
// what was sent. Assumes that it stands behind the snippet in one file.

fn main() {
    let mut supervisor = started();
    for words in std::io::stdin().lines() {
        supervisor.restart(&DATA);
        for word in words.expect("a line").split(' ') {
            serve(&mut supervisor, &[], &bytes(word), |sent| print!("{}", hex(sent)));
        }
        println!();
    }
}

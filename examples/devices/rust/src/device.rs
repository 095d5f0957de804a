//! Defines serial ports and ptys for the two programs: opened raw, and read by a thread of their own.
//! Assumes Linux and the program `stty`, since the standard library has no call for raw bytes.

use std::fs::{File, OpenOptions};
use std::io::{self, Read};
use std::os::unix::fs::OpenOptionsExt;
use std::process::{Command, Stdio};
use std::sync::mpsc::Sender;
use std::thread;

/// Linux's flag: the device does not become the program's terminal.
const O_NOCTTY: i32 = 0o400;

/// Opens a device at 115,200 baud, with further flags.
pub fn open(path: &str, flags: i32) -> io::Result<File> {
    let device = OpenOptions::new().read(true).write(true).custom_flags(O_NOCTTY | flags).open(path)?;
    let raw = Command::new("stty").args(["-F", path, "raw", "-echo", "115200"]).stdin(Stdio::null()).status()?;
    if !raw.success() {
        return Err(io::Error::other(format!("stty cannot make {path} raw")));
    }
    Ok(device)
}

/// Sends each piece that comes as an event, and an empty one where there is an error or an end.
pub fn read_in_thread<E: Send + 'static>(mut from: impl Read + Send + 'static, events: Sender<E>, event: fn(Vec<u8>) -> E) {
    thread::spawn(move || {
        let mut room = [0; 256];
        loop {
            let length = from.read(&mut room).unwrap_or(0);
            if events.send(event(room[..length].to_vec())).is_err() || length == 0 {
                return;
            }
        }
    });
}

// Defines the supervisor on a serial port or pty: it serves requests, keeps the settings in a file, and raises an interrupt line, which is
// a second device. Assumes device.rs and settings_file.rs.
// usage: supervisor WIRE LINE FILE

#[path = "../device.rs"]
mod device;
#[path = "../settings_file.rs"]
mod settings_file;

use oatcastle::{Bsu, StartData, Supervisor, SupervisorStorage, LONGEST_IMAGE, MOST_PENDING};
use std::fs::File;
use std::io::{self, Write};
use std::num::NonZeroU8;
use std::path::PathBuf;
use std::sync::mpsc::{self, RecvTimeoutError};
use std::time::Duration;

/// How often the line is raised while nothing comes.
const LINE: Duration = Duration::from_millis(200);
const RAISED: u8 = b'1';
/// Linux's flag: a call that would wait fails.
const O_NONBLOCK: i32 = 0o4000;
/// The action of the alert that a start posts.
const STARTED: NonZeroU8 = NonZeroU8::MIN;
static DATA: StartData = StartData::new(Bsu::A);

struct Program<'s> {
    supervisor: Supervisor<'s>,
    wire: File,
    line: File,
    file: PathBuf,
    raised: bool,
}

impl Program<'_> {
    fn save(&self) -> io::Result<()> {
        let mut room = [0; LONGEST_IMAGE];
        settings_file::write(&self.file, self.supervisor.save(&mut room).map_err(io::Error::other)?)
    }

    /// Restores the settings, and says in an alert how that went. Without a good image they stay as a start leaves them: without values.
    fn restore(&mut self) -> io::Result<()> {
        let text = match settings_file::read(&self.file)? {
            None => "started; no file".to_string(),
            Some(image) => match self.supervisor.restore(&image) {
                Ok(()) => "started; restored".to_string(),
                Err(fault) => format!("started; not restored: {fault}"),
            },
        };
        self.supervisor.post(STARTED, text.as_bytes()).map_err(io::Error::other)
    }

    /// Carries out what came. A setting is in the file before its reply goes out: what was acknowledged is never lost.
    fn serve(&mut self, mut piece: &[u8]) -> io::Result<()> {
        let mut room = [0; MOST_PENDING];
        while !piece.is_empty() {
            let step = self.supervisor.step(&[], piece);
            piece = &piece[step.used..];
            if step.end.stored().is_some() {
                self.save()?;
            }
            self.wire.write_all(self.supervisor.take(&mut room))?;
        }
        Ok(())
    }

    /// Raises the line when the signal becomes asserted, and again where nothing came since. A line that is busy is raised later.
    fn raise_line(&mut self, quiet: bool) -> io::Result<()> {
        let asserted = self.supervisor.signal();
        if asserted && (quiet || !self.raised) {
            match self.line.write(&[RAISED]) {
                Err(error) if error.kind() != io::ErrorKind::WouldBlock => return Err(error),
                _ => (),
            }
        }
        self.raised = asserted;
        Ok(())
    }
}

fn main() -> io::Result<()> {
    let words: Vec<String> = std::env::args().skip(1).collect();
    let [wire, line, file] = &words[..] else { return Err(io::Error::other("usage: supervisor WIRE LINE FILE")) };
    let mut storage = SupervisorStorage::new();
    let mut program = Program {
        supervisor: Supervisor::start_in(&mut storage, &DATA),
        wire: device::open(wire, 0)?,
        line: device::open(line, O_NONBLOCK)?,
        file: file.into(),
        raised: false,
    };
    let (sender, pieces) = mpsc::channel();
    program.restore()?;
    program.wire.write_all(&[0])?; // ends a reply of which a part went out before the start
    device::read_in_thread(program.wire.try_clone()?, sender, |piece| piece);
    let mut quiet = true;
    loop {
        program.raise_line(quiet)?;
        let came = pieces.recv_timeout(LINE);
        quiet = came == Err(RecvTimeoutError::Timeout);
        match came {
            Ok(piece) if !piece.is_empty() => program.serve(&piece)?,
            Err(RecvTimeoutError::Timeout) => (),
            _ => return Err(io::Error::other("the wire cannot be read")),
        }
    }
}

// Defines an example: after a restart the supervisor restores its settings from a file; a key set comes over the wire, and the settings are saved to the file.
// Assumes the static library, and a folder for the file in which the program may make another beside it.

use oatcastle::{Bsu, Key, Request, StartData, Supervisor, SupervisorStorage, LONGEST_FRAME, LONGEST_IMAGE};
use std::path::{Path, PathBuf};
use std::{env, fs, io};

const KEY: Key = Key::DtraceConf;

/// Restores the settings. Without a file, or with one that has a fault, they stay as a start leaves them: without values.
fn restore(supervisor: &mut Supervisor, file: &Path) -> io::Result<()> {
    match fs::read(file) {
        Ok(image) => match supervisor.restore(&image) {
            Ok(()) => println!("restored from {} bytes", image.len()),
            Err(fault) => println!("not restored: {fault}"),
        },
        Err(error) if error.kind() == io::ErrorKind::NotFound => println!("no file"),
        Err(error) => return Err(error),
    }
    Ok(())
}

/// Saves the settings to a file beside, which then takes the file's name: a power cut leaves the old image or the whole of the new one.
fn save(supervisor: &Supervisor, file: &Path) -> io::Result<()> {
    let mut room = [0; LONGEST_IMAGE];
    let image = supervisor.save(&mut room).map_err(io::Error::other)?;
    let beside = file.with_extension("new");
    fs::write(&beside, image)?;
    fs::rename(&beside, file)?;
    println!("saved {} bytes", image.len());
    Ok(())
}

/// The key set request of the main processor.
fn key_set(supervisor: &mut Supervisor, value: &str) -> io::Result<()> {
    let mut room = [0; LONGEST_FRAME];
    let request = Request::key_set(KEY, value.as_bytes()).map_err(io::Error::other)?;
    supervisor.receive(&[], request.write_frame(1, 1, &mut room).map_err(io::Error::other)?);
    Ok(())
}

fn print(supervisor: &Supervisor) {
    match supervisor.lookup(KEY, u16::MAX) {
        Ok(found) => println!("key {}, edition {}: {}", KEY.number(), found.edition, String::from_utf8_lossy(found.value)),
        Err(result) => println!("key {}: {result}", KEY.number()),
    }
}

fn main() -> io::Result<()> {
    let words: Vec<String> = env::args().skip(1).collect();
    let [file, value] = &words[..] else { return Err(io::Error::other("usage: saved_settings FILE VALUE")) };
    let file = PathBuf::from(file);
    let mut storage = SupervisorStorage::new();
    let mut supervisor = Supervisor::start_in(&mut storage, &StartData::new(Bsu::A));
    restore(&mut supervisor, &file)?;
    print(&supervisor);
    key_set(&mut supervisor, value)?;
    print(&supervisor);
    save(&supervisor, &file)
}

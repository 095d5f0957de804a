//! Defines the image of the settings in a file, which a power cut leaves as it was or as it was to be.
//! Assumes POSIX files: sync of a file keeps its contents, sync of its folder a rename.

use std::fs::{self, File};
use std::io::{self, Write};
use std::path::{Path, PathBuf};

/// Replaces the file's contents: the new ones go to a file beside, which then takes the name. It is done for good when this returns.
pub fn write(file: &Path, image: &[u8]) -> io::Result<()> {
    let mut beside = file.as_os_str().to_owned();
    beside.push(".new");
    let beside = PathBuf::from(beside);
    let mut new = File::create(&beside)?;
    new.write_all(image)?;
    new.sync_all()?;
    fs::rename(&beside, file)?;
    let folder = match file.parent() {
        Some(folder) if folder != Path::new("") => folder,
        _ => Path::new("."),
    };
    File::open(folder)?.sync_all()
}

/// The file's contents, or none where there is no file.
pub fn read(file: &Path) -> io::Result<Option<Vec<u8>>> {
    match fs::read(file) {
        Ok(image) => Ok(Some(image)),
        Err(error) if error.kind() == io::ErrorKind::NotFound => Ok(None),
        Err(error) => Err(error),
    }
}

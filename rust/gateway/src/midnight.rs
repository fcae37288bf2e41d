//! The midnight file: replaced so that a crash leaves the old one whole, or the new one.

use std::fs::{self, File, OpenOptions};
use std::io::{self, ErrorKind, Write};
use std::path::{Path, PathBuf};

/// Writes the bytes beside the file, and renames what was written. If this fails, the old file stays; but where the folder
/// cannot be synced after the rename, a crash may leave either.
pub fn replace(file: &Path, bytes: &[u8]) -> io::Result<()> {
    can_be_replaced(file)?;
    let folder = folder_of(file)?;
    let new = beside(file);
    // An earlier run may have been stopped while it wrote this.
    match fs::remove_file(&new) {
        Err(why) if why.kind() != ErrorKind::NotFound => return Err(why),
        _ => {}
    }
    let made = OpenOptions::new().write(true).create_new(true).open(&new)?;
    let written = write(made, bytes).and_then(|()| fs::rename(&new, file));
    if written.is_err() {
        // Where this fails too, the next write removes it.
        fs::remove_file(&new).unwrap_or(());
    }
    // The new name of the file lasts once its folder is synced.
    written.and_then(|()| folder.sync_all())
}

/// A name that is not that of the file, in the same folder.
fn beside(file: &Path) -> PathBuf {
    let mut name = file.as_os_str().to_owned();
    name.push(".new");
    name.into()
}

/// A rename would put a file in the place of a device or of a link.
fn can_be_replaced(file: &Path) -> io::Result<()> {
    match fs::symlink_metadata(file) {
        Ok(found) if !found.is_file() => {
            Err(io::Error::new(ErrorKind::Other, "not a regular file"))
        }
        Err(why) if why.kind() != ErrorKind::NotFound => Err(why),
        _ => Ok(()),
    }
}

fn write(mut made: File, bytes: &[u8]) -> io::Result<()> {
    made.write_all(bytes)?;
    made.sync_all()
}

fn folder_of(file: &Path) -> io::Result<File> {
    let folder = file.parent().filter(|path| !path.as_os_str().is_empty());
    File::open(folder.unwrap_or(Path::new(".")))
}

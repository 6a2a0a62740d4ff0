//! A file that is there once it is whole.

use std::fs::{self, File};
use std::io::{self, Write};
use std::path::{Path, PathBuf};

/// A file to be written. Until it is whole it is beside its place, under its name with `~` behind.
pub struct NewFile {
    path: PathBuf,
    beside: PathBuf,
    file: File,
}

impl NewFile {
    /// Finds out whether the file can be written, in place of one that is there.
    pub fn create(path: &Path) -> io::Result<Self> {
        if fs::metadata(path).is_ok_and(|there| !there.is_file()) {
            return Err(io::Error::other("it is no regular file"));
        }
        let mut beside = path.as_os_str().to_owned();
        beside.push("~");
        let beside = PathBuf::from(beside);
        Ok(NewFile { path: path.to_owned(), file: File::create(&beside)?, beside })
    }

    /// Writes all of it, and puts it in its place.
    pub fn write(mut self, bytes: &[u8]) -> io::Result<()> {
        self.file.write_all(bytes)?;
        fs::rename(&self.beside, &self.path)
    }
}

impl Drop for NewFile {
    /// Takes away what did not become whole.
    fn drop(&mut self) {
        let _ = fs::remove_file(&self.beside);
    }
}

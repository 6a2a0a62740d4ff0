//! What is read from a file that is named, or from standard input.

use crate::Fault;
use crate::output::at;
use std::io::{Read, stdin};
use std::path::{Path, PathBuf};

/// The bytes of standard input, at most so many.
fn standard(most: usize, what: &str) -> Result<Vec<u8>, String> {
    let mut bytes = Vec::new();
    stdin().lock().take(most as u64 + 1).read_to_end(&mut bytes).map_err(|fault| fault.to_string())?;
    match bytes.len() > most {
        true => Err(format!("it has more than {most} bytes, which no {what} has")),
        false => Ok(bytes),
    }
}

/// The name and the bytes of the one file that is named, or of standard input if none is; at most so many bytes.
pub fn one(paths: &[PathBuf], most: usize, what: &str) -> Result<(PathBuf, Vec<u8>), Fault> {
    let (name, bytes) = match paths {
        [] => (Path::new("standard input"), standard(most, what)),
        [path] => (path.as_path(), corpus::read_regular(path, most, what)),
        _ => return Err(Fault::Usage("one file at most".to_string())),
    };
    match bytes {
        Ok(bytes) => Ok((name.to_owned(), bytes)),
        Err(why) => Err(Fault::Failed(at(name, format!("cannot be read: {why}")))),
    }
}

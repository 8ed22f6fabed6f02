//! A file that holds the first bytes of something that grows in memory. Bytes are written one after the other, so that a kill can come in
//! the middle of a line.

use std::cell::Cell;
use std::fs::{rename, File, OpenOptions};
use std::io::{self, Read, Write};
use std::path::{Path, PathBuf};
use std::{env, process};

/// How many bytes may be written before the program ends itself.
pub struct Left(pub Cell<usize>);

impl Left {
    fn write(&self, file: &mut File, bytes: &[u8]) -> io::Result<()> {
        for byte in bytes {
            match self.0.get().checked_sub(1) {
                Some(left) => self.0.set(left),
                None => process::abort(),
            }
            file.write_all(&[*byte])?;
        }
        file.sync_data()
    }
}

/// For the gate: a number that differs from start to start, so that an operation that was lost and done again is not the same.
pub fn salt() -> u64 {
    env::var("SALT").ok().and_then(|told| told.parse().ok()).unwrap_or(0)
}

/// For the gate: a line that is stored where it will not be lost is acknowledged to the file ACKNOWLEDGED.
pub fn acknowledge(line: &[u8]) -> io::Result<()> {
    match env::var("ACKNOWLEDGED") {
        Ok(name) => OpenOptions::new().append(true).create(true).open(name)?.write_all(line),
        Err(_) => Ok(()),
    }
}

/// A file, and how many bytes it holds.
pub struct Store<'left> {
    name: PathBuf,
    file: File,
    stored: usize,
    left: &'left Left,
}

impl<'left> Store<'left> {
    /// Opens a file, or makes it; gives what it holds, too.
    pub fn open(name: &str, left: &'left Left) -> io::Result<(Self, Vec<u8>)> {
        let mut file = OpenOptions::new().read(true).append(true).create(true).open(name)?;
        let mut bytes = Vec::new();
        let stored = file.read_to_end(&mut bytes)?;
        Ok((Store { name: name.into(), file, stored, left }, bytes))
    }

    /// Stores what is new in bytes of which it holds the first.
    pub fn grow(&mut self, bytes: &[u8]) -> io::Result<()> {
        let new = &bytes[self.stored.min(bytes.len())..];
        self.left.write(&mut self.file, new)?;
        self.stored = bytes.len();
        Ok(())
    }

    /// Cuts it to its first bytes: a last line that a kill has cut off does not count.
    pub fn cut(&mut self, bytes: usize) -> io::Result<()> {
        self.stored = bytes;
        self.file.set_len(bytes as u64)
    }

    /// Stores other bytes in its place: in a file beside it, which then takes its name.
    #[allow(dead_code, reason = "a log only grows")]
    pub fn replace(&mut self, bytes: &[u8]) -> io::Result<()> {
        let beside = Path::new(&self.name).with_extension("new");
        let mut file = OpenOptions::new().write(true).create(true).truncate(true).open(&beside)?;
        self.left.write(&mut file, bytes)?;
        rename(&beside, &self.name)?;
        self.file = OpenOptions::new().append(true).open(&self.name)?;
        self.stored = bytes.len();
        Ok(())
    }
}

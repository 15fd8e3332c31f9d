//! The files that the lines `read FILE` and `write FILE` name. Expected answers take them
//! from a shelf in memory, so that what the program under trial writes stays apart.

use std::collections::HashMap;
use std::ffi::OsStr;
use std::fs;
use std::os::unix::ffi::OsStrExt;

pub trait Files {
    fn read(&self, path: &[u8]) -> Option<Vec<u8>>;
    fn write(&mut self, path: &[u8], bytes: &[u8]) -> Option<()>;
}

/// Those of the system.
pub struct Disk;

impl Files for Disk {
    fn read(&self, path: &[u8]) -> Option<Vec<u8>> {
        fs::read(OsStr::from_bytes(path)).ok()
    }

    fn write(&mut self, path: &[u8], bytes: &[u8]) -> Option<()> {
        fs::write(OsStr::from_bytes(path), bytes).ok()
    }
}

/// Those of one run, in memory: what is there to read, and what was written. Only files
/// that are expected can be written.
#[derive(Clone, Debug, Default)]
pub struct Shelf {
    pub stored: HashMap<Vec<u8>, Vec<u8>>,
    pub written: HashMap<Vec<u8>, Option<Vec<u8>>>,
}

impl Shelf {
    pub fn expect(&mut self, path: &str) {
        self.written.insert(path.as_bytes().to_vec(), None);
    }
}

impl Files for Shelf {
    fn read(&self, path: &[u8]) -> Option<Vec<u8>> {
        self.stored.get(path).cloned()
    }

    fn write(&mut self, path: &[u8], bytes: &[u8]) -> Option<()> {
        *self.written.get_mut(path)? = Some(bytes.to_vec());
        Some(())
    }
}

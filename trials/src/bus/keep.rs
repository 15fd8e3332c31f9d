//! "`./bus FILE` keeps the image in that file from call to call: it is written anew and
//! put in its place in one step before the answer is printed, so that a stop at any moment
//! leaves the image before or after the call."

use super::files::Files;
use super::images::Images;
use super::Bus;
use std::fs;
use std::io::{self, Write};
use std::path::{Path, PathBuf};

/// A bus whose image lies in a file.
pub struct Kept<I: Images, F: Files> {
    bus: Bus<I, F>,
    path: PathBuf,
}

impl<I: Images, F: Files> Kept<I, F> {
    /// With what the file holds, where there is one.
    pub fn new(mut bus: Bus<I, F>, path: &Path) -> Kept<I, F> {
        if let Ok(image) = fs::read(path) {
            bus.set_image(image);
        }
        Kept { bus, path: path.to_path_buf() }
    }

    pub fn answer(&mut self, text: &[u8], out: &mut Vec<u8>) -> bool {
        let (before, length) = (self.bus.image().to_vec(), out.len());
        let answered = self.bus.answer(text, out);
        if self.bus.image() != before && replace(&self.path, self.bus.image()).is_err() {
            out.truncate(length);
            out.extend_from_slice(b"error the image cannot be kept");
            self.bus.set_image(before);
        }
        answered
    }
}

/// Another file is written and then takes the place of this one.
pub fn replace(path: &Path, bytes: &[u8]) -> io::Result<()> {
    let beside = path.with_extension("new");
    let mut file = fs::File::create(&beside)?;
    file.write_all(bytes)?;
    file.sync_all()?;
    fs::rename(&beside, path)
}

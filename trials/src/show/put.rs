//! A page put in its place in one step: whoever reads it has the old one or the new one, and where
//! that fails the old one is left.

use std::fs::{self, File};
use std::io::{self, Write};
use std::path::{Path, PathBuf};

/// Writes a page to a file.
pub fn put(path: &Path, page: &[u8]) -> io::Result<()> {
    // Where the name is a link, what it leads to is replaced, and not the link.
    let path = fs::canonicalize(path).unwrap_or(path.to_path_buf());
    match fs::metadata(&path) {
        // A pipe or a device is written to where it is; a folder says that it is one.
        Ok(found) if !found.is_file() => fs::write(&path, page),
        Ok(found) => replace(&path, page, Some(found.permissions())),
        Err(_) => replace(&path, page, None),
    }
}

fn replace(path: &Path, page: &[u8], rights: Option<fs::Permissions>) -> io::Result<()> {
    let beside = beside(path)?;
    let written = File::create_new(&beside).and_then(|mut file| {
        file.write_all(page)?;
        rights.map_or(Ok(()), |rights| file.set_permissions(rights))?;
        file.sync_all()?;
        fs::rename(&beside, path)
    });
    if written.is_err() {
        let _ = fs::remove_file(&beside);
    }
    written
}

/// A file of its own in the same folder, since only there it can take the other's place.
fn beside(path: &Path) -> io::Result<PathBuf> {
    let name = path.file_name().ok_or(io::ErrorKind::InvalidInput)?;
    let mut own = name.to_os_string();
    own.push(format!(".{}.new", std::process::id()));
    Ok(path.with_file_name(own))
}

//! A folder for the files of a run. It goes when nobody holds it any more.

use std::fs;
use std::io;
use std::path::{Path, PathBuf};
use std::sync::atomic::{AtomicUsize, Ordering};

pub struct Folder(PathBuf);

impl Folder {
    /// Of this process and this name, in memory where the system has a place for that: ten
    /// thousands of small files keep a disk busy.
    pub fn new(name: &str) -> io::Result<Folder> {
        static FOLDERS: AtomicUsize = AtomicUsize::new(0);
        let number = FOLDERS.fetch_add(1, Ordering::Relaxed);
        let name = format!("trials-{name}-{}-{number}", std::process::id());
        let in_memory = Path::new("/dev/shm").join(&name);
        let path = match fs::create_dir_all(&in_memory) {
            Ok(()) => in_memory,
            Err(_) => std::env::temp_dir().join(name),
        };
        fs::create_dir_all(&path)?;
        Ok(Folder(path))
    }

    pub fn path(&self) -> &Path {
        &self.0
    }

    /// The path of a file in it, as a line of a script names it.
    pub fn file(&self, name: &str) -> String {
        self.0.join(name).to_string_lossy().into_owned()
    }
}

impl Drop for Folder {
    fn drop(&mut self) {
        // A folder that stays behind does no harm.
        drop(fs::remove_dir_all(&self.0));
    }
}

//! Folders for the files of one run of a program.

use std::io::ErrorKind;
use std::path::PathBuf;
use std::sync::atomic::{AtomicUsize, Ordering};

/// A new folder below the folder for temporary files.
pub struct Folder {
    pub path: PathBuf,
}

impl Folder {
    pub fn new() -> Folder {
        static NUMBER: AtomicUsize = AtomicUsize::new(0);
        loop {
            let number = NUMBER.fetch_add(1, Ordering::Relaxed);
            let name = format!("differential-{}-{number}", std::process::id());
            let path = std::env::temp_dir().join(name);
            match std::fs::create_dir(&path) {
                Ok(()) => return Folder { path },
                // One that an earlier process has kept.
                Err(error) if error.kind() == ErrorKind::AlreadyExists => {}
                Err(error) => panic!("no folder {}: {error}", path.display()),
            }
        }
    }

    /// The folder is not needed any more. One that a difference was found in
    /// is kept.
    pub fn remove(self) {
        std::fs::remove_dir_all(&self.path).expect("a folder to remove");
    }
}

impl Default for Folder {
    fn default() -> Folder {
        Folder::new()
    }
}

//! The stored texts: the files of the folders of tests/cases and examples/.

use std::fs;
use std::path::{Path, PathBuf};

/// A folder's two texts, of which one that is absent or no file is `None`, and
/// what `report` prints there.
#[derive(Debug, Clone, PartialEq, Eq)]
pub struct Stored {
    pub folder: PathBuf,
    pub rules: Option<Vec<u8>>,
    pub cycle: Option<Vec<u8>>,
    pub stdout: Vec<u8>,
}

/// The texts of every folder, those of tests/cases first.
pub fn stored_texts() -> Vec<Stored> {
    let tests = Path::new(env!("CARGO_MANIFEST_DIR")).join("..");
    let folders = ["cases", "../examples"].map(|name| folders_of(&tests.join(name)));
    folders.concat().into_iter().map(texts_of).collect()
}

fn folders_of(parent: &Path) -> Vec<PathBuf> {
    let entries = fs::read_dir(parent).expect("a folder of stored texts");
    let paths = entries.map(|entry| entry.expect("an entry").path());
    let mut folders: Vec<PathBuf> = paths.filter(|path| path.is_dir()).collect();
    folders.sort();
    folders
}

fn texts_of(folder: PathBuf) -> Stored {
    Stored {
        rules: fs::read(folder.join("rules.tsv")).ok(),
        cycle: fs::read(folder.join("cycle.tsv")).ok(),
        stdout: fs::read(folder.join("stdout")).expect("what is printed"),
        folder,
    }
}

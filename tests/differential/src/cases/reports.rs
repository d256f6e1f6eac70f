//! Folders with the two files of `report`, valid, damaged, absent or no files.

use crate::cases::texts;
use crate::differ::{Difference, Mismatch};
use crate::folder::Folder;
use crate::report::Report;
use evaluator::damage::{damaged_cycle_text, damaged_rules_text};
use evaluator::random::{random_cycle, random_rules, Random};
use evaluator::{report, write_cycle, write_rules};
use std::path::Path;

pub const KIND: &str = "reports";

/// What is found under a file's name.
#[derive(Debug, Clone, PartialEq, Eq)]
pub enum File {
    Bytes(Vec<u8>),
    /// A link to a file with these bytes.
    Link(Vec<u8>),
    Absent,
    Folder,
    /// A link to nothing.
    LostLink,
}

impl File {
    /// The bytes that can be read; anything but a file counts as absent.
    pub fn bytes(&self) -> Option<Vec<u8>> {
        match self {
            File::Bytes(bytes) | File::Link(bytes) => Some(bytes.clone()),
            _ => None,
        }
    }

    /// Puts it in a folder under this name.
    pub fn put(&self, folder: &Path, name: &str) {
        let path = folder.join(name);
        let other = folder.join(format!("other-{name}"));
        let link = || std::os::unix::fs::symlink(&other, &path);
        let done = match self {
            File::Bytes(bytes) => std::fs::write(&path, bytes),
            File::Link(bytes) => std::fs::write(&other, bytes).and_then(|()| link()),
            File::Absent => Ok(()),
            File::Folder => std::fs::create_dir(&path),
            File::LostLink => link(),
        };
        done.expect("a file in a folder of its own");
    }

    fn shown(&self) -> String {
        match self {
            File::Bytes(bytes) | File::Link(bytes) => bytes.escape_ascii().to_string(),
            other => format!("{other:?}"),
        }
    }
}

/// Two files from a seed.
pub fn files(seed: u64) -> (File, File) {
    let mut random = Random::new(seed);
    let random = &mut random;
    let count = random.pick(&[0, 1, 1, 2, 3, 5, 16]);
    let rules = random_rules(random, count);
    let length = match random.one_in(20) {
        true => random.pick(&[255, 256, 257]),
        false => random.pick(&[0, 1, 2, 3, 5, 8, 12, 20, 40]),
    };
    let cycle = write_cycle(&random_cycle(random, &rules, length));
    let rules = write_rules(&rules);
    let rules = file(random, rules, damaged_rules_text);
    let cycle = file(random, cycle, damaged_cycle_text);
    (rules, cycle)
}

/// Mostly the valid text, now and then a damaged one, one of a size at the
/// limit, or no file.
fn file(random: &mut Random, valid: Vec<u8>, damaged: fn(&mut Random) -> Vec<u8>) -> File {
    match random.below(16) {
        0 => random.pick(&[0, 1, 2]).into(),
        1 => File::Link(valid),
        2 => {
            let length = random.pick(&[32_767, 32_768, 32_769, 65_536, 100_000]);
            File::Bytes(filled(random, valid, length))
        }
        3..=5 => File::Bytes(damaged(random)),
        _ => File::Bytes(valid),
    }
}

impl From<usize> for File {
    fn from(number: usize) -> File {
        match number {
            0 => File::Absent,
            1 => File::Folder,
            _ => File::LostLink,
        }
    }
}

/// A text of a length that no valid one has: more of its first line, a long
/// number, or empty lines.
pub fn filled(random: &mut Random, text: Vec<u8>, length: usize) -> Vec<u8> {
    let first = text.split_inclusive(|byte| *byte == b'\n').next();
    let more = match random.below(3) {
        0 => first.unwrap_or(b"\n").to_vec(),
        1 => b"9".to_vec(),
        _ => b"\n".to_vec(),
    };
    let mut bytes = text;
    while bytes.len() < length {
        bytes.extend_from_slice(&more);
    }
    bytes.truncate(length);
    if random.one_in(2) {
        bytes[length - 1] = b'\n';
    }
    bytes
}

/// Runs `report` on two files and compares what it prints.
pub fn compare(
    program: &Report,
    seed: u64,
    rules: &File,
    cycle: &File,
) -> Result<(), Box<Difference>> {
    let folder = Folder::new();
    rules.put(&folder.path, "rules.tsv");
    cycle.put(&folder.path, "cycle.tsv");
    let found = program.printed(&folder.path);
    let expected = report(rules.bytes(), cycle.bytes());
    if found.as_ref() == Ok(&expected) {
        folder.remove();
        return Ok(());
    }
    let shown = |bytes: &[u8]| format!("\n{}", String::from_utf8_lossy(bytes));
    let mismatch = Mismatch {
        expected: shown(&expected),
        found: found.map_or_else(|wrong| wrong, |bytes| shown(&bytes)),
    };
    let (rules, cycle) = (rules.shown(), cycle.shown());
    Err(Box::new(Difference {
        kind: KIND,
        seed,
        given: format!(
            "folder {}\nrules.tsv: {rules}\ncycle.tsv: {cycle}",
            folder.path.display()
        ),
        script: Vec::new(),
        mismatch,
    }))
}

/// Two texts as the pairs for the notebook have them, as files.
pub fn texts_of(seed: u64) -> (File, File) {
    let (rules, cycle) = texts::pair(seed);
    (File::Bytes(rules), File::Bytes(cycle))
}

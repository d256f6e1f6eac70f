//! A `Counted` comes from `counted_of` alone: the compiler refuses a crate that
//! makes one of its own. `rt must-fail` takes only what reaches the prover, so
//! this stands here. `rt` is needed; it refuses the crate before it proves any.

use differential::folder::Folder;
use std::fs;
use std::path::Path;
use std::process::Command;

const FORGER: &str = "use standings::totals::Totals;
use tally::Counted;

pub fn forged(totals: Totals) -> Counted {
    Counted { answer: Ok(totals) }
}
";

/// Copies a folder, without what `rt` made in it.
fn copy_all(from: &Path, to: &Path) {
    fs::create_dir_all(to).expect("a folder");
    for entry in fs::read_dir(from).expect("a folder of the crates") {
        let entry = entry.expect("an entry");
        let (from, to) = (entry.path(), to.join(entry.file_name()));
        if from.is_file() {
            fs::copy(from, to).expect("a copy");
        } else if entry.file_name() != "out" {
            copy_all(&from, &to);
        }
    }
}

/// A repository of the crates of this one and `forger`.
fn repository() -> Folder {
    let here = Path::new(env!("CARGO_MANIFEST_DIR")).join("../..");
    let here = here.canonicalize().expect("the repository");
    let folder = Folder::new();
    copy_all(&here.join("crates"), &folder.path.join("crates"));
    let crates = fs::read_to_string(here.join("crates.txt")).expect("crates.txt");
    let crates = format!("{crates}forger: declare run standings tally\n");
    fs::write(folder.path.join("crates.txt"), crates).expect("crates.txt");
    let source = folder.path.join("crates/forger/src");
    fs::create_dir_all(&source).expect("a folder");
    fs::write(source.join("lib.rt"), FORGER).expect("the crate");
    folder
}

#[test]
fn a_forged_counted_is_refused() {
    let folder = repository();
    let output = Command::new("rt")
        .arg("check")
        .current_dir(folder.path.join("crates/forger"))
        .output()
        .expect("rt runs");
    let printed = String::from_utf8_lossy(&output.stdout).into_owned();
    let errors: Vec<&str> = printed.lines().filter(|l| l.contains("error")).collect();
    let private = |l: &&str| {
        l.contains("error[private-field]: ") && l.ends_with(" of struct `Counted` is private")
    };
    assert!(!output.status.success(), "{printed}");
    assert!(
        !errors.is_empty() && errors.iter().all(private),
        "{printed}"
    );
    folder.remove();
}

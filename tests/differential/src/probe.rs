//! The program `probe`: a whole script in, all answers out.

use crate::folder::Folder;
use std::fs::File;
use std::path::{Path, PathBuf};
use std::process::{Command, ExitStatus};

/// All answers and dumps of a script, in order, and how the program ended if
/// that was not well.
pub struct Answers {
    pub bytes: Vec<u8>,
    pub bad_end: Option<String>,
}

/// Something that answers a script as PROBE.md says.
pub trait Program {
    fn answers(&self, script: &[u8]) -> Answers;
}

/// Where a program is: the path in an environment variable, or
/// `crates/NAME/out/NAME` of the repository.
pub fn path_of(variable: &str, name: &str) -> PathBuf {
    let crates = Path::new(env!("CARGO_MANIFEST_DIR")).join("../../crates");
    let built = crates.join(name).join("out").join(name);
    let path = std::env::var_os(variable).map_or(built, PathBuf::from);
    let found = path.canonicalize();
    found.unwrap_or_else(|error| panic!("the program {} is missing: {error}", path.display()))
}

/// `probe` as a program to run.
pub struct Probe {
    path: PathBuf,
}

impl Probe {
    /// The program that the variable PROBE names, or the one that was built.
    pub fn find() -> Probe {
        Probe {
            path: path_of("PROBE", "probe"),
        }
    }

    fn run(&self, input: File, output: File) -> ExitStatus {
        let status = Command::new(&self.path)
            .stdin(input)
            .stdout(output)
            .status();
        status.unwrap_or_else(|error| panic!("{} does not run: {error}", self.path.display()))
    }
}

impl Program for Probe {
    /// Script and answers go through files, so that neither side waits for the
    /// other.
    fn answers(&self, script: &[u8]) -> Answers {
        let folder = Folder::new();
        let (input, output) = (folder.path.join("script"), folder.path.join("answers"));
        std::fs::write(&input, script).expect("a file for the script");
        let status = self.run(
            File::open(&input).expect("the script"),
            File::create(&output).expect("a file for the answers"),
        );
        let bytes = std::fs::read(&output).expect("the answers");
        folder.remove();
        let bad_end = (!status.success()).then(|| format!("probe ended with {status}"));
        Answers { bytes, bad_end }
    }
}

//! The program `report`, run in a folder of its own.

use crate::probe::path_of;
use std::path::{Path, PathBuf};
use std::process::{Child, Command, Output, Stdio};
use std::time::{Duration, Instant};

/// `report` as a program to run.
pub struct Report {
    path: PathBuf,
}

impl Report {
    /// The program that the variable REPORT names, or the one that was built.
    pub fn find() -> Report {
        Report {
            path: path_of("REPORT", "report"),
        }
    }

    fn command(&self, folder: &Path) -> Command {
        let mut command = Command::new(&self.path);
        command
            .current_dir(folder)
            .stdin(Stdio::null())
            .stdout(Stdio::piped())
            .stderr(Stdio::piped());
        command
    }

    /// The same after a line for the shell, which can have a signal ignored.
    fn command_after(&self, line: &str, folder: &Path) -> Command {
        let mut command = Command::new("bash");
        command
            .args(["-c", &format!("{line}; exec \"$0\"")])
            .arg(&self.path)
            .current_dir(folder)
            .stdin(Stdio::null())
            .stderr(Stdio::piped());
        command
    }

    /// What it prints in a folder.
    pub fn printed(&self, folder: &Path) -> Result<Vec<u8>, String> {
        let output = self.command(folder).output();
        ended(output.map_err(|error| error.to_string())?)
    }

    /// What it says on standard error if its standard output goes there.
    pub fn said(&self, folder: &Path, output: impl Into<Stdio>) -> Result<Vec<u8>, String> {
        said_by(self.command(folder).stdout(output))
    }

    /// The same after a line for the shell.
    pub fn said_after(
        &self,
        line: &str,
        folder: &Path,
        output: impl Into<Stdio>,
    ) -> Result<Vec<u8>, String> {
        said_by(self.command_after(line, folder).stdout(output))
    }

    /// What it prints, if it ends within a time limit. What it prints has to
    /// fit in a pipe.
    pub fn printed_within(&self, folder: &Path, limit: Duration) -> Result<Vec<u8>, String> {
        let child = self.command(folder).spawn();
        let mut child = child.map_err(|error| error.to_string())?;
        if !ends_within(&mut child, limit) {
            drop(child.kill());
            drop(child.wait());
            return Err(format!("it did not end within {limit:?}"));
        }
        let output = child.wait_with_output();
        ended(output.map_err(|error| error.to_string())?)
    }
}

fn ends_within(child: &mut Child, limit: Duration) -> bool {
    let begin = Instant::now();
    while begin.elapsed() < limit {
        if child.try_wait().expect("the state of report").is_some() {
            return true;
        }
        std::thread::sleep(Duration::from_millis(2));
    }
    false
}

fn said_by(command: &mut Command) -> Result<Vec<u8>, String> {
    let output = command.output().map_err(|error| error.to_string())?;
    without_signal(&output)?;
    Ok(output.stderr)
}

/// It has nothing to say on standard error if all could be printed.
fn ended(output: Output) -> Result<Vec<u8>, String> {
    without_signal(&output)?;
    match output.stderr.is_empty() {
        true => Ok(output.stdout),
        false => Err(format!("it said: {}", output.stderr.escape_ascii())),
    }
}

/// Document 01 names no status, so each one will do; a signal will not.
fn without_signal(output: &Output) -> Result<(), String> {
    match output.status.code() {
        Some(_) => Ok(()),
        None => Err(format!("it ended with {}", output.status)),
    }
}

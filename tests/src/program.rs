//! The programs under test, run as child processes on standard input.

use std::io::{Read, Write};
use std::path::PathBuf;
use std::process::{Command, Stdio};
use std::sync::mpsc;
use std::thread;
use std::time::Duration;

/// A run that takes longer than this is ended and counts as a difference.
const LONGEST_RUN: Duration = Duration::from_secs(60);

/// Where the programs `frame`, `report`, `replay` and `explain` are.
#[derive(Clone)]
pub enum Place {
    /// Each in its crate, below this folder of crates, where it is built: NAME/out/NAME.
    Crates(PathBuf),
    /// Side by side in this folder.
    Folder(PathBuf),
}

impl Place {
    fn program(&self, name: &str) -> PathBuf {
        match self {
            Place::Crates(crates) => crates.join(name).join("out").join(name),
            Place::Folder(folder) => folder.join(name),
        }
    }
}

/// The programs under test.
pub struct Programs {
    place: Place,
}

impl Programs {
    /// The programs at this place; an error names the first one that is missing.
    pub fn new(place: Place) -> Result<Programs, String> {
        for name in ["frame", "report", "replay", "explain"] {
            let path = place.program(name);
            if !path.is_file() {
                return Err(format!("there is no program {}", path.display()));
            }
        }
        Ok(Programs { place })
    }

    /// What the program prints for this input. A line is added where it ends by a signal or not at all.
    pub fn run(&self, name: &str, input: &[u8]) -> Vec<u8> {
        let mut child = Command::new(self.place.program(name))
            .stdin(Stdio::piped())
            .stdout(Stdio::piped())
            .spawn()
            .unwrap_or_else(|error| panic!("{name} cannot be started: {error}"));
        let mut to_child = child.stdin.take().expect("standard input is piped");
        let mut from_child = child.stdout.take().expect("standard output is piped");
        let input = input.to_vec();
        // A program may stop reading before the end of its input: that is no fault by itself.
        thread::spawn(move || to_child.write_all(&input));
        let (sender, receiver) = mpsc::channel();
        thread::spawn(move || {
            let mut printed = Vec::new();
            let read = from_child.read_to_end(&mut printed);
            sender.send(read.map(|_| printed))
        });
        let mut printed = match receiver.recv_timeout(LONGEST_RUN) {
            Ok(read) => read.expect("standard output can be read"),
            Err(_) => {
                child.kill().expect("the program can be ended");
                b"the program did not end\n".to_vec()
            }
        };
        let status = child.wait().expect("the program was started");
        if status.code().is_none() {
            printed.extend(format!("the program ended by {status}\n").bytes());
        }
        printed
    }
}

#[cfg(test)]
mod tests {
    use super::*;

    #[test]
    fn where_a_program_is() {
        let built = Place::Crates(PathBuf::from("crates"));
        assert_eq!(built.program("frame"), PathBuf::from("crates/frame/out/frame"));
        let beside = Place::Folder(PathBuf::from("bin"));
        assert_eq!(beside.program("frame"), PathBuf::from("bin/frame"));
    }

    #[test]
    fn a_program_that_is_missing_is_named() {
        let missing = Programs::new(Place::Folder(PathBuf::from("no/such/folder"))).err();
        assert_eq!(missing.as_deref(), Some("there is no program no/such/folder/frame"));
    }
}

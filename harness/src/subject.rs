//! What is compared: this implementation, the two programs, or the C export.

use std::io::{self, Read, Write};
use std::path::{Path, PathBuf};
use std::process::{Command, Stdio};
use std::sync::mpsc::{self, RecvTimeoutError};
use std::sync::Mutex;
use std::thread;
use std::time::Duration;

/// An implementation of document 01.
pub trait Subject: Sync {
    /// What the calendar program prints, if there is one.
    fn calendar(&self, text: &[u8]) -> Option<io::Result<Vec<u8>>>;

    /// What the dispatch program prints.
    fn dispatch(&self, text: &[u8]) -> io::Result<Vec<u8>>;
}

/// The implementation of this crate.
pub struct Own;

impl Subject for Own {
    fn calendar(&self, text: &[u8]) -> Option<io::Result<Vec<u8>>> {
        Some(Ok(crate::calendar_output(text)))
    }

    fn dispatch(&self, text: &[u8]) -> io::Result<Vec<u8>> {
        Ok(crate::dispatch_output(text))
    }
}

/// The programs `calendar` and `dispatch` of a folder, a process for each text.
pub struct Programs {
    pub folder: PathBuf,
}

impl Subject for Programs {
    fn calendar(&self, text: &[u8]) -> Option<io::Result<Vec<u8>>> {
        Some(run(&self.folder.join("calendar"), text))
    }

    fn dispatch(&self, text: &[u8]) -> io::Result<Vec<u8>> {
        run(&self.folder.join("dispatch"), text)
    }
}

/// A pipe holds this much at least before its writer has to wait.
const PIPE: usize = 60_000;

/// A program that takes longer is ended.
const PATIENCE: Duration = Duration::from_secs(20);

fn run(program: &Path, text: &[u8]) -> io::Result<Vec<u8>> {
    let mut child = Command::new(program).stdin(Stdio::piped()).stdout(Stdio::piped()).spawn()?;
    let (input, mut output) = (child.stdin.take().unwrap(), child.stdout.take().unwrap());
    // The pipe is closed after the text. A program that stops reading earlier is no fault here: its output tells.
    let write = move || {
        let mut input = input;
        drop(input.write_all(text));
    };
    let child = Mutex::new(child);
    let mut answers = Vec::new();
    thread::scope(|scope| {
        let (done, is_done) = mpsc::channel::<()>();
        let child = &child;
        scope.spawn(move || {
            if is_done.recv_timeout(PATIENCE) == Err(RecvTimeoutError::Timeout) {
                drop(child.lock().unwrap().kill());
            }
        });
        if text.len() <= PIPE {
            write();
        } else {
            scope.spawn(write);
        }
        let read = output.read_to_end(&mut answers);
        drop(done);
        read
    })?;
    let status = child.into_inner().unwrap().wait()?;
    if !status.success() {
        return Err(io::Error::other(format!("the program ended otherwise than with 0: {status}")));
    }
    Ok(answers)
}

#[cfg(test)]
mod tests {
    use super::*;

    #[test]
    fn a_program_gets_the_whole_text_and_its_end() {
        for size in [0, 10, PIPE, 65_536, 300_000] {
            let text = vec![b'x'; size];
            assert!(run(Path::new("cat"), &text).unwrap() == text, "{size}");
        }
        assert_eq!(run(Path::new("true"), b"unread").unwrap(), b"");
        assert!(run(Path::new("false"), b"").is_err());
    }
}

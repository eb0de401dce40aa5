//! The tool while it waits for a file.

use std::io::{BufRead, BufReader, Read};
use std::process::{Child, Command, Stdio};
use std::sync::mpsc::{self, Receiver};
use std::thread;
use std::time::Duration;

use super::folder::Folder;
use super::tool;

/// So long a line is waited for that is to come at once.
const PATIENCE: Duration = Duration::from_secs(60);

/// The tool at work on files of which one, `pipe`, a pipe that nobody writes to, is never read to its end.
pub struct Waiting {
    tool: Child,
    lines: Receiver<String>,
}

impl Waiting {
    pub fn start(folder: &Folder, words: &[&str]) -> Waiting {
        let pipe = Command::new("mkfifo").arg(folder.path("pipe")).status();
        assert!(pipe.unwrap().success());
        let mut command = tool();
        command.current_dir(&folder.0).args(words);
        let mut tool = command
            .stdout(Stdio::piped())
            .stderr(Stdio::piped())
            .spawn()
            .unwrap();
        let output = BufReader::new(tool.stdout.take().unwrap());
        let (to, lines) = mpsc::channel();
        thread::spawn(move || output.lines().try_for_each(|line| to.send(line.unwrap())));
        Waiting { tool, lines }
    }

    /// The next line.
    pub fn line(&self) -> String {
        self.lines.recv_timeout(PATIENCE).expect("a line at once")
    }

    pub fn send(&self, signal: &str) {
        let sent = Command::new("kill")
            .args([signal, &self.tool.id().to_string()])
            .status();
        assert!(sent.unwrap().success());
    }

    /// The lines that are left, the exit status and what was complained of.
    pub fn end(mut self) -> (Vec<String>, Option<i32>, String) {
        let lines = std::iter::from_fn(|| self.lines.recv_timeout(PATIENCE).ok()).collect();
        let mut complaints = String::new();
        self.tool
            .stderr
            .take()
            .unwrap()
            .read_to_string(&mut complaints)
            .unwrap();
        (lines, self.tool.wait().unwrap().code(), complaints)
    }
}

impl Drop for Waiting {
    /// Nothing goes on after a test that failed.
    fn drop(&mut self) {
        let _ = self.tool.kill();
    }
}

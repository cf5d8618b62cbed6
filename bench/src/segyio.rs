//! segyio's side, in a Python process of its own that stands ready between the calls.

use std::io::{BufRead, BufReader, Write};
use std::path::Path;
use std::process::{Child, ChildStdin, ChildStdout, Command, Stdio};

pub struct Segyio {
    child: Child,
    asked: Option<ChildStdin>,
    answers: BufReader<ChildStdout>,
}

impl Segyio {
    /// Starts an interpreter that has segyio.
    pub fn start(python: &str) -> Segyio {
        let script = concat!(env!("CARGO_MANIFEST_DIR"), "/segyio_side.py");
        let mut child = Command::new(python)
            .arg("-B")
            .arg(script)
            .stdin(Stdio::piped())
            .stdout(Stdio::piped())
            .spawn()
            .expect("the Python interpreter starts");
        Segyio {
            asked: child.stdin.take(),
            answers: BufReader::new(child.stdout.take().expect("its standard output")),
            child,
        }
    }

    pub fn ask(&mut self, what: &str) -> String {
        let asked = self.asked.as_mut().expect("its standard input");
        writeln!(asked, "{what}").expect("segyio's side listens");
        let mut answer = String::new();
        let length = self.answers.read_line(&mut answer);
        assert!(length.is_ok_and(|length| length > 0), "segyio's side ended");
        answer.trim().into()
    }

    /// The reel in a file is that of what follows.
    pub fn open(&mut self, code: u32, path: &Path) {
        self.ask(&format!("open {code} {}", path.display()));
    }

    pub fn seconds(&mut self, what: &str) -> f64 {
        self.ask(what).parse().expect("a number of seconds")
    }
}

impl Drop for Segyio {
    fn drop(&mut self) {
        self.asked = None;
        let _ = self.child.wait();
    }
}

//! The programs where they are not linked: `rt try` compiles each without a proof and runs it, and what it writes is held
//! to what is due.

use std::io::Write;
use std::path::{Path, PathBuf};
use std::process::{Command, Stdio};
use std::thread;

/// `rt try` gives no answer where a program writes more.
pub const MOST_WRITTEN: usize = 1 << 20;
/// The steps that the interpreter of `rt try` gets: these inputs take more than it has, so the compiled run alone answers.
const STEPS: &str = "1";

/// What a program wrote, held to what is due.
#[derive(Debug, PartialEq)]
pub enum Written {
    AsDue,
    /// The first byte that differs, and how the line goes on from there.
    Else {
        at: usize,
        said: String,
    },
    /// It took longer than it may.
    Late,
}

/// A program's crate.
pub struct Folder {
    own: PathBuf,
}

impl Folder {
    /// The crate of a program of the repository at `root`.
    pub fn new(root: &Path, program: &'static str) -> Result<Self, String> {
        let own = root.join("crates").join(program);
        let own = own.canonicalize().map_err(|e| format!("{}: {e}", own.display()))?;
        Ok(Self { own })
    }

    /// Compiles the program and gives it the input.
    pub fn run(&self, input: &[u8], due: &[u8]) -> Result<Written, String> {
        let mut command = Command::new("rt");
        command.args(["try", "--steps", STEPS]).current_dir(&self.own);
        command.stdin(Stdio::piped()).stdout(Stdio::piped()).stderr(Stdio::piped());
        let mut child = command.spawn().map_err(|e| format!("rt: {e}"))?;
        let mut stdin = child.stdin.take().ok_or("rt: no standard input")?;
        let output = thread::scope(|scope| {
            // a program that ends before its input does is no failure
            scope.spawn(move || stdin.write_all(input).ok());
            child.wait_with_output()
        });
        let output = output.map_err(|e| format!("rt: {e}"))?;
        written(&String::from_utf8_lossy(&output.stderr), &output.stdout, due)
    }
}

/// Reads the report of `rt try`, and holds what the program wrote to what is due.
fn written(report: &str, wrote: &[u8], due: &[u8]) -> Result<Written, String> {
    let ran = report.lines().find_map(|line| line.strip_prefix("checked: "));
    match ran {
        Some(ran) if ran.starts_with("ended status=0") => Ok(held(wrote, due)),
        Some(ran) if ran.ends_with("did not end within the time limit") => Ok(Written::Late),
        _ => Err(format!("rt try does not say that the program ended:\n{report}")),
    }
}

/// The first byte that differs, and what was written from there to the end of its line.
fn held(wrote: &[u8], due: &[u8]) -> Written {
    if wrote == due {
        return Written::AsDue;
    }
    let at = wrote.iter().zip(due).take_while(|(a, b)| a == b).count();
    let line = wrote[at..].split(|b| *b == b'\n').next().unwrap_or_default();
    Written::Else { at, said: String::from_utf8_lossy(line).into_owned() }
}

#[cfg(test)]
mod tests {
    use super::*;

    const INTERPRETED: &str = "interpreter: no-answer: the run did not finish within 1 step: the program may loop forever\n";
    const ENDED: &str = "checked: ended status=0\nrun=ended status=0 runners=1 proved=no\n";

    #[test]
    fn the_compiled_run_as_due() {
        assert_eq!(written(&format!("{INTERPRETED}{ENDED}"), b"0\n", b"0\n"), Ok(Written::AsDue));
        let late = "checked: no-answer: the program did not end within the time limit\nrun=no-answer proved=no\n";
        assert_eq!(written(&format!("{INTERPRETED}{late}"), b"", b"0\n"), Ok(Written::Late));
        assert!(written(INTERPRETED, b"0\n", b"0\n").is_err());
    }

    #[test]
    fn the_first_byte_that_differs() {
        let due = Written::Else { at: 12, said: "H".to_owned() };
        let wrote = written(&format!("{INTERPRETED}{ENDED}"), b"H\nH\nH\nH\nH\nH\nH\nV\n", b"H\nH\nH\nH\nH\nH\nV\nH\n");
        assert_eq!(wrote, Ok(due));
    }
}

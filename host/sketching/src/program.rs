//! A program that is asked line by line.

use std::env;
use std::io::{BufRead, BufReader, BufWriter, Write};
use std::path::{Path, PathBuf};
use std::process::{Child, ChildStdin, ChildStdout, Command, Stdio};

/// What a program answers: the items of a listing, then `ok` with numbers or a refusal.
#[derive(Clone, Debug, PartialEq, Eq)]
pub struct Reply {
    pub items: Vec<Vec<u32>>,
    /// The entries of a sheet: each `ok` with numbers, or its refusal.
    pub entries: Vec<Result<Vec<u32>, u32>>,
    pub said: Result<Vec<u32>, u32>,
}

pub struct Program {
    child: Child,
    input: BufWriter<ChildStdin>,
    output: BufReader<ChildStdout>,
}

fn numbers(words: &str) -> Vec<u32> {
    words.split_whitespace().filter_map(|word| word.parse().ok()).collect()
}

/// `ok ..` or `refused ..`; of a refusal its number alone.
fn said(line: &str) -> Option<Result<Vec<u32>, u32>> {
    let line = line.split("  #").next().unwrap_or("");
    if let Some(rest) = line.strip_prefix("ok") {
        return Some(Ok(numbers(rest)));
    }
    let rest = line.strip_prefix("refused ")?;
    Some(Err(numbers(rest).first().copied()?))
}

impl Program {
    /// The program of this name: that of the variable, or what `host/programs.sh` made.
    pub fn path(name: &str) -> Result<PathBuf, String> {
        let made = || Path::new(env!("CARGO_MANIFEST_DIR")).join("../../target/bin").join(name);
        let variable = format!("KANHTREV_{}", name.to_uppercase());
        let path = env::var_os(variable).map_or_else(made, PathBuf::from);
        if path.is_file() {
            return Ok(path);
        }
        Err(format!("there is no program {}: run `bash host/programs.sh {name}` at the root of the repository", path.display()))
    }

    pub fn start(path: &Path) -> Result<Self, String> {
        let child = Command::new(path).stdin(Stdio::piped()).stdout(Stdio::piped()).spawn();
        let mut child = child.map_err(|error| format!("{}: {error}", path.display()))?;
        let input = BufWriter::new(child.stdin.take().expect("a pipe"));
        let output = BufReader::new(child.stdout.take().expect("a pipe"));
        Ok(Self { child, input, output })
    }

    /// Gives a line to the program and reads its answer.
    pub fn ask(&mut self, line: &str) -> Result<Reply, String> {
        self.tell(line)?;
        self.flush()?;
        self.hear().map_err(|error| format!("{line}: {error}"))
    }

    pub fn tell(&mut self, line: &str) -> Result<(), String> {
        writeln!(self.input, "{line}").map_err(|error| error.to_string())
    }

    pub fn flush(&mut self) -> Result<(), String> {
        self.input.flush().map_err(|error| error.to_string())
    }

    /// Reads one answer.
    pub fn hear(&mut self) -> Result<Reply, String> {
        let mut reply = Reply { items: Vec::new(), entries: Vec::new(), said: Ok(Vec::new()) };
        loop {
            let mut line = String::new();
            if self.output.read_line(&mut line).map_err(|error| error.to_string())? == 0 {
                return Err("the program has ended".to_string());
            }
            let line = line.trim_end();
            match line.strip_prefix("  ") {
                Some(item) => match said(item) {
                    Some(entry) => reply.entries.push(entry),
                    None => reply.items.push(numbers(item)),
                },
                None => {
                    reply.said = said(line).ok_or(format!("it says `{line}`"))?;
                    return Ok(reply);
                }
            }
        }
    }
}

impl Drop for Program {
    fn drop(&mut self) {
        let _ = self.tell("quit").and_then(|()| self.flush());
        let _ = self.child.wait();
    }
}

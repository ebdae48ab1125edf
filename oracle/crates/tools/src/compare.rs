//! Two programs on one script: the first difference, shrunk to few calls.

use crate::script::{goes_on_to, read_line, without_mark, without_remark, Call, Line};
use std::fs::File;
use std::path::PathBuf;
use std::process::{Command, Stdio};
use std::time::{Duration, Instant};

/// A program of the session script: a command, and how long one run may take.
pub struct Program {
    pub command: String,
    pub seconds: u64,
}

/// A sequence on which two programs differ, its last call being the one that shows it.
pub struct Difference {
    pub lines: Vec<String>,
    pub left: Vec<String>,
    pub right: Vec<String>,
    /// Where in the whole script the difference was seen first, counted from 1.
    pub seen_at: usize,
}

/// The lines of a script that get an answer.
pub fn calls(script: &str) -> Vec<String> {
    let answered = |line: &&str| !matches!(read_line(line), Line::Blank);
    without_mark(script).lines().filter(answered).map(|line| without_remark(line).to_string()).collect()
}

/// None where the programs agree on every answer. A difference is shrunk for so many seconds at the most.
pub fn compare(left: &Program, right: &Program, lines: &[String], shrinking: u64) -> Result<Option<Difference>, String> {
    let Some(at) = first_difference(left, right, lines)? else { return Ok(None) };
    let start = lines[..at].iter().rposition(|line| is_new(line)).map_or(0, |new| new + 1);
    let sequence = lines[start..(at + 1).min(lines.len())].to_vec();
    let alone = differing(left, right, std::slice::from_ref(&sequence))?;
    // What differs only after earlier sequences is shown whole.
    let found = match alone {
        Some(_) => shrink(left, right, sequence, Instant::now() + Duration::from_secs(shrinking))?,
        None => lines[..(at + 1).min(lines.len())].to_vec(),
    };
    let lines: Vec<String> = [vec!["new".to_string()], found].concat();
    let (left, right) = (left.run(&lines)?, right.run(&lines)?);
    Ok(Some(Difference { lines, left, right, seen_at: at + 1 }))
}

/// With the floor left out: one that is given may be refused, and what went before then counts.
fn is_new(line: &str) -> bool {
    matches!(read_line(line), Line::Call(Call::New { floor: None }))
}

fn first_difference(left: &Program, right: &Program, lines: &[String]) -> Result<Option<usize>, String> {
    let (a, b) = (left.run(lines)?, right.run(lines)?);
    // A missing or an extra answer is a difference too.
    Ok((0..a.len().max(b.len()).max(lines.len())).find(|i| a.get(*i) != b.get(*i) || a.get(*i).is_none()))
}

/// Lines to one run while shrinking: a program may be slow to start, and what comes after the first difference is for nothing.
const LINES_TO_A_RUN: usize = 5000;

/// Takes out parts, then smaller parts, as long as the rest still differs and there is time.
fn shrink(left: &Program, right: &Program, mut sequence: Vec<String>, end: Instant) -> Result<Vec<String>, String> {
    let mut size = sequence.len().div_ceil(2);
    loop {
        let before = sequence.len();
        let mut from = 0;
        while from < sequence.len() {
            if Instant::now() > end {
                return Ok(sequence);
            }
            let starts = (from..sequence.len()).step_by(size).take((LINES_TO_A_RUN / sequence.len()).max(1));
            let candidates: Vec<Vec<String>> = starts.map(|start| without(&sequence, start, size)).collect();
            match differing(left, right, &candidates)? {
                Some(found) => {
                    from += found * size;
                    sequence = candidates[found].clone();
                }
                None => from += candidates.len() * size,
            }
        }
        if size == 1 && sequence.len() == before {
            return Ok(sequence);
        }
        size = size.div_ceil(2);
    }
}

fn without(sequence: &[String], start: usize, size: usize) -> Vec<String> {
    [&sequence[..start], &sequence[(start + size).min(sequence.len())..]].concat()
}

/// The first candidate on which the programs differ, all tried in one run.
fn differing(left: &Program, right: &Program, candidates: &[Vec<String>]) -> Result<Option<usize>, String> {
    let script: Vec<String> = candidates.iter().flat_map(|lines| with_new(lines)).collect();
    let (a, b) = (left.run(&script)?, right.run(&script)?);
    if candidates.len() > 1 && (a.len() != script.len() || b.len() != script.len()) {
        // One broke off: each has to show its own end.
        for (i, candidate) in candidates.iter().enumerate() {
            if differing(left, right, std::slice::from_ref(candidate))?.is_some() {
                return Ok(Some(i));
            }
        }
        return Ok(None);
    }
    let mut start = 0;
    for (i, candidate) in candidates.iter().enumerate() {
        let end = start + candidate.len() + 1;
        if (start..end).any(|k| a.get(k) != b.get(k)) {
            return Ok(Some(i));
        }
        start = end;
    }
    Ok(None)
}

fn with_new(lines: &[String]) -> Vec<String> {
    [&["new".to_string()], lines].concat()
}

impl Program {
    /// The answers to a script, remarks cut off.
    pub fn run(&self, lines: &[String]) -> Result<Vec<String>, String> {
        let script = Scratch::new("script");
        let output = Scratch::new("output");
        let trouble = |e: std::io::Error| format!("{}: {e}", self.command);
        std::fs::write(&script.0, lines.join("\n") + "\n").map_err(trouble)?;
        // Out of time, the program goes with the shell that started it, and what it has said so far is its answer.
        let status = Command::new("timeout")
            .args(["--signal=KILL", &self.seconds.to_string(), "sh", "-c", &self.command])
            .stdin(Stdio::from(File::open(&script.0).map_err(trouble)?))
            .stdout(Stdio::from(File::create(&output.0).map_err(trouble)?))
            .status()
            .map_err(trouble)?;
        // The ways of timeout and of the shell to say that there is no such program.
        if matches!(status.code(), Some(125..=127)) {
            return Err(format!("{}: cannot be run", self.command));
        }
        let text = std::fs::read(&output.0).map_err(trouble)?;
        Ok(answers(&String::from_utf8_lossy(&text)))
    }
}

fn answers(output: &str) -> Vec<String> {
    let mut answers: Vec<String> = Vec::new();
    let mut inside = None;
    for line in output.lines().map(without_remark).filter(|line| !line.is_empty()) {
        match answers.last_mut() {
            Some(answer) if inside.is_some() => *answer += &format!("\n{line}"),
            _ => answers.push(line.to_string()),
        }
        inside = goes_on_to(inside, line);
    }
    answers
}

#[cfg(test)]
mod tests {
    use super::*;

    #[test]
    fn answers_of_several_lines_are_one() {
        let output = "done\ndump clock 0\nkind 0 0 0 0 0\nend\nat 1 list 1 0 0 1 # 1.000000\nat 2 list 1 0 0 2\ndone\ndone\nedge 0\n";
        let found = answers(output);
        assert_eq!(found, ["done", "dump clock 0\nkind 0 0 0 0 0\nend", "at 1 list 1 0 0 1\nat 2 list 1 0 0 2\ndone", "done", "edge 0"]);
    }
}

/// A file that goes when it is no longer needed.
struct Scratch(PathBuf);

impl Scratch {
    fn new(name: &str) -> Scratch {
        use std::sync::atomic::{AtomicU64, Ordering};
        static COUNT: AtomicU64 = AtomicU64::new(0);
        let count = COUNT.fetch_add(1, Ordering::Relaxed);
        Scratch(std::env::temp_dir().join(format!("compare-{}-{count}-{name}", std::process::id())))
    }
}

impl Drop for Scratch {
    fn drop(&mut self) {
        let _ = std::fs::remove_file(&self.0);
    }
}

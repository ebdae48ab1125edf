//! compare [--seconds N] [--shrinking N] LEFT RIGHT SCRIPT: two commands on one script.
//! Ends with 0 where every answer is the same, 1 with a shrunk sequence where not, 2 where something could not be run.

use tools::compare::{calls, compare, Difference, Program};
use tools::give_up;

fn main() {
    let mut words: Vec<String> = std::env::args().skip(1).collect();
    let seconds = option(&mut words, "--seconds", 600);
    let shrinking = option(&mut words, "--shrinking", 60);
    let ([left, right, file], 1..) = (words.as_slice(), seconds) else {
        give_up("usage: compare [--seconds N] [--shrinking N] LEFT RIGHT SCRIPT, with a second or more");
    };
    let text = std::fs::read(file).unwrap_or_else(|e| give_up(&format!("compare: {file}: {e}")));
    let lines = calls(&String::from_utf8_lossy(&text));
    let program = |command: &String| Program { command: command.clone(), seconds };
    match compare(&program(left), &program(right), &lines, shrinking) {
        Err(why) => give_up(&format!("compare: {why}")),
        Ok(None) => println!("same: {} calls", lines.len()),
        Ok(Some(difference)) => {
            show(&difference, left, right);
            std::process::exit(1);
        }
    }
}

/// Takes an option and its number out of the words.
fn option(words: &mut Vec<String>, name: &str, default: u64) -> u64 {
    let Some(at) = words.iter().position(|word| word == name) else { return default };
    let number = words.get(at + 1).and_then(|n| n.parse().ok()).unwrap_or_else(|| give_up(&format!("compare: {name} takes a number")));
    words.drain(at..at + 2);
    number
}

fn show(difference: &Difference, left: &str, right: &str) {
    println!("different: call {} of the script; shrunk to {} calls", difference.seen_at, difference.lines.len());
    for (i, line) in difference.lines.iter().enumerate() {
        println!("{line}");
        let none = "(no answer)".to_string();
        let a = difference.left.get(i).unwrap_or(&none);
        let b = difference.right.get(i).unwrap_or(&none);
        if a == b && a != &none {
            continue;
        }
        println!("    # {left}:\n{}\n    # {right}:\n{}", indented(a), indented(b));
    }
}

/// As remarks, so that what is printed can be run again.
fn indented(answer: &str) -> String {
    answer.lines().map(|line| format!("    #   {line}")).collect::<Vec<_>>().join("\n")
}

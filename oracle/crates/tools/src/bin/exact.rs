//! exact [--mark] [SCRIPT]: cuts a script to the domain on which the Rust as given is compared.
//! With --mark every line stays and those outside get a remark. The counts go to standard error.

use std::io::Write;
use tools::exact::Judge;
use tools::script::{lines, read_line, Line};

fn main() {
    let mark = std::env::args().any(|word| word == "--mark");
    let mut out = std::io::BufWriter::new(std::io::stdout());
    let mut judge = Judge::default();
    let (mut within, mut calls) = (0u64, 0u64);
    for line in lines(tools::input()) {
        let line = line.unwrap_or_else(|e| tools::give_up(&format!("exact: {e}")));
        let read = read_line(&line);
        let admitted = judge.admits(&read);
        if !matches!(read, Line::Blank) {
            calls += 1;
            within += u64::from(admitted);
        }
        let written = match (admitted, mark) {
            (true, _) => writeln!(out, "{line}"),
            (false, true) => writeln!(out, "{line} # outside"),
            (false, false) => Ok(()),
        };
        written.unwrap_or_else(|e| tools::give_up(&format!("exact: {e}")));
    }
    out.flush().unwrap_or_else(|e| tools::give_up(&format!("exact: {e}")));
    eprintln!("exact: {within} of {calls} calls in the domain");
}

//! The session script, the layer that answers it over a copy of flows.rs, and what feeds and compares programs.

pub mod compare;
pub mod directed;
pub mod exact;
pub mod generator;
pub mod random;
pub mod script;
pub mod session;
pub mod tolerances;

use std::io::{BufRead, BufReader, BufWriter};

/// A driver: answers the script on standard input or in the file named; `--about` says what it is.
pub fn drive(make: session::Maker, common: bool, about: &str) {
    if std::env::args().any(|word| word == "--about") {
        return println!("{about}");
    }
    let mut session = session::Session::new(make, common);
    if let Err(e) = session::run(&mut session, input(), BufWriter::new(std::io::stdout())) {
        give_up(&e.to_string());
    }
}

/// The file named as argument, else standard input.
pub fn input() -> Box<dyn BufRead> {
    match std::env::args().skip(1).find(|word| !word.starts_with("--")) {
        None => Box::new(BufReader::new(std::io::stdin())),
        Some(name) => match std::fs::File::open(&name) {
            Ok(file) => Box::new(BufReader::new(file)),
            Err(e) => give_up(&format!("cannot read {name}: {e}")),
        },
    }
}

pub fn give_up(why: &str) -> ! {
    eprintln!("{why}");
    std::process::exit(2);
}

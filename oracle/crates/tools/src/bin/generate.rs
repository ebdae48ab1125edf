//! generate SEED COUNT PROFILE: COUNT lines of random script on standard output.

use std::io::{ErrorKind, Write};
use tools::generator::{profile, script};

fn main() {
    let words: Vec<String> = std::env::args().skip(1).collect();
    let Some((seed, count, profile)) = read(&words) else {
        eprintln!("usage: generate SEED COUNT whole|wild|plans|crowd|wrong|ties");
        std::process::exit(2);
    };
    let text = script(seed, count, profile).join("\n") + "\n";
    let mut out = std::io::stdout();
    match out.write_all(text.as_bytes()).and_then(|()| out.flush()) {
        // A reader that stops early is no fault of ours.
        Err(e) if e.kind() != ErrorKind::BrokenPipe => tools::give_up(&format!("generate: {e}")),
        _ => {}
    }
}

fn read(words: &[String]) -> Option<(u64, usize, tools::generator::Profile)> {
    let [seed, count, name] = words else { return None };
    Some((seed.parse().ok()?, count.parse().ok()?, profile(name)?))
}

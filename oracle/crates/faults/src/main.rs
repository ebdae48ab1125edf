//! faults VECTORS CALLS SEED: runs every seeded fault against the vectors and against a random run, and prints the page
//! that says what caught it. Ends with 1 where one got through.

mod odd_slots;

use copies::{plain, simulator, slots};
use std::collections::hash_map::DefaultHasher;
use std::hash::{Hash, Hasher};
use std::panic::{catch_unwind, AssertUnwindSafe};
use std::path::Path;
use tools::generator::{script, PROFILES};
use tools::give_up;
use tools::script::{read_line, Line};
use tools::session::{Maker, Session};

include!("../list.rs");
include!(concat!(env!("OUT_DIR"), "/modules.rs"));

/// A script with a mark of each right answer.
struct Run {
    name: String,
    lines: Vec<Line>,
    marks: Vec<u64>,
}

fn main() {
    let words: Vec<String> = std::env::args().skip(1).collect();
    let Some((folder, calls, seed)) = read(&words) else { give_up("usage: faults VECTORS CALLS SEED") };
    let vectors = vectors(Path::new(folder));
    let random = random_runs(calls, seed);
    let total: usize = random.iter().map(|run| run.lines.len()).sum();
    println!("{}", heading(total, seed));
    // A fault that panics is caught too; its message is of no use here.
    std::panic::set_hook(Box::new(|_| {}));
    let rows = verdicts(&vectors, &random);
    let (faulty, harmless) = rows.split_at(FAULTS.len());
    let missed = show_faults(faulty);
    println!("\n{} faults, {missed} not caught; {} vector files, {total} random calls.", FAULTS.len(), vectors.len());
    let told_apart = show_harmless(harmless);
    std::process::exit(i32::from(missed > 0 || told_apart > 0));
}

fn read(words: &[String]) -> Option<(&String, usize, u64)> {
    let [folder, calls, seed] = words else { return None };
    Some((folder, calls.parse().ok()?, seed.parse().ok()?))
}

/// What stands above the table, with the settings of this run.
fn heading(calls: usize, seed: u64) -> String {
    let last = seed + PROFILES.len() as u64 - 1;
    let settings = [("CALLS", calls.to_string()), ("FIRST", seed.to_string()), ("LAST", last.to_string())];
    settings.iter().fold(include_str!("../page.md").to_string(), |page, (name, value)| page.replace(name, value))
}

/// Where the vectors and where the profiles of the random run caught a copy, each place where it happens first.
type Verdict = (Vec<String>, Vec<String>);

/// The table of faults; answers how many got through.
fn show_faults(rows: &[Verdict]) -> usize {
    println!("| fault | what is wrong | by the vectors | by the random run | profiles | caught by |\n|---|---|---|---|---|---|");
    let mut missed = 0;
    for (fault, (by_vectors, by_random)) in FAULTS.iter().zip(rows) {
        let caught = match (by_vectors.is_empty(), by_random.is_empty()) {
            (false, false) => "both",
            (false, true) => "vectors",
            (true, false) => "random",
            (true, true) => "**nothing**",
        };
        missed += usize::from(by_vectors.is_empty() && by_random.is_empty());
        let first = |found: &[String]| found.first().cloned().unwrap_or("-".to_string());
        let profiles = format!("{} of {}", by_random.len(), PROFILES.len());
        println!("| {} | {} | {} | {} | {profiles} | {caught} |", fault.name, fault.wrong, first(by_vectors), first(by_random));
    }
    missed
}

/// The list of edits that change nothing; answers how many did after all.
fn show_harmless(rows: &[Verdict]) -> usize {
    println!("\n## Edits that change nothing\n\nLooked at too, and told apart by no call:\n");
    let mut told_apart = 0;
    for (edit, verdict) in HARMLESS.iter().zip(rows) {
        let apart = !(verdict.0.is_empty() && verdict.1.is_empty());
        let mark = if apart { " **told apart after all**" } else { "" };
        told_apart += usize::from(apart);
        println!("- {}: {}{mark}", edit.name, edit.wrong);
    }
    told_apart
}

/// Two threads, each with every second fault.
fn verdicts(vectors: &[Run], random: &[Run]) -> Vec<Verdict> {
    let verdict = |make: Maker| (caught(make, vectors).take(1).collect(), caught(make, random).collect());
    let half = |odd: usize| (odd..MAKERS.len()).step_by(2).map(|i| (i, verdict(MAKERS[i]))).collect::<Vec<_>>();
    let mut all = std::thread::scope(|scope| {
        let other = scope.spawn(|| half(1));
        let mut mine = half(0);
        mine.extend(other.join().expect("panics are caught inside"));
        mine
    });
    all.sort_by_key(|(i, _)| *i);
    all.into_iter().map(|(_, verdict)| verdict).collect()
}

fn vectors(folder: &Path) -> Vec<Run> {
    let entries = std::fs::read_dir(folder).unwrap_or_else(|e| give_up(&format!("{}: {e}", folder.display())));
    let mut files: Vec<_> = entries.flatten().map(|entry| entry.path()).collect();
    files.retain(|file| file.extension().is_some_and(|e| e == "session"));
    files.sort();
    let read = |file: &std::path::PathBuf| {
        let text = std::fs::read_to_string(file).unwrap_or_else(|e| give_up(&e.to_string()));
        let name = file.file_stem().unwrap_or_default().to_string_lossy().into_owned();
        run_of(name, text.lines().map(read_line).collect())
    };
    files.iter().map(read).collect()
}

fn random_runs(calls: usize, seed: u64) -> Vec<Run> {
    let each = calls.div_ceil(PROFILES.len());
    let make = |(i, (name, profile)): (usize, &(&str, _))| {
        let lines = script(seed + i as u64, each, *profile);
        run_of(name.to_string(), lines.iter().map(|line| read_line(line)).collect())
    };
    PROFILES.iter().enumerate().map(make).collect()
}

fn run_of(name: String, lines: Vec<Line>) -> Run {
    let lines: Vec<Line> = lines.into_iter().filter(|line| !matches!(line, Line::Blank)).collect();
    let mut session = Session::new(copies::patched, false);
    let marks = lines.iter().map(|line| mark(&session.answer_line(line))).collect();
    Run { name, lines, marks }
}

fn mark(answer: &Option<String>) -> u64 {
    let mut hasher = DefaultHasher::new();
    answer.hash(&mut hasher);
    hasher.finish()
}

/// In each run where a faulty copy first gives another answer, or breaks down.
fn caught(make: Maker, runs: &[Run]) -> impl Iterator<Item = String> + '_ {
    runs.iter().filter_map(move |run| caught_at(make, run).map(|call| format!("{} {call}", run.name)))
}

/// A right copy needs some hundred steps at the most.
const MOST_STEPS: usize = 2000;

fn caught_at(make: Maker, run: &Run) -> Option<usize> {
    let mut session = Session::new(make, false);
    session.most_steps = MOST_STEPS;
    for (i, line) in run.lines.iter().enumerate() {
        let answer = catch_unwind(AssertUnwindSafe(|| session.answer_line(line)));
        if answer.map_or(true, |answer| mark(&answer) != run.marks[i]) {
            return Some(i + 1);
        }
    }
    None
}

//! Scripts made for places that random calls do not find. Each is run while it is made, and what it is made for is asserted.

mod bottlenecks;
mod cases;
mod fillings;
mod floors;
mod limits;
mod orders;
mod refusals;
mod steps;
mod time_left;
mod tolerance;
mod watching;

use crate::script::{hex, read_line, write_double, write_path};
use crate::session::Session;
use crate::tolerances::{neighbours, B, F};

const TWO_20: f64 = (1 << 20) as f64;
const LATEST: f64 = (1u64 << 40) as f64;
const LEAST: f64 = f64::from_bits(1);
const MOST_BYTES: u64 = 1 << 53;

/// The name of each file and its lines.
pub fn scripts() -> Vec<(&'static str, Vec<String>)> {
    vec![
        ("cases", cases::cases()),
        ("fillings", fillings::fillings()),
        ("bytes-left", tolerance::bytes_left()),
        ("drain-time", tolerance::drain_time()),
        ("latency-left", tolerance::latency_left()),
        ("next-done", tolerance::next_done()),
        ("time-left", time_left::time_left()),
        ("watching", watching::watching()),
        ("floors", floors::floors()),
        ("bottlenecks", bottlenecks::bottlenecks()),
        ("steps", steps::steps()),
        ("equal-caps", orders::equal_caps()),
        ("many-caps", orders::many_caps()),
        ("clamp", orders::clamp()),
        ("refusals", refusals::refusals()),
        ("limits", limits::limits()),
        ("full", limits::full()),
    ]
}

/// A script being made, with the session that has answered it so far.
struct Book {
    lines: Vec<String>,
    session: Session,
}

impl Book {
    fn new() -> Book {
        Book { lines: Vec::new(), session: Session::new(copies::patched, false) }
    }

    /// A fresh simulator, and a remark that says what follows.
    fn begin(&mut self, remark: &str) {
        self.lines.push(format!("# {remark}"));
        self.say("new");
    }

    fn say(&mut self, line: &str) -> String {
        self.lines.push(line.to_string());
        self.session.answer_line(&read_line(line)).expect("a call")
    }

    /// A call whose answer is known before.
    fn expect(&mut self, line: &str, answer: &str) {
        let given = self.say(line);
        let begun = self.lines.iter().rposition(|l| l == "new").unwrap_or(0);
        assert_eq!(given, answer, "call {} of {}", self.lines.len() - begun, self.lines[begun.saturating_sub(1)]);
    }

    /// The time left once all is drained and filled.
    fn settled(&mut self, id: u32, answer: &str) {
        self.expect("settle", "done");
        self.expect(&format!("remaining {id}"), &format!("{answer} current"));
    }

    fn all(&mut self, lines: &[&str]) {
        lines.iter().for_each(|line| drop(self.say(line)));
    }

    /// A refusal that must leave no trace.
    fn refuses(&mut self, line: &str, number: u32) {
        let before = self.state();
        self.expect(line, &format!("refused {number}"));
        assert_eq!(self.state(), before, "{line} left a trace");
    }

    fn state(&mut self) -> String {
        self.session.answer_line(&read_line("dump")).expect("a dump")
    }

    fn transfer(&self, id: u32) -> copies::TransferView {
        self.session.sim.transfers().into_iter().find(|t| t.id == id).expect("in flight")
    }

    /// What a reader asks when the interesting moment is reached.
    fn look(&mut self) {
        self.all(&["dump", "next_completion_delay", "rounds", "dump"]);
    }
}

fn value(v: f64) -> String {
    format!("value {}", hex(v))
}

fn after(v: f64) -> String {
    format!("after {}", hex(v))
}

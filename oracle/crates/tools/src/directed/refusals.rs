//! Each refusal alone and each pair that can meet.

use super::*;
use std::collections::BTreeSet;

/// The arguments of a submission, to be spoilt one by one.
#[derive(Clone)]
pub(super) struct Submit {
    pub(super) id: u32,
    pub(super) bytes: u64,
    pub(super) latency: f64,
    pub(super) cap: Option<f64>,
    pub(super) time: f64,
    pub(super) path: Vec<u32>,
}

impl Submit {
    pub(super) fn line(&self) -> String {
        let cap = self.cap.map_or("-".to_string(), write_double);
        let (latency, time) = (write_double(self.latency), write_double(self.time));
        format!("submit {} 0 0 {} {latency} {cap} {time} {}", self.id, self.bytes, write_path(&self.path))
    }
}

/// What makes a submission refused, with its number.
pub(super) type Cause = (u32, fn(&mut Submit));

pub(super) const SUBMIT_CAUSES: [Cause; 18] = [
    (1, |s| s.latency = f64::NAN),
    (1, |s| s.latency = f64::INFINITY),
    (1, |s| s.latency = f64::NEG_INFINITY),
    (1, |s| s.cap = Some(f64::NAN)),
    (1, |s| s.cap = Some(f64::INFINITY)),
    (1, |s| s.cap = Some(-LEAST)),
    (1, |s| s.time = f64::NAN),
    (1, |s| s.time = f64::INFINITY),
    (1, |s| s.time = LATEST.next_up()),
    (1, |s| s.time = -LEAST),
    (1, |s| s.time = f64::NEG_INFINITY),
    (2, |s| s.time = s.time.next_down()),
    (2, |s| s.time = 0.0),
    (3, |s| s.path.insert(0, 2)),
    (3, |s| s.path.push(u32::MAX)),
    (4, |s| s.path = [vec![0; 7], s.path.clone()].concat()),
    (5, |s| s.bytes = MOST_BYTES + 1),
    (6, |s| s.id = 1),
];

/// Two edges, a transfer in flight, completions waiting, the clock at 4.
fn busy_state(b: &mut Book, remark: &str) {
    b.begin(remark);
    b.all(&["add_edge 10", "add_edge 4", "submit 1 0 0 100 0 - 0 2 0 1", "submit 2 1 0 12 0 - 0 1 0", "submit 3 0 7 0 1 - 0 0"]);
    b.all(&["advance 2 768", "advance 4 768"]);
}

pub(super) fn refusals() -> Vec<String> {
    let mut book = Book::new();
    submit_refusals(&mut book);
    let b = &mut book;
    busy_state(b, "the other calls: each refusal alone and each pair that can meet");
    for time in [f64::NAN, f64::INFINITY, f64::NEG_INFINITY, -LEAST, -1.0, LATEST.next_up(), f64::MAX] {
        b.refuses(&format!("advance {} 0", hex(time)), 1);
    }
    b.refuses("advance 0 0", 2);
    b.refuses(&format!("advance {} 768", hex(4f64.next_down())), 2);
    for amount in [f64::NAN, f64::INFINITY, f64::NEG_INFINITY] {
        b.refuses(&format!("widen 0 {}", hex(amount)), 1);
        b.refuses(&format!("widen 2 {}", hex(amount)), 1);
        b.refuses(&format!("add_edge {}", hex(amount)), 1);
        b.refuses(&format!("mean_in_flight 0 {}", hex(amount)), 1);
        b.refuses(&format!("mean_in_flight 2 {}", hex(amount)), 1);
    }
    b.refuses("widen 2 1", 3);
    b.refuses("widen 2 -1000", 3);
    b.refuses("widen 4294967295 0", 3);
    b.refuses("widen 0 -1000", 1);
    b.refuses("mean_in_flight 2 1", 3);
    b.refuses("mean_in_flight 2 -1", 3);
    b.refuses("edge 2", 3);
    b.refuses("edge 4294967295", 3);
    estimate_refusals(b);
    b.all(&["counts", "dump"]);
    unknowns(b);
    book.lines
}

fn submit_refusals(b: &mut Book) {
    busy_state(b, "submission: each refusal alone, then each pair");
    let sound = Submit { id: 9, bytes: 10, latency: 0.0, cap: None, time: 4.0, path: vec![0, 1] };
    for (number, spoil) in SUBMIT_CAUSES {
        let mut one = sound.clone();
        spoil(&mut one);
        b.refuses(&one.line(), number);
    }
    let mut met = BTreeSet::new();
    for (i, (low, first)) in SUBMIT_CAUSES.iter().enumerate() {
        for (high, second) in &SUBMIT_CAUSES[i + 1..] {
            // A second cause must not undo the first: two times, say, are one time.
            let (mut both, mut other) = (sound.clone(), sound.clone());
            first(&mut both);
            second(&mut both);
            second(&mut other);
            first(&mut other);
            let undone = both.line() != other.line() && (*low, *high) != (3, 4);
            if low != high && !undone {
                b.refuses(&both.line(), *low);
                met.insert((low, high));
            }
        }
    }
    assert_eq!(met.len(), 15, "every pair of 1 to 6");
    let below_zero = Submit { time: -1.0, ..sound.clone() };
    b.refuses(&below_zero.line(), 1);
    let all = Submit { id: 1, bytes: u64::MAX, latency: f64::NAN, cap: Some(-1.0), time: -1.0, path: vec![5; 128] };
    b.refuses(&all.line(), 1);
    b.expect(&sound.line(), "done");
    b.say("dump");
}

fn estimate_refusals(b: &mut Book) {
    let absent_and_long = "9 0 0 0 0 0 0 0 0 2";
    let long = "9 0 0 0 0 0 0 0 0 0";
    for bad in [f64::NAN, f64::INFINITY, f64::NEG_INFINITY, -LEAST, -1.0] {
        b.refuses(&format!("estimate_new {} 0 - 1 0", hex(bad)), 1);
        b.refuses(&format!("estimate_new 1 0 {} 1 0", hex(bad)), 1);
        b.refuses(&format!("estimate_new {} 0 - 1 2", hex(bad)), 1);
        b.refuses(&format!("estimate_new {} 0 - {long}", hex(bad)), 1);
        b.refuses(&format!("estimate_new 1 0 {} {absent_and_long}", hex(bad)), 1);
    }
    for bad in [f64::NAN, f64::INFINITY, f64::NEG_INFINITY] {
        b.refuses(&format!("estimate_new 1 {} - 1 0", hex(bad)), 1);
        b.refuses(&format!("estimate_new 1 {} - 0", hex(bad)), 1);
        b.refuses(&format!("estimate_new 1 {} - 1 2", hex(bad)), 1);
        b.refuses(&format!("estimate_new 1 {} - {long}", hex(bad)), 1);
    }
    b.refuses("estimate_new 1 0 - 1 2", 3);
    b.refuses(&format!("estimate_new 1 0 - {absent_and_long}"), 3);
    b.refuses(&format!("estimate_new 1 0 - {long}"), 4);
    b.say("estimate_new 1 0 - 8 0 0 0 0 0 0 0 0");
}

/// What is no refusal: unknown ids and an empty take.
fn unknowns(b: &mut Book) {
    busy_state(b, "unknown ids and takes with nothing waiting");
    b.say("widen 0 0");
    let before = b.state();
    b.expect("cancel 77", "unknown");
    b.expect("take_completed 0 0 0", "nothing");
    b.expect("take_completed 2 0 5", "nothing");
    b.expect("contains 77", "no");
    assert_eq!(b.state(), before);
    b.expect("remaining 77", "unknown behind");
    assert_eq!(b.state(), before);
    // This one brings rates up to date all the same.
    assert!(b.session.sim.stale());
    b.expect("rate 77", "unknown");
    assert!(!b.session.sim.stale());
    b.all(&["dump", "next_completion_delay", "advance 5 768", "dump"]);
    b.expect("remaining 77", "unknown behind");
    let behind = b.transfer(1).last;
    b.settled(77, "unknown");
    assert!(b.transfer(1).last > behind, "settling drains");
    b.say("dump");
}

//! `remaining` only reads: what it says while the last drain lies before the clock or rates are stale, what it says once that is settled, and that no question
//! leaves a trace.

use super::*;
use crate::tolerances::{eps_at, whole_over_double};

const CANNOT: &str = "cannot_finish";
const UNKNOWN: &str = "unknown";
const NOBODY: &str = "list 0 tail-kept";

pub(super) fn watching() -> Vec<String> {
    let mut book = Book::new();
    let b = &mut book;
    before_any_drain(b);
    quiet_advances(b);
    before_a_filling(b);
    filled_without_a_drain(b);
    after_a_change(b);
    after_nothing(b);
    after_a_list(b);
    nobody_in_flight(b);
    without_limit(b);
    at_eps(b);
    eps_grows(b);
    eps_grows_exactly(b);
    watched_and_unwatched(b);
    book.lines
}

/// Asks as it stands; a question must leave no trace.
fn asks(b: &mut Book, id: u32, answer: &str) {
    let before = b.state();
    b.expect(&format!("remaining {id}"), answer);
    assert_eq!(b.state(), before, "a question left a trace");
}

fn behind(b: &mut Book, id: u32, answer: &str) {
    asks(b, id, &format!("{answer} behind"));
}

fn current(b: &mut Book, id: u32, answer: &str) {
    asks(b, id, &format!("{answer} current"));
}

fn before_any_drain(b: &mut Book) {
    b.begin("a fresh simulator was drained at 0, and an edge makes rates stale");
    current(b, 1, UNKNOWN);
    b.expect("advance 0 768", NOBODY);
    current(b, 1, UNKNOWN);
    b.expect("add_edge 10", "edge 0");
    behind(b, 1, UNKNOWN);
    b.expect("rate 1", UNKNOWN);
    current(b, 1, UNKNOWN);
    b.say("dump");
    b.begin("the clock moves and nothing was ever drained");
    for time in [5, 7] {
        b.expect(&format!("advance {time} 768"), NOBODY);
        behind(b, 1, UNKNOWN);
    }
    b.say("dump");
    b.settled(1, UNKNOWN);
    b.say("dump");
}

fn quiet_advances(b: &mut Book) {
    b.begin("after quiet advances the time is as at the last drain, until it is settled");
    b.all(&["add_edge 10", "submit 1 0 0 100 0 - 0 1 0"]);
    b.expect("next_completion_delay", &after(10.0));
    current(b, 1, &value(10.0));
    for time in [2, 4] {
        b.expect(&format!("advance {time} 768"), NOBODY);
        behind(b, 1, &value(10.0));
        behind(b, 9, UNKNOWN);
    }
    b.say("dump");
    b.settled(1, &value(6.0));
    current(b, 9, UNKNOWN);
    b.say("dump");
    b.expect("advance 9 768", NOBODY);
    behind(b, 1, &value(6.0));
    b.expect("advance 10 768", "list 1 0 0 1 tail-kept");
    behind(b, 1, UNKNOWN);
    b.settled(1, UNKNOWN);
    b.say("dump");

    b.begin("the same with a latency to pay");
    b.all(&["add_edge 4", "submit 1 0 0 8 3 - 0 1 0"]);
    b.expect("next_completion_delay", &after(5.0));
    b.expect("advance 2 768", NOBODY);
    behind(b, 1, &value(5.0));
    b.settled(1, &value(3.0));
    // The latency ends at 3, and of the 8 bytes 4 have moved by 4.
    b.expect("advance 4 768", NOBODY);
    behind(b, 1, &value(3.0));
    b.settled(1, &value(1.0));
    b.say("dump");
}

/// Nobody has a rate yet, or each still has the one from before.
fn before_a_filling(b: &mut Book) {
    b.begin("between a submission and its filling: no rate, so no time but a latency's; the others at their old rates");
    b.all(&["add_edge 10", "submit 1 0 0 100 0 - 0 1 0"]);
    behind(b, 1, CANNOT);
    b.all(&["submit 2 1 0 0 3 - 0 1 0", "submit 3 2 0 0 0 - 0 0", "submit 4 0 0 1 2 - 0 0"]);
    behind(b, 1, CANNOT);
    behind(b, 2, &value(3.0));
    behind(b, 3, &value(0.0));
    behind(b, 4, CANNOT);
    behind(b, 9, UNKNOWN);
    b.say("dump");
    b.expect("cancel 4", "done");
    b.expect("next_completion_delay", &after(0.0));
    // Without bytes nobody takes part in a filling: the first has all of the edge.
    current(b, 1, &value(10.0));
    current(b, 2, &value(3.0));
    current(b, 3, &value(0.0));
    b.expect("advance 0 768", "list 1 2 0 3 tail-kept");
    behind(b, 3, UNKNOWN);
    b.expect("rate 1", &value(10.0));
    b.expect("advance 2 768", NOBODY);
    behind(b, 1, &value(10.0));
    b.say("submit 5 0 0 40 0 - 2 1 0");
    // The submission has drained: 80 bytes are left, at 10 a second still.
    behind(b, 1, &value(8.0));
    behind(b, 2, &value(1.0));
    behind(b, 5, CANNOT);
    behind(b, 9, UNKNOWN);
    b.say("dump");
    b.settled(1, &value(16.0));
    current(b, 2, &value(1.0));
    current(b, 5, &value(8.0));
    b.say("dump");
}

/// A question that fills is enough where the last drain is the clock's, and not where it is not.
fn filled_without_a_drain(b: &mut Book) {
    for question in ["next_completion_delay", "rate 2", "rate 9", "bottleneck 2", "bottleneck 9"] {
        b.begin(&format!("{question} brings rates up to date and drains nobody"));
        b.all(&["add_edge 10", "submit 1 0 0 100 0 - 0 1 0", "submit 2 1 0 100 0 - 4 1 0"]);
        behind(b, 1, &value(6.0));
        behind(b, 2, CANNOT);
        b.say(question);
        current(b, 1, &value(12.0));
        current(b, 2, &value(20.0));
        b.expect("advance 5 768", NOBODY);
        b.say(question);
        behind(b, 1, &value(12.0));
        behind(b, 9, UNKNOWN);
        b.say("dump");
    }
}

/// A change drains to the clock and makes rates stale: what is left is the clock's, and rates are those from before.
fn after_a_change(b: &mut Book) {
    for (change, done, second_stale, first, second) in [
        ("widen 0 10", "done", value(16.0), 8.0, value(8.0)),
        ("add_edge 3", "edge 1", value(16.0), 16.0, value(16.0)),
        ("cancel 2", "done", UNKNOWN.to_string(), 8.0, UNKNOWN.to_string()),
    ] {
        b.begin(&format!("{change} after a quiet advance: drained and stale"));
        b.all(&["add_edge 10", "submit 1 0 0 100 0 - 0 1 0", "submit 2 1 0 100 0 - 0 1 0"]);
        b.expect("next_completion_delay", &after(20.0));
        b.expect("advance 4 768", NOBODY);
        behind(b, 1, &value(20.0));
        behind(b, 9, UNKNOWN);
        b.expect(change, done);
        // 20 of 100 bytes have moved, at 5 a second.
        behind(b, 1, &value(16.0));
        behind(b, 2, &second_stale);
        behind(b, 9, UNKNOWN);
        b.say("dump");
        b.settled(1, &value(first));
        current(b, 2, &second);
        current(b, 9, UNKNOWN);
        b.say("dump");
    }
}

fn after_nothing(b: &mut Book) {
    b.begin("what is refused or finds nobody drains nothing");
    b.all(&["add_edge 10", "submit 1 0 0 100 0 - 0 1 0", "next_completion_delay", "advance 4 768"]);
    for (line, answer) in [("cancel 7", UNKNOWN), ("widen 7 1", "refused 3"), ("submit 1 0 0 1 0 - 5 0", "refused 6"), ("advance 3 768", "refused 2")] {
        b.expect(line, answer);
        behind(b, 1, &value(10.0));
    }
    for line in ["remaining", "remaining 1 1", "remaining -1", "remaining 4294967296", "settle 1", "estimate_remaining 1"] {
        b.expect(line, "malformed");
        behind(b, 1, &value(10.0));
    }
    b.settled(1, &value(6.0));
    b.say("dump");
}

fn after_a_list(b: &mut Book) {
    b.begin("who is listed is gone, and who is left was drained and keeps its rate until the filling");
    b.all(&["add_edge 10", "submit 1 0 0 100 0 - 0 1 0", "submit 2 1 0 40 0 - 0 1 0"]);
    b.expect("next_completion_delay", &after(8.0));
    b.expect("advance 3 768", NOBODY);
    behind(b, 1, &value(20.0));
    behind(b, 2, &value(8.0));
    b.expect("advance 8 768", "list 1 1 0 2 tail-kept");
    behind(b, 1, &value(12.0));
    behind(b, 2, UNKNOWN);
    b.say("dump");
    b.settled(1, &value(6.0));
    current(b, 2, UNKNOWN);
    b.say("dump");
}

/// A drain counts with nobody in flight too.
fn nobody_in_flight(b: &mut Book) {
    b.begin("nobody is in flight, and a drain is one all the same");
    b.all(&["add_edge 10", "submit 1 0 0 10 0 - 0 1 0"]);
    b.expect("advance 1 768", "list 1 0 0 1 tail-kept");
    behind(b, 1, UNKNOWN);
    b.expect("next_completion_delay", "never");
    current(b, 1, UNKNOWN);
    b.expect("advance 3 768", NOBODY);
    behind(b, 1, UNKNOWN);
    b.say("dump");
    b.settled(1, UNKNOWN);
    b.say("dump");
    for change in ["widen 0 0", "add_edge 1"] {
        b.say(&format!("advance {} 768", b.session.sim.now() + 2.0));
        behind(b, 1, UNKNOWN);
        b.say(change);
        behind(b, 1, UNKNOWN);
        b.expect("rate 1", UNKNOWN);
        current(b, 1, UNKNOWN);
        b.say("dump");
    }
    b.expect("advance 8 768", NOBODY);
    b.expect("submit 2 0 0 0 0 - 9 0", "done");
    behind(b, 2, &value(0.0));
    b.settled(2, &value(0.0));
    b.expect("advance 9 768", "list 1 0 0 2 tail-kept");
    behind(b, 2, UNKNOWN);
    b.say("dump");
}

/// Rates and times past every double.
fn without_limit(b: &mut Book) {
    b.begin("no path and no cap: no rate before the filling, and then an infinite one");
    b.say("submit 1 0 0 1000 0 - 0 0");
    behind(b, 1, CANNOT);
    b.expect("next_completion_delay", &after(0.0));
    current(b, 1, &value(0.0));
    b.say("submit 2 0 0 1000 3 - 0 0");
    behind(b, 1, &value(0.0));
    behind(b, 2, CANNOT);
    behind(b, 9, UNKNOWN);
    b.settled(2, &value(3.0));
    current(b, 9, UNKNOWN);
    b.expect("advance 0 768", "list 1 0 0 1 tail-kept");
    behind(b, 2, &value(3.0));
    b.expect("rate 2", &value(f64::INFINITY));
    b.expect("advance 2 768", NOBODY);
    behind(b, 2, &value(3.0));
    b.settled(2, &value(1.0));
    b.say("dump");
    b.begin("the least rate: a time without end, behind and settled");
    b.all(&["add_edge 0000000000000001", "submit 1 0 0 9007199254740992 0 - 0 1 0"]);
    behind(b, 1, CANNOT);
    b.settled(1, &value(f64::INFINITY));
    b.expect("advance 5 768", NOBODY);
    behind(b, 1, &value(f64::INFINITY));
    b.expect("widen 0 8000000000000001", "done");
    behind(b, 1, &value(f64::INFINITY));
    b.settled(1, CANNOT);
    b.expect("advance 6 768", NOBODY);
    behind(b, 1, CANNOT);
    b.say("dump");
}

/// What is left is eps at the clock or a neighbour of it, asked while rates are stale and when they are not.
fn at_eps(b: &mut Book) {
    for clock in [0.0, 12345.678, TWO_20] {
        let (eps, at) = (eps_at(clock), write_double(clock));
        for (i, target) in neighbours(eps).into_iter().enumerate() {
            let name = ["below eps", "exactly eps", "above eps"][i];
            let told = value(if target <= eps { 0.0 } else { target });
            b.begin(&format!("latency left {name} at clock {clock}"));
            b.say(&format!("advance {at} 768"));
            b.say(&format!("submit 1 0 0 0 {} - {at} 0", hex(target)));
            behind(b, 1, &told);
            behind(b, 9, UNKNOWN);
            b.settled(1, &told);
            b.say("dump");

            b.begin(&format!("bytes/rate {name} at clock {clock}"));
            let (bytes, capacity) = whole_over_double(target, 1).expect("a quotient for each");
            b.say(&format!("add_edge {}", hex(capacity)));
            b.say(&format!("submit 1 0 0 {bytes} 0 - {at} 1 0"));
            behind(b, 1, CANNOT);
            b.expect("rate 1", &value(capacity));
            current(b, 1, &told);
            b.say(&format!("submit 2 0 0 0 1 - {at} 0"));
            behind(b, 1, &told);
            b.settled(1, &told);
            b.say("dump");
        }
    }
}

/// Eps is the clock's and not the last drain's: in the last steps before a completion it grows past what was left.
fn eps_grows(b: &mut Book) {
    for clock in [12345.678, TWO_20] {
        let at = write_double(clock);
        let (step, second) = (clock.next_up(), clock.next_up().next_up());
        b.begin(&format!("eps grows past what is left by the least quiet advances from clock {clock}"));
        b.say(&format!("advance {at} 768"));
        // Each clock has an eps of its own, and the completions lie further ahead than these two steps.
        let [first, then] = [step, second].map(eps_at);
        assert!(eps_at(clock) < first && first < then);
        b.say(&format!("submit 1 0 0 0 {} - {at} 0", hex(first)));
        b.say(&format!("submit 2 0 0 0 {} - {at} 0", hex(then)));
        let (bytes, cap) = whole_over_double(first, 1).expect("a quotient");
        b.say(&format!("submit 3 1 0 {bytes} 0 {} {at} 0", hex(cap)));
        b.settled(1, &value(first));
        current(b, 2, &value(then));
        current(b, 3, &value(first));
        for (time, left) in [(step, value(then)), (second, value(0.0))] {
            b.expect(&format!("advance {} 768", hex(time)), NOBODY);
            behind(b, 1, &value(0.0));
            behind(b, 2, &left);
            behind(b, 3, &value(0.0));
            behind(b, 9, UNKNOWN);
        }
        b.say("dump");
        b.settled(1, &value(0.0));
        b.say("dump");
    }
}

/// The same from half an eps before a power of two, so that the Rust as given can be compared.
fn eps_grows_exactly(b: &mut Book) {
    b.begin("eps grows past what is left across a power of two, every step exact");
    let half = 2f64.powi(-31);
    assert_eq!(eps_at(TWO_20), 2.0 * half);
    b.say(&format!("submit 1 0 0 0 {} - 0 0", hex(TWO_20 + half)));
    b.expect("next_completion_delay", &after(TWO_20 + half));
    b.expect(&format!("advance {} 768", hex(TWO_20 - half)), NOBODY);
    behind(b, 1, &value(TWO_20 + half));
    b.settled(1, &value(2.0 * half));
    b.expect("advance 1048576 768", NOBODY);
    behind(b, 1, &value(0.0));
    b.say("dump");
    b.settled(1, &value(0.0));
    b.expect(&format!("advance {} 768", hex(TWO_20 + half)), "list 1 0 0 1 tail-kept");
    b.say("dump");
}

/// A plan unwatched and watched: the same answers and the same state. Settled at each step it is another.
fn watched_and_unwatched(b: &mut Book) {
    let changes = [
        "add_edge 10.1", "submit 1 0 0 100 0.3 - 0 1 0", "submit 2 1 0 70 0 3.3 0.7 1 0", "next_completion_delay", "advance 1.1 768", "advance 2.3 768", "edge 0",
        "widen 0 0.7", "next_completion_delay", "advance 3.7 768", "advance 4.9 768", "submit 3 2 0 30 0 - 5.3 1 0", "run_until 9", "dump", "finish", "dump",
    ];
    let frames = [
        "add_edge 7", "submit 1 0 0 2 0 - 0 1 0", "submit 2 0 1 4 0 - 0 1 0", "next_completion_delay", "advance 0.1 768", "advance 0.2 768", "advance 0.3 768",
        "advance 0.4 768", "advance 0.5 768", "finish", "edge 0", "dump",
    ];
    let mut unwatched = Vec::new();
    for plan in [&changes[..], &frames] {
        b.begin("a plan that nobody watches");
        unwatched = plan.iter().map(|line| b.say(line)).collect();
        b.begin("the same plan watched");
        for (line, answer) in plan.iter().zip(&unwatched) {
            b.expect(line, answer);
            b.all(&["remaining 1", "remaining 2", "remaining 3"]);
        }
    }
    b.begin("the same plan settled at each step: the roundings are others");
    let settled: Vec<String> = frames.iter().map(|line| [b.say("settle"), b.say(line)].concat()).collect();
    // The later completion, the bytes moved and the state at the end.
    for (line, (other, answer)) in frames.iter().zip(settled.iter().zip(&unwatched)).skip(frames.len() - 3) {
        assert_ne!(other, &format!("done{answer}"), "{line}");
    }
}

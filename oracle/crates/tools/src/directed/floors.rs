//! The floor of eps as a setting: which are taken, that it stays, and what is done by it and what is not.

use super::*;
use super::tolerance::end_of_drain;
use crate::tolerances::{eps_over, whole_over_double, COARSEST};

const NOBODY: &str = "list 0 tail-kept";
const FIRST: &str = "list 1 0 0 1 tail-kept";
/// Floors in between, some of them decimals of a few digits.
const BETWEEN: [f64; 4] = [1e-9, 1e-6, 1e-4, 0.00048828125];

pub(super) fn floors() -> Vec<String> {
    let mut book = Book::new();
    let b = &mut book;
    taken(b);
    refused(b);
    unreadable(b);
    stays(b);
    default_again(b);
    listed_early(b);
    latency_within(b);
    done_and_not_listed(b);
    steps(b);
    latency_at_the_floor(b);
    bytes_at_the_floor(b);
    clock_past_the_floor(b);
    same_rates(b);
    bytes_by_themselves(b);
    book.lines
}

/// A fresh simulator with a floor, and a remark that says what follows.
fn begin(b: &mut Book, floor: f64, remark: &str) {
    b.begin(remark);
    b.expect(&format!("new {}", write_double(floor)), "done");
    assert_eq!(b.session.sim.floor().to_bits(), floor.to_bits());
}

/// The floor that a dump shows.
fn shows(b: &mut Book, floor: f64) {
    let dump = b.say("dump");
    let words: Vec<&str> = dump.lines().next().unwrap_or_default().split(' ').collect();
    assert_eq!(words[17..20], ["floor", &hex(floor), "drained"], "{dump}");
}

fn current(b: &mut Book, id: u32, time: f64) {
    b.expect(&format!("remaining {id}"), &format!("{} current", value(time)));
}

fn behind(b: &mut Book, id: u32, time: f64) {
    b.expect(&format!("remaining {id}"), &format!("{} behind", value(time)));
}

fn taken(b: &mut Book) {
    b.begin("floors that are taken: both ends, their inner neighbours, some in between; by their bits and in decimal");
    shows(b, F);
    for floor in [F, F.next_up(), COARSEST.next_down(), COARSEST].into_iter().chain(BETWEEN) {
        b.expect(&format!("new {}", hex(floor)), "done");
        shows(b, floor);
    }
    for (word, floor) in [("0.000000000001", F), ("0.001", COARSEST), ("0.00100", COARSEST), ("3D719799812DEA11", F), ("0.0005", 5e-4)] {
        b.expect(&format!("new {word}"), "done");
        shows(b, floor);
    }
}

/// Three in flight, completions waiting, something cancelled, rates stale or not, the last drain before the clock or not.
fn busy(b: &mut Book, floor: f64, remark: &str) {
    begin(b, floor, remark);
    b.all(&["add_edge 10", "add_edge 4", "submit 1 0 0 100 0 - 0 2 0 1", "submit 2 1 0 40 0 - 0 1 0", "submit 3 0 7 0 1 - 0 0", "submit 4 2 0 8 0 2 0 1 0"]);
    b.all(&["advance 2 768", "cancel 4", "submit 5 0 7 50 0.5 3 3 1 0", "next_completion_delay", "advance 3.125 768"]);
    assert!(b.session.sim.in_flight() > 0 && b.session.sim.uncollected() > 0 && !b.session.sim.stale());
}

/// What is refused: the ends' outer neighbours, numbers far outside, zeros, numbers below zero, no numbers.
fn refused_floors() -> Vec<f64> {
    let far = [1e-13, 0.002, 1.0, 1000.0, f64::MAX, LEAST, f64::MIN_POSITIVE, B * F];
    let below = [-LEAST, -F, -B, -COARSEST, -1.0, f64::MIN];
    let none = [f64::INFINITY, f64::NEG_INFINITY, f64::NAN, -f64::NAN, f64::from_bits(0x7ff0_0000_0000_0001), f64::from_bits(0xfff0_0000_0000_0001)];
    [vec![F.next_down(), COARSEST.next_up(), 0.0, -0.0], far.to_vec(), below.to_vec(), none.to_vec()].concat()
}

fn refused(b: &mut Book) {
    for (floor, stale) in [(F, false), (COARSEST, false), (F, true), (COARSEST, true)] {
        let how = if stale { "stale rates" } else { "rates up to date" };
        busy(b, floor, &format!("a refused floor keeps the simulator with its floor {floor}, with {how}"));
        if stale {
            b.say("widen 0 1");
        }
        shows(b, floor);
        for refused in refused_floors() {
            b.refuses(&format!("new {}", write_double(refused)), 1);
        }
        for word in ["0", "-0", "-1", "1", "0.0011", "0.0000000000001", "0.00000000000099", "8000000000000000"] {
            b.refuses(&format!("new {word}"), 1);
        }
        shows(b, floor);
        b.all(&["remaining 1", "rate 5", "counts", "take_completed 0 7 256", "finish", "counts"]);
        shows(b, floor);
    }
}

fn unreadable(b: &mut Book) {
    busy(b, 1e-4, "what can't be read changes nothing");
    for words in ["-", "x", "1e-3", ".001", "0.001.", "+0.001", "0x10", "0.001 0.001", "0.001 1", "0.0000000000000001", "3d719799812dea1", "3d719799812dea111", "0,001"] {
        let before = b.state();
        b.expect(&format!("new {words}"), "malformed");
        assert_eq!(b.state(), before);
    }
    for line in ["news", "New", "new0.001"] {
        b.expect(line, "malformed");
    }
    shows(b, 1e-4);
}

/// No call changes it.
fn stays(b: &mut Book) {
    begin(b, COARSEST, "the floor stays through every call");
    let calls = [
        "add_edge 10", "add_edge 3", "widen 1 1", "submit 1 0 0 100 0 - 0 1 0", "submit 2 1 0 12 0.5 4 0 2 0 1", "submit 3 2 0 5 0 - 1 0", "advance 1 768", "next_completion_delay",
        "advance 1.5 768", "settle", "remaining 1", "remaining 9", "rate 1", "rate 9", "bottleneck 1", "bottleneck 9", "rounds", "estimate_new 5 0 - 1 0", "mean_in_flight 0 1", "contains 1", "now", "edge 0", "counts",
        "run_until 4", "cancel 9", "cancel 1", "owners_with_completions 512", "take_completed 1 0 256", "submit 4 0 3 7 0 - 5 1 1", "finish", "take_completed 0 3 0", "take_completed 0 9 256",
        "advance 3 768", "submit 4 0 3 7 0 - 1 1 1", "nonsense", "new 0",
    ];
    for call in calls {
        b.say(call);
        shows(b, COARSEST);
    }
}

fn default_again(b: &mut Book) {
    for word in ["new", "new 0.000000000001", "new 3d719799812dea11"] {
        busy(b, COARSEST, &format!("{word} behind a coarse floor makes the default one"));
        b.expect(word, "done");
        shows(b, F);
        b.all(&["add_edge 1000", "submit 1 0 0 10 0 - 0 1 0"]);
        b.expect("advance 0.0095 768", NOBODY);
        b.settled(1, &value(0.0005));
        b.expect(&format!("submit 2 0 0 0 {} - 0.0095 0", hex(F.next_up())), "done");
        b.expect(&format!("submit 3 0 0 0 {} - 0.0095 0", hex(F)), "done");
        b.expect("advance 0.0095 768", "list 1 0 0 3 tail-kept");
        shows(b, F);
    }
    begin(b, COARSEST, "one floor after another, and the default behind a refusal");
    b.expect("new 0.0001", "done");
    shows(b, 1e-4);
    b.expect("new 0.01", "refused 1");
    shows(b, 1e-4);
    b.expect("new", "done");
    b.expect("new 0.01", "refused 1");
    shows(b, F);
}

/// 10 bytes at 1,000 a second.
fn ten_bytes(b: &mut Book, floor: f64, remark: &str) {
    begin(b, floor, remark);
    b.all(&["add_edge 1000", "submit 1 0 0 10 0 - 0 1 0"]);
}

/// Drained at 0.0095 s: half a millisecond is left, and half a byte.
fn listed_early(b: &mut Book) {
    for (floor, done) in [(F, false), (1e-4, false), (5e-4, true), (COARSEST, true)] {
        ten_bytes(b, floor, &format!("half a millisecond is left, with a floor of {floor}"));
        let listed = if done { FIRST } else { NOBODY };
        b.expect("advance 0.0095 768", listed);
        // 9.5 bytes have moved; what was left of one that is listed never does.
        b.expect("edge 0", &format!("edge {} {} {}", hex(1000.0), hex(9.5), hex(0.0095)));
        b.expect("advance 1 768", if done { NOBODY } else { FIRST });
        assert_eq!(b.session.sim.edge(0).bytes_moved, if done { 9.5 } else { 10.0 });
        b.all(&["edge 0", "counts"]);
        shows(b, floor);
    }
}

/// A latency up to the floor is none: who has one and no bytes is done at once, and who has bytes within the floor too.
fn latency_within(b: &mut Book) {
    for (floor, done) in [(F, false), (COARSEST, true)] {
        begin(b, floor, &format!("a latency of up to a millisecond, with a floor of {floor}"));
        b.all(&["add_edge 1000", "submit 1 0 0 0 0.0005 - 0 0", "submit 2 0 0 0 0.001 - 0 1 0", "submit 3 1 0 1 0.001 - 0 1 0", "submit 4 2 0 0 0.0011 - 0 0"]);
        b.say("submit 5 2 0 100 0.001 - 0 1 0");
        b.expect("next_completion_delay", &after(if done { 0.0 } else { 5e-4 }));
        for id in 1..=5 {
            b.say(&format!("remaining {id}"));
        }
        // Two with bytes share the edge, so one byte takes two milliseconds, and is not done.
        b.expect("advance 0 768", if done { "list 2 0 0 1 0 0 2 tail-kept" } else { NOBODY });
        b.say("cancel 5");
        b.expect("advance 0 768", if done { "list 1 1 0 3 tail-kept" } else { NOBODY });
        b.say("dump");
        // A latency is paid as ever where it is not the end that is asked for.
        b.say("submit 6 0 0 100 0.001 - 0 1 0");
        b.say("settle");
        b.say("remaining 6");
        b.all(&["advance 0.0005 768", "settle", "dump", "finish", "dump"]);
    }
}

/// 0 does not mean that an advance to the clock lists it: a quiet advance does not ask who is done, and a drain does not make next-done anew.
fn done_and_not_listed(b: &mut Book) {
    ten_bytes(b, COARSEST, "done by the question, half a millisecond by the delay, and an advance to the clock lists nobody");
    b.expect("next_completion_delay", &after(0.01));
    b.expect("advance 0.0095 768", NOBODY);
    behind(b, 1, 0.01);
    b.expect("settle", "done");
    current(b, 1, 0.0);
    b.expect("advance 0.0095 768", NOBODY);
    b.expect("next_completion_delay", &after(0.01 - 0.0095));
    current(b, 1, 0.0);
    b.say("dump");
    b.expect("advance 0.0099 768", NOBODY);
    behind(b, 1, 0.0);
    b.expect("advance 0.01 768", FIRST);
    assert_eq!(b.session.sim.edge(0).bytes_moved, 10.0);
    b.say("dump");
    for (change, said) in [("widen 0 0", "done"), ("add_edge 1", "edge 1"), ("cancel 2", "done"), ("submit 3 0 0 0 1 - 0.0095 0", "done")] {
        ten_bytes(b, COARSEST, &format!("the same, and {change} makes rates stale: the next advance asks"));
        b.say("submit 2 0 0 5 9 - 0 0");
        b.expect("next_completion_delay", &after(0.01));
        b.expect("advance 0.0095 768", NOBODY);
        b.expect(change, said);
        behind(b, 1, 0.0);
        b.expect("next_completion_delay", &after(0.0));
        b.expect("advance 0.0095 768", FIRST);
        assert_eq!(b.session.sim.edge(0).bytes_moved, 9.5);
        b.say("dump");
    }
    ten_bytes(b, COARSEST, "a second read beside it: done and not listed, it holds its share");
    b.say("submit 2 0 0 20 0 - 0 1 0");
    b.expect("next_completion_delay", &after(0.02));
    b.expect("advance 0.0195 768", NOBODY);
    b.expect("settle", "done");
    current(b, 1, 0.0);
    b.say("submit 3 1 0 30 0 - 0.0195 1 0");
    // A third of the edge for each: who is done by the floor takes part in a filling as ever.
    b.expect("rate 3", &value(1000.0 / 3.0));
    b.expect("rounds", "number 1");
    current(b, 1, 0.0);
    b.expect("advance 0.0195 768", FIRST);
    b.expect("rate 3", &value(500.0));
    b.all(&["edge 0", "dump"]);
}

/// `run_until` and `finish` go by the same rules.
fn steps(b: &mut Book) {
    for floor in [F, COARSEST] {
        ten_bytes(b, floor, &format!("steps with a floor of {floor}"));
        b.all(&["submit 2 1 0 11 0 - 0 1 0", "submit 3 2 0 0 0.0209 - 0 0", "run_until 0.0195", "dump", "settle", "run_until 0.0195", "finish", "edge 0", "counts", "dump"]);
        ten_bytes(b, floor, &format!("a plan run to its end, with a floor of {floor}"));
        b.all(&["submit 2 1 0 11 0.0004 - 0 1 0", "submit 3 2 0 0 0.0007 - 0.001 0", "finish", "edge 0", "dump"]);
    }
}

/// As drain-time and latency-left have it for the default: equality counts as done, one step above does not.
fn latency_at_the_floor(b: &mut Book) {
    for floor in [F.next_up(), COARSEST.next_down(), COARSEST].into_iter().chain(BETWEEN) {
        for latency in neighbours(floor) {
            let done = latency <= floor;
            begin(b, floor, &format!("latency {} at a floor of {}", hex(latency), hex(floor)));
            b.say(&format!("submit 1 0 0 0 {} - 0 0", hex(latency)));
            behind(b, 1, if done { 0.0 } else { latency });
            b.expect("next_completion_delay", &after(if done { 0.0 } else { latency }));
            current(b, 1, if done { 0.0 } else { latency });
            b.expect("advance 0 768", if done { FIRST } else { NOBODY });
            b.say("dump");
        }
    }
}

fn bytes_at_the_floor(b: &mut Book) {
    for floor in [F.next_up(), COARSEST.next_down(), COARSEST].into_iter().chain(BETWEEN) {
        for target in neighbours(floor) {
            let done = target <= floor;
            let (bytes, capacity) = whole_over_double(target, 3).expect("a quotient for each");
            begin(b, floor, &format!("bytes/rate {} at a floor of {}", hex(target), hex(floor)));
            b.say(&format!("add_edge {}", hex(capacity)));
            b.say(&format!("submit 1 0 0 {bytes} 0 - 0 1 0"));
            b.expect("rate 1", &value(capacity));
            current(b, 1, if done { 0.0 } else { target });
            b.expect("next_completion_delay", &after(if done { 0.0 } else { target }));
            b.expect("advance 0 768", if done { FIRST } else { NOBODY });
            b.say("dump");
        }
    }
}

/// Eps is the larger of the two: at the clock where both are the same, one step before and one after, and far from it.
fn clock_past_the_floor(b: &mut Book) {
    for floor in [1e-6, 1e-4] {
        let same = floor * 2f64.powi(50);
        for clock in [1.0, same.next_down(), same, floor.next_up() * 2f64.powi(50), 2.0 * same, LATEST] {
            let eps = eps_over(floor, clock);
            assert_eq!(eps > floor, clock > same);
            meets_eps(b, floor, clock);
        }
    }
    for clock in [1.0, TWO_20, LATEST] {
        // 4 * 2^-52 of the latest clock is a little less than a millisecond.
        assert_eq!(eps_over(COARSEST, clock), COARSEST);
        meets_eps(b, COARSEST, clock);
    }
}

fn meets_eps(b: &mut Book, floor: f64, clock: f64) {
    let (eps, at) = (eps_over(floor, clock), hex(clock));
    begin(b, floor, &format!("eps {} at clock {at} with a floor of {floor}", hex(eps)));
    b.expect(&format!("advance {at} 768"), NOBODY);
    for (id, latency) in neighbours(eps).into_iter().enumerate() {
        b.say(&format!("submit {id} 0 0 0 {} - {at} 0", hex(latency)));
    }
    for (id, target) in neighbours(eps).into_iter().enumerate() {
        let (bytes, cap) = whole_over_double(target, 1).expect("a quotient for each");
        b.say(&format!("submit {} 1 0 {bytes} 0 {} {at} 0", id + 10, hex(cap)));
    }
    b.expect("settle", "done");
    for id in [0, 1, 10, 11] {
        current(b, id, 0.0);
    }
    for id in [2, 12] {
        current(b, id, eps.next_up());
    }
    b.expect("next_completion_delay", &after(0.0));
    b.expect(&format!("advance {at} 768"), "list 4 0 0 0 0 0 1 1 0 10 1 0 11 tail-kept");
    b.say("next_completion_delay");
    b.say("dump");
}

/// The same plan with several floors: all that a filling makes is the same, at each set of transfers.
fn same_rates(b: &mut Book) {
    let plan = [
        "add_edge 10", "add_edge 7", "add_edge 0", "submit 1 0 0 1000 0 - 0 1 0", "submit 2 1 0 900 0.0004 2.5 0 2 0 1", "submit 3 2 0 800 0 - 0.25 3 0 1 0", "submit 4 0 1 70 0 - 0.5 1 1",
        "submit 5 0 2 5 0.0009 - 0.5 1 2", "submit 6 0 2 5 1 3 0.5 0",
    ];
    let asked = [
        "rate 1", "rate 2", "rate 3", "rate 4", "rate 5", "rate 6", "rounds", "bottleneck 1", "bottleneck 2", "bottleneck 3", "bottleneck 4", "bottleneck 5", "bottleneck 6",
        "estimate_new 8 0.0004 - 2 0 1", "estimate_new 8 0.0004 3 0",
    ];
    let mut first: Option<Vec<String>> = None;
    for floor in [F, 1e-4, COARSEST] {
        begin(b, floor, &format!("rates, rounds and who froze whom with a floor of {floor}"));
        let mut told = Vec::new();
        for (i, call) in plan.iter().enumerate() {
            b.say(call);
            // Asked after every second call, so that some fillings are of several changes.
            if i % 2 == 1 {
                told.extend(asked.iter().map(|question| b.say(question)));
            }
        }
        for change in ["widen 0 0.7", "cancel 4", "widen 2 0.1"] {
            b.say(change);
            told.extend(asked.iter().map(|question| b.say(question)));
        }
        shows(b, floor);
        assert_eq!(first.get_or_insert(told.clone()), &told);
    }
}

/// B is another tolerance, and no floor moves it.
fn bytes_by_themselves(b: &mut Book) {
    for target in neighbours(B) {
        let left = 2f64.powi(-19);
        let rate = (left - target) * 2f64.powi(20);
        begin(b, 1e-9, &format!("bytes left {} at a rate that takes longer than the floor", hex(target)));
        b.all(&["add_edge 1", "submit 1 0 0 1 0 - 0 1 0"]);
        b.expect(&format!("advance {} 768", hex(1.0 - left)), NOBODY);
        b.say(&format!("widen 0 {}", hex(rate - 1.0)));
        b.expect(&format!("advance {} 768", hex(end_of_drain())), if target <= B { FIRST } else { NOBODY });
        b.say("dump");
    }
}

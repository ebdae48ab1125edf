//! Who froze each transfer at the last filling: an edge's round, a cap's, or nobody where it was outside; and how long that stays told.

use super::tolerance::{drain_to_bytes, end_of_drain};
use super::*;

const NONE: &str = "none";
const CAP: &str = "cap";
const UNKNOWN: &str = "unknown";
const NOBODY: &str = "list 0 tail-kept";

pub(super) fn bottlenecks() -> Vec<String> {
    let mut book = Book::new();
    let b = &mut book;
    cases(b);
    caps_around_the_share(b);
    caps_one_by_one(b);
    equal_shares(b);
    repeated_edges(b);
    round_after_round(b);
    nothing_to_share(b);
    empty_paths(b);
    out_of_bytes(b);
    few_bytes(b);
    falls_after_the_filling(b);
    latency_pending(b);
    stale(b);
    after_a_change(b);
    quiet(b);
    slot_used_again(b);
    unknown_ids(b);
    no_edges(b);
    other_questions(b);
    unreadable(b);
    crowd(b);
    book.lines
}

fn edge(number: usize) -> String {
    format!("edge {number}")
}

/// Asks who froze each, the ids from 0 on.
fn frozen_by(b: &mut Book, wanted: &[&str]) {
    for (id, by) in wanted.iter().enumerate() {
        b.expect(&format!("bottleneck {id}"), by);
    }
}

/// What a dump tells of each slot.
fn words(dump: &str) -> Vec<&str> {
    dump.lines().filter(|line| line.starts_with("slot ")).filter_map(|line| line.split_once(" by ")).map(|(_, by)| by).collect()
}

/// A dump tells these, and fills nothing.
fn shows(b: &mut Book, wanted: &[&str]) {
    let before = b.state();
    assert_eq!(words(&before), wanted, "{before}");
    b.expect("dump", &before);
}

/// Edges of these capacities, and a transfer of 100 bytes for each cap and path, at time 0 and with the ids from 0 on.
fn plan(b: &mut Book, remark: &str, capacities: &[f64], transfers: &[(Option<f64>, &[u32])]) {
    b.begin(remark);
    for capacity in capacities {
        b.say(&format!("add_edge {}", write_double(*capacity)));
    }
    for (id, (cap, path)) in transfers.iter().enumerate() {
        let cap = cap.map_or("-".to_string(), write_double);
        b.expect(&format!("submit {id} 0 0 100 0 {cap} 0 {}", write_path(path)), "done");
    }
}

/// Who froze each, the rates that come with it, and the state.
fn told(b: &mut Book, wanted: &[&str], rates: &[f64], rounds: u64) {
    frozen_by(b, wanted);
    super::cases::rates(b, rates, rounds);
    assert_eq!(words(&b.state()), wanted);
}

fn cases(b: &mut Book) {
    plan(b, "case 1: two alike are frozen by their edge", &[10.0], &[(None, &[0]), (None, &[0])]);
    shows(b, &[NONE, NONE]);
    told(b, &["edge 0", "edge 0"], &[5.0, 5.0], 1);
    plan(b, "case 2: one capped below the share", &[12.0], &[(Some(2.0), &[0]), (None, &[0]), (None, &[0])]);
    told(b, &[CAP, "edge 0", "edge 0"], &[2.0, 5.0, 5.0], 2);
    plan(b, "case 3: a cap equal to the share does not win, so the edge is told", &[12.0], &[(Some(4.0), &[0]), (None, &[0]), (None, &[0])]);
    told(b, &["edge 0", "edge 0", "edge 0"], &[4.0, 4.0, 4.0], 1);
    plan(b, "case 4: the narrow edge first, and then the wide one", &[10.0, 4.0], &[(None, &[0]), (None, &[0, 1])]);
    told(b, &["edge 0", "edge 1"], &[6.0, 4.0], 2);
    plan(b, "case 5: a repeated edge", &[10.0], &[(None, &[0, 0])]);
    told(b, &["edge 0"], &[5.0], 1);
    plan(b, "case 6: no path, no cap", &[], &[(None, &[])]);
    told(b, &[NONE], &[f64::INFINITY], 0);
    plan(b, "case 8: capacity 0", &[0.0], &[(None, &[0])]);
    told(b, &["edge 0"], &[0.0], 1);
}

/// One cap at the share of so many or at a neighbour of it: below, the cap's round comes first; at it and above, the edge's.
fn caps_around_the_share(b: &mut Book) {
    for (capacity, count) in [(12.0, 3), (10.0, 3), (0.7, 7), (5.0, 1)] {
        let share = capacity / count as f64;
        for (i, cap) in neighbours(share).into_iter().enumerate() {
            let name = ["one step below", "exactly", "one step above"][i];
            let mut transfers: Vec<(Option<f64>, &[u32])> = vec![(None, &[0]); count];
            transfers[0].0 = Some(cap);
            plan(b, &format!("a cap {name} the share of {count} on {capacity}"), &[capacity], &transfers);
            let mut wanted = vec!["edge 0"; count];
            wanted[0] = [CAP, "edge 0", "edge 0"][i];
            frozen_by(b, &wanted);
            b.expect("rate 0", &value(cap.min(share)));
            b.expect("rounds", if i == 0 && count > 1 { "number 2" } else { "number 1" });
            shows(b, &wanted);
        }
    }
}

/// Caps go one after another, and what each leaves raises the share.
fn caps_one_by_one(b: &mut Book) {
    let caps = [5.0, 1.0, 9.0, 3.0];
    let transfers: Vec<(Option<f64>, &[u32])> = caps.iter().map(|cap| (Some(*cap), &[0][..])).collect();
    // 16/4, 15/3 and 12/2 are above the caps of 1, 3 and 5; then 7 is below the cap of 9.
    plan(b, "caps in no order below shares that grow", &[16.0], &transfers);
    told(b, &[CAP, CAP, "edge 0", CAP], &[5.0, 1.0, 7.0, 3.0], 4);
    // 16/4 and 15/3 are above the caps of 1 and 3; then 12/2 is the cap of 6.
    plan(b, "the last cap is met by the share exactly", &[16.0], &[(Some(1.0), &[0]), (Some(3.0), &[0]), (Some(6.0), &[0]), (Some(6.0), &[0])]);
    told(b, &[CAP, CAP, "edge 0", "edge 0"], &[1.0, 3.0, 6.0, 6.0], 3);
    plan(b, "a cap of 0 and the least cap", &[8.0], &[(Some(0.0), &[0]), (Some(LEAST), &[0]), (None, &[0])]);
    told(b, &[CAP, CAP, "edge 0"], &[0.0, LEAST, 8.0], 3);
}

fn equal_shares(b: &mut Book) {
    plan(b, "two edges of one capacity: the lower number, however the path goes", &[6.0, 6.0], &[(None, &[1, 0]), (None, &[0, 1]), (None, &[1, 0])]);
    told(b, &["edge 0", "edge 0", "edge 0"], &[2.0, 2.0, 2.0], 1);
    plan(b, "three edges with the share 4, of capacities 12, 8 and 4", &[20.0, 12.0, 8.0, 4.0], &[(None, &[3, 2, 1, 0]), (None, &[2, 1]), (None, &[1])]);
    told(b, &["edge 1", "edge 1", "edge 1"], &[4.0, 4.0, 4.0], 1);
    plan(b, "equal shares without a common transfer: a round each", &[9.0, 6.0, 6.0], &[(None, &[2]), (None, &[1])]);
    told(b, &["edge 2", "edge 1"], &[6.0, 6.0], 2);
    for (i, other) in neighbours(6.0).into_iter().enumerate() {
        let by = ["edge 1", "edge 0", "edge 0"][i];
        let name = ["one step below", "equal to", "one step above"][i];
        plan(b, &format!("the higher edge's share is {name} the lower's"), &[6.0, other], &[(None, &[0, 1])]);
        told(b, &[by], &[other.min(6.0)], 1);
        let by = ["edge 0", "edge 0", "edge 1"][i];
        plan(b, &format!("the lower edge's share is {name} the higher's"), &[other, 6.0], &[(None, &[1, 0])]);
        told(b, &[by], &[other.min(6.0)], 1);
    }
    plan(b, "an edge that nobody crosses is never told, though it is the narrowest", &[0.0, 5.0], &[(None, &[1])]);
    told(b, &["edge 1"], &[5.0], 1);
}

fn repeated_edges(b: &mut Book) {
    // 8/2 on edge 0 and 5/1 on edge 1.
    plan(b, "crossed twice the wider edge is the narrow one", &[8.0, 5.0], &[(None, &[1, 0, 0])]);
    told(b, &["edge 0"], &[4.0], 1);
    plan(b, "beside another that crosses it once", &[12.0, 5.0], &[(None, &[0, 1, 0]), (None, &[0])]);
    told(b, &["edge 0", "edge 0"], &[4.0, 4.0], 1);
    plan(b, "a cap below the share of three crossings", &[12.0], &[(Some(3.0), &[0, 0]), (None, &[0])]);
    told(b, &[CAP, "edge 0"], &[3.0, 6.0], 2);
    plan(b, "eight crossings of one edge", &[8.0], &[(Some(1.0), &[0; 8])]);
    told(b, &["edge 0"], &[1.0], 1);
}

fn round_after_round(b: &mut Book) {
    // Edge 1 gives 2; then edge 2 has 5 - 2 for one, edge 3 has 9 - 3, and edge 0 has 20 - 6.
    let transfers: [(Option<f64>, &[u32]); 4] = [(None, &[1, 2]), (None, &[2, 3]), (None, &[3, 0]), (None, &[0])];
    plan(b, "a chain of four edges, a round each", &[20.0, 2.0, 5.0, 9.0], &transfers);
    told(b, &["edge 1", "edge 2", "edge 3", "edge 0"], &[2.0, 3.0, 6.0, 14.0], 4);
    // The cap of 1 goes first; then edge 1 has 3 for one, and edge 0 has 8 - 1 - 3 for the last.
    plan(b, "a cap goes before two edges", &[8.0, 4.0], &[(Some(1.0), &[0, 1]), (None, &[1, 0]), (Some(5.0), &[0])]);
    told(b, &[CAP, "edge 1", "edge 0"], &[1.0, 3.0, 4.0], 3);
    plan(b, "a cap above every share, and then one between the rounds of two edges", &[8.0, 2.0], &[(None, &[1, 0]), (Some(5.0), &[0]), (None, &[0])]);
    // 2 on edge 1; then 6/2 on edge 0, which is below the cap of 5.
    told(b, &["edge 1", "edge 0", "edge 0"], &[2.0, 3.0, 3.0], 2);
    b.expect("widen 0 6", "done");
    // 2 on edge 1; then 12/2 is above 5, and the last gets 7.
    told(b, &["edge 1", CAP, "edge 0"], &[2.0, 5.0, 7.0], 3);
}

/// No capacity, or the least one.
fn nothing_to_share(b: &mut Book) {
    plan(b, "an unplugged edge is told, and a cap of 0 at a share of 0 is not", &[0.0, 9.0], &[(None, &[1, 0]), (Some(0.0), &[0]), (Some(0.0), &[1]), (None, &[1])]);
    told(b, &["edge 0", "edge 0", CAP, "edge 1"], &[0.0, 0.0, 0.0, 9.0], 3);
    b.expect("widen 0 4", "done");
    shows(b, &["edge 0", "edge 0", CAP, "edge 1"]);
    told(b, &["edge 0", CAP, CAP, "edge 1"], &[4.0, 0.0, 0.0, 5.0], 4);
    plan(b, "the least capacity", &[LEAST], &[(None, &[0]), (None, &[0]), (None, &[0])]);
    frozen_by(b, &["edge 0", "edge 0", "edge 0"]);
    b.say("dump");
}

fn empty_paths(b: &mut Book) {
    plan(b, "without a path there is nobody, with a cap, without one, with a cap of 0", &[5.0], &[(Some(7.0), &[]), (None, &[]), (Some(0.0), &[]), (Some(7.0), &[0])]);
    told(b, &[NONE, NONE, NONE, "edge 0"], &[7.0, f64::INFINITY, 0.0, 5.0], 1);
    b.expect("widen 0 5", "done");
    told(b, &[NONE, NONE, NONE, CAP], &[7.0, f64::INFINITY, 0.0, 7.0], 1);
}

/// At a filling without bytes a transfer is outside, and keeps its rate.
fn out_of_bytes(b: &mut Book) {
    b.begin("no bytes left when another is submitted: the old rate, and nobody");
    b.all(&["add_edge 10", "submit 1 0 0 100 0 - 0 1 0"]);
    b.expect("next_completion_delay", &after(10.0));
    shows(b, &["edge 0"]);
    b.expect("submit 2 0 0 50 0 - 10 1 0", "done");
    shows(b, &["edge 0", NONE]);
    b.expect("bottleneck 1", NONE);
    b.expect("rate 1", &value(10.0));
    b.expect("bottleneck 2", "edge 0");
    shows(b, &[NONE, "edge 0"]);
    b.expect("advance 10 768", "list 1 0 0 1 tail-kept");
    b.expect("bottleneck 1", UNKNOWN);
    b.expect("bottleneck 2", "edge 0");

    b.begin("the same for one at its cap, and for one that never had bytes");
    b.all(&["add_edge 10", "submit 1 0 0 100 0 5 0 1 0", "submit 2 0 0 0 30 4 0 1 0", "submit 3 0 0 0 30 - 0 0"]);
    b.expect("bottleneck 1", CAP);
    b.expect("bottleneck 2", NONE);
    b.expect("bottleneck 3", NONE);
    b.expect("submit 4 0 0 50 0 - 20 1 0", "done");
    shows(b, &[CAP, NONE, NONE, NONE]);
    b.expect("bottleneck 1", NONE);
    b.expect("rate 1", &value(5.0));
    shows(b, &[NONE, NONE, NONE, "edge 0"]);
}

/// Bytes at B or a neighbour of it at a filling.
fn few_bytes(b: &mut Book) {
    for (i, target) in neighbours(B).into_iter().enumerate() {
        let name = ["below B", "exactly B", "above B"][i];
        drain_to_bytes(b, target, &format!("bytes left {name} at a filling"));
        let capacity = b.session.sim.edge(0).capacity;
        b.expect("bottleneck 1", "edge 0");
        b.expect(&format!("submit 2 0 0 1 0 - {} 1 0", hex(end_of_drain())), "done");
        assert_eq!(b.transfer(1).bytes.to_bits(), target.to_bits(), "bytes left {name}");
        shows(b, &["edge 0", NONE]);
        let (by, rate) = if target <= B { (NONE, capacity) } else { ("edge 0", capacity / 2.0) };
        b.expect("bottleneck 1", by);
        b.expect("rate 1", &value(rate));
        shows(b, &[by, "edge 0"]);
    }
}

/// Drained without a filling a transfer keeps who froze it, whatever is left of it; the next filling asks.
fn falls_after_the_filling(b: &mut Book) {
    for (i, target) in neighbours(B).into_iter().enumerate() {
        let name = ["below B", "exactly B", "above B"][i];
        drain_to_bytes(b, target, &format!("bytes left {name} by a drain after the filling"));
        b.expect("bottleneck 1", "edge 0");
        let rate = b.transfer(1).rate;
        b.expect(&format!("advance {} 768", hex(end_of_drain())), NOBODY);
        b.expect("settle", "done");
        assert_eq!(b.transfer(1).bytes.to_bits(), target.to_bits(), "bytes left {name}");
        assert!(!b.session.sim.stale());
        b.expect("bottleneck 1", "edge 0");
        shows(b, &["edge 0"]);
        b.expect("widen 0 1", "done");
        shows(b, &["edge 0"]);
        let (by, then) = if target <= B { (NONE, rate) } else { ("edge 0", rate + 1.0) };
        b.expect("bottleneck 1", by);
        b.expect("rate 1", &value(then));
        shows(b, &[by]);
        b.expect(&format!("advance {} 768", hex(end_of_drain())), if target <= B { "list 1 0 0 1 tail-kept" } else { NOBODY });
    }
}

/// A pending latency holds its share, so it has its edge or its cap too.
fn latency_pending(b: &mut Book) {
    b.begin("who still pays its latency is frozen as the others are");
    b.all(&["add_edge 12", "submit 0 0 0 100 5 - 0 1 0", "submit 1 0 0 100 0 - 0 1 0", "submit 2 0 0 100 5 2 0 1 0", "submit 3 0 0 0 5 - 0 1 0"]);
    shows(b, &[NONE; 4]);
    told(b, &["edge 0", "edge 0", CAP, NONE], &[5.0, 5.0, 2.0, 0.0], 2);
    b.expect("advance 4 768", NOBODY);
    told(b, &["edge 0", "edge 0", CAP, NONE], &[5.0, 5.0, 2.0, 0.0], 2);
}

/// A dump shows the last filling's word, stale or not, and none of a fresh submission.
fn stale(b: &mut Book) {
    plan(b, "stale: the last filling's word, and none of whoever came since", &[12.0, 3.0], &[(Some(2.0), &[0]), (None, &[0])]);
    shows(b, &[NONE, NONE]);
    frozen_by(b, &[CAP, "edge 0"]);
    b.expect("submit 2 0 0 100 0 1 0 2 0 1", "done");
    shows(b, &[CAP, "edge 0", NONE]);
    b.expect("submit 3 0 0 100 0 - 0 1 1", "done");
    shows(b, &[CAP, "edge 0", NONE, NONE]);
    b.expect("widen 0 -11", "done");
    shows(b, &[CAP, "edge 0", NONE, NONE]);
    // The edge of 1 has three, so its share is below both caps; 3 less a third is left on the other.
    frozen_by(b, &["edge 0", "edge 0", "edge 0", "edge 1"]);
    shows(b, &["edge 0", "edge 0", "edge 0", "edge 1"]);
}

/// A change leaves every word as it is until the filling.
fn after_a_change(b: &mut Book) {
    let start: [(Option<f64>, &[u32]); 3] = [(None, &[0, 1]), (Some(4.0), &[1]), (None, &[1])];
    let before = ["edge 0", "edge 1", "edge 1"];
    // 2 on edge 0, and 8/3 on edge 1 is more; then 6/2 is below the cap.
    for (change, said, after, rates, rounds) in [
        ("widen 1 3", "done", ["edge 0", CAP, "edge 1"], [2.0, 4.0, 5.0], 3),
        ("widen 0 8", "done", ["edge 1"; 3], [8.0 / 3.0; 3], 1),
        ("widen 0 0", "done", before, [2.0, 3.0, 3.0], 2),
        ("add_edge 1", "edge 2", before, [2.0, 3.0, 3.0], 2),
        ("submit 9 0 0 0 1 - 0 1 1", "done", before, [2.0, 3.0, 3.0], 2),
    ] {
        plan(b, &format!("{change}: as before until the filling"), &[2.0, 8.0], &start);
        frozen_by(b, &before);
        b.expect(change, said);
        let mut shown = before.to_vec();
        shown.extend((b.session.sim.in_flight() > 3).then_some(NONE));
        shows(b, &shown);
        frozen_by(b, &after);
        super::cases::rates(b, &rates, rounds);
    }
    plan(b, "cancel: the others as before until the filling", &[2.0, 8.0], &start);
    frozen_by(b, &before);
    b.expect("cancel 9", UNKNOWN);
    b.expect("cancel 2", "done");
    shows(b, &before[..2]);
    frozen_by(b, &["edge 0", CAP, UNKNOWN]);
    b.expect("cancel 0", "done");
    shows(b, &[CAP]);
    frozen_by(b, &[UNKNOWN, CAP, UNKNOWN]);
    b.expect("widen 1 -4", "done");
    frozen_by(b, &[UNKNOWN, "edge 1", UNKNOWN]);
}

/// Where nothing is filled no call changes a word.
fn quiet(b: &mut Book) {
    plan(b, "quiet advances, drains and refusals keep every word", &[12.0], &[(Some(2.0), &[0]), (None, &[0]), (Some(5.0), &[0])]);
    let words = [CAP, "edge 0", "edge 0"];
    frozen_by(b, &words);
    for line in ["advance 1 768", "advance 2.5 768", "settle", "advance 3 768", "run_until 4", "advance 3 768", "widen 7 1", "cancel 9", "remaining 1", "estimate_new 5 0 - 1 0"] {
        b.say(line);
        shows(b, &words);
        frozen_by(b, &words);
    }
    // Both are done at 20, and the filling after that has one alone.
    b.expect("advance 20 768", "list 2 0 0 1 0 0 2 tail-kept");
    shows(b, &[CAP]);
    frozen_by(b, &[CAP, UNKNOWN, UNKNOWN]);
    b.expect("finish", &format!("at {} list 1 0 0 0\ndone", hex(50.0)));
    frozen_by(b, &[UNKNOWN; 3]);
}

/// Nothing is left of who had the slot before.
fn slot_used_again(b: &mut Book) {
    plan(b, "a slot used again begins with none", &[12.0], &[(Some(2.0), &[0]), (None, &[0]), (None, &[0])]);
    frozen_by(b, &[CAP, "edge 0", "edge 0"]);
    b.all(&["cancel 0", "submit 0 0 0 100 0 - 0 1 0"]);
    shows(b, &[NONE, "edge 0", "edge 0"]);
    b.all(&["cancel 1", "submit 7 0 0 100 0 3 0 1 0"]);
    shows(b, &[NONE, NONE, "edge 0"]);
    frozen_by(b, &["edge 0", UNKNOWN, "edge 0"]);
    b.expect("bottleneck 7", CAP);
    b.expect("advance 30 768", "list 2 0 0 0 0 0 2 tail-kept");
    shows(b, &[CAP]);
    b.all(&["submit 2 0 0 100 0 - 30 0", "submit 0 0 0 100 0 - 30 1 0"]);
    shows(b, &[NONE, CAP, NONE]);
    b.expect("bottleneck 2", NONE);
    shows(b, &[NONE, CAP, "edge 0"]);
}

/// The question fills, whoever it is about.
fn unknown_ids(b: &mut Book) {
    for id in [9, u32::MAX] {
        plan(b, &format!("the question of {id}, which nobody has, fills too"), &[10.0], &[(Some(3.0), &[0]), (None, &[0])]);
        assert!(b.session.sim.stale() && b.session.sim.rounds() == Some(0));
        shows(b, &[NONE, NONE]);
        b.expect(&format!("bottleneck {id}"), UNKNOWN);
        assert!(!b.session.sim.stale() && b.session.sim.rounds() == Some(2));
        shows(b, &[CAP, "edge 0"]);
        // Filled, the advance is quiet and moves no bytes.
        b.expect("advance 4 768", NOBODY);
        b.expect("edge 0", &format!("edge {} {} {}", hex(10.0), hex(0.0), hex(8.0)));
        b.expect(&format!("bottleneck {id}"), UNKNOWN);
        shows(b, &[CAP, "edge 0"]);
    }
    b.begin("nobody in flight, and then somebody who is done");
    b.expect("bottleneck 1", UNKNOWN);
    b.expect("add_edge 4", "edge 0");
    b.expect("bottleneck 1", UNKNOWN);
    assert!(!b.session.sim.stale());
    b.all(&["submit 1 0 0 8 0 - 0 1 0", "bottleneck 1"]);
    b.expect("advance 2 768", "list 1 0 0 1 tail-kept");
    b.expect("bottleneck 1", UNKNOWN);
    b.say("dump");
}

fn no_edges(b: &mut Book) {
    plan(b, "no edge at all, and then one that nobody crosses", &[], &[(None, &[]), (Some(2.0), &[])]);
    told(b, &[NONE, NONE], &[f64::INFINITY, 2.0], 0);
    b.expect("add_edge 3", "edge 0");
    told(b, &[NONE, NONE], &[f64::INFINITY, 2.0], 0);
}

/// Each that fills leaves the same words.
fn other_questions(b: &mut Book) {
    for question in ["rate 0", "rate 9", "next_completion_delay", "settle", "advance 0 768", "run_until 1", "submit 3 0 0 0 9 - 1 0", "bottleneck 2"] {
        plan(b, &format!("filled by {question}"), &[12.0, 2.0], &[(Some(2.0), &[0]), (None, &[0, 1]), (None, &[0])]);
        b.say(question);
        // Edge 1 goes first, at the share of 2, which is the cap; then the cap is below 10/2.
        let mut words = vec![CAP, "edge 1", "edge 0"];
        words.extend((b.session.sim.in_flight() > 3).then_some(NONE));
        shows(b, &words);
    }
}

fn unreadable(b: &mut Book) {
    plan(b, "what can't be read fills nothing", &[10.0], &[(None, &[0])]);
    for line in ["bottleneck", "bottleneck 0 0", "bottleneck -1", "bottleneck 4294967296", "bottleneck x", "bottleneck 0.5", "bottlenecks 0", "Bottleneck 0"] {
        b.expect(line, "malformed");
        shows(b, &[NONE]);
    }
    assert!(b.session.sim.stale());
    frozen_by(b, &["edge 0"]);
}

/// All slots in use, over four edges, some over two: a sixth at caps below every share, a sixth with caps above, five without bytes.
fn crowd(b: &mut Book) {
    b.begin("256 in flight: caps and edges mixed");
    (0..4).for_each(|e| drop(b.say(&format!("add_edge {}", 640 * (e + 1)))));
    for id in 0..256u32 {
        let cap = match id % 6 {
            0 => (1 + id % 5).to_string(),
            3 => (1000 + id).to_string(),
            _ => "-".to_string(),
        };
        let path = if id % 8 == 7 { format!("2 {} {}", id / 8 % 4, (id / 8 + 1) % 4) } else { format!("1 {}", id % 4) };
        b.expect(&format!("submit {id} 0 {} {} 0 {cap} 0 {path}", id % 3, if id % 50 == 49 { 0 } else { 1000 }), "done");
    }
    let said: Vec<String> = (0..256).map(|id| b.say(&format!("bottleneck {id}"))).collect();
    let count = |word: &str| said.iter().filter(|s| *s == word).count();
    assert_eq!(count(NONE), 5);
    assert_eq!(count(CAP), 43);
    assert!((0..4).all(|e| count(&edge(e)) > 20));
    b.say("dump");
}

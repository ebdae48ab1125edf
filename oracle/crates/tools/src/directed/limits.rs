//! Both sides of every limit.

use super::*;
use super::refusals::{Submit, SUBMIT_CAUSES};
use copies::Party;
use crate::script::{kind, worker};

pub(super) fn limits() -> Vec<String> {
    let mut book = Book::new();
    let b = &mut book;
    number_limits(b);
    widen_limits(b);
    time_limits(b);
    buffer_limits(b);
    readable_limits(b);
    b.begin("64 edges and no more");
    (0..64).for_each(|e| b.expect(&format!("add_edge {e}"), &format!("edge {e}")));
    b.refuses("add_edge 1", 7);
    b.refuses("add_edge -1", 1);
    b.refuses("add_edge 7ff8000000000001", 1);
    b.expect("submit 1 0 0 63 0 - 0 1 63", "done");
    b.refuses("submit 2 0 0 63 0 - 0 1 64", 3);
    b.refuses("widen 64 1", 3);
    b.refuses("edge 64", 3);
    b.expect("widen 63 0", "done");
    b.all(&["advance 1 768", "advance 1 0", "counts", "dump"]);
    book.lines
}

fn number_limits(b: &mut Book) {
    b.begin("capacities, caps and estimated bytes: zeros, the least, the largest");
    b.expect("add_edge 8000000000000000", "edge 0");
    b.expect("add_edge -0", "edge 1");
    b.expect("add_edge 0000000000000001", "edge 2");
    b.expect("add_edge 7fefffffffffffff", "edge 3");
    b.refuses("add_edge 8000000000000001", 1);
    b.refuses("add_edge 7ff0000000000000", 1);
    b.refuses("add_edge fff0000000000000", 1);
    for nan in ["7ff8000000000000", "fff8000000000000", "7ff0000000000001", "fff0000000000001", "7fffffffffffffff"] {
        b.refuses(&format!("add_edge {nan}"), 1);
    }
    b.all(&["edge 0", "edge 1", "edge 2", "edge 3"]);
    for cap in ["8000000000000000", "0000000000000001", "7fefffffffffffff"] {
        b.expect(&format!("estimate_new 8000000000000000 -0 {cap} 0"), &value(0.0));
        b.all(&[&format!("estimate_new 7fefffffffffffff 7fefffffffffffff {cap} 1 3"), "estimate_new 1 -5 - 1 3"]);
    }
    b.all(&["submit 1 0 0 5 8000000000000000 8000000000000000 8000000000000000 1 3", "rate 1"]);
    b.all(&["submit 2 0 0 5 ffefffffffffffff 0000000000000001 0 1 3", "submit 3 0 0 5 7fefffffffffffff 7fefffffffffffff 0 1 3"]);
    b.expect("submit 4 0 0 9007199254740991 0 - 0 1 3", "done");
    b.expect("submit 5 1 0 9007199254740992 0 - 0 1 3", "done");
    b.refuses("submit 6 2 0 9007199254740993 0 - 0 1 3", 5);
    b.refuses("submit 6 2 0 18446744073709551615 0 - 0 1 3", 5);
    b.look();
    b.all(&["mean_in_flight 3 0", "mean_in_flight 3 -0", "mean_in_flight 3 -1", "mean_in_flight 3 0000000000000001"]);
    b.all(&["advance 3 768", "mean_in_flight 3 0000000000000001", "mean_in_flight 3 7fefffffffffffff", "mean_in_flight 3 3"]);
    b.say("dump");
}

fn widen_limits(b: &mut Book) {
    b.begin("widening to zero, just below it, to the largest and past it");
    b.all(&["add_edge 5", "add_edge 7fefffffffffffff", "add_edge 0"]);
    b.refuses(&format!("widen 0 {}", hex(-5f64.next_up())), 1);
    b.expect("widen 0 -5", "done");
    assert_eq!(b.session.sim.edge(0).capacity.to_bits(), 0, "plus zero");
    b.refuses("widen 0 8000000000000001", 1);
    b.expect("widen 0 8000000000000000", "done");
    b.expect("widen 2 -0", "done");
    // Half the last place of the largest double rounds up to infinity, anything less falls back.
    b.refuses("widen 1 7c90000000000000", 1);
    b.expect("widen 1 7c8fffffffffffff", "done");
    b.refuses("widen 1 7fefffffffffffff", 1);
    b.expect("widen 1 ffefffffffffffff", "done");
    b.all(&["edge 0", "edge 1", "edge 2", "dump"]);
}

fn time_limits(b: &mut Book) {
    b.begin("clock times: zero, the clock, just below it, 2^40 and the next");
    b.expect("advance 8000000000000000 0", "list 0 tail-kept");
    b.refuses("advance 8000000000000001 0", 1);
    b.expect("advance 0000000000000001 0", "list 0 tail-kept");
    b.refuses("advance 0 0", 2);
    b.refuses("advance -0 0", 2);
    b.say("add_edge 1");
    b.expect("submit 1 0 0 5 0 - 3 1 0", "done");
    b.refuses(&format!("submit 2 0 0 5 0 - {} 1 0", hex(3f64.next_down())), 2);
    b.expect("submit 2 0 0 5 0 - 3 1 0", "done");
    b.refuses(&format!("advance {} 0", hex(LATEST.next_up())), 1);
    b.refuses(&format!("submit 3 0 0 5 0 - {} 1 0", hex(LATEST.next_up())), 1);
    b.expect(&format!("advance {} 768", hex(LATEST.next_down())), "list 2 0 0 1 0 0 2 tail-kept");
    b.expect("submit 3 0 0 5 0 - 1099511627776 1 0", "done");
    b.expect("advance 1099511627776 768", "list 0 tail-kept");
    b.refuses(&format!("advance {} 0", hex(LATEST.next_down())), 2);
    b.look();
}

fn buffer_limits(b: &mut Book) {
    b.begin("buffers: one short, and just long enough");
    b.all(&["add_edge 6", "submit 12 0 5 6 0 - 0 1 0", "submit 7 2 0 6 0 - 0 1 0", "submit 30 1 0 6 0 - 0 1 0"]);
    b.refuses("advance 3 8", 8);
    b.say("dump");
    b.refuses("advance 3 0", 8);
    b.expect("advance 1 0", "list 0 tail-kept");
    b.say("next_completion_delay");
    b.refuses("advance 3 8", 8);
    b.say("dump");
    b.expect("advance 3 9", "list 3 2 0 7 0 5 12 1 0 30 tail-kept");
    b.expect("advance 3 0", "list 0 tail-kept");
    b.refuses("owners_with_completions 5", 8);
    b.expect("owners_with_completions 6", "list 3 0 5 1 0 2 0 tail-kept");
    b.refuses("take_completed 0 5 0", 8);
    b.expect("take_completed 0 5 1", "list 1 12 tail-kept");
    b.expect("owners_with_completions 4", "list 2 1 0 2 0 tail-kept");
    b.refuses("owners_with_completions 3", 8);
    b.all(&["take_completed 1 0 1024", "take_completed 2 0 1"]);
    b.expect("owners_with_completions 0", "list 0 tail-kept");
    b.expect("take_completed 2 0 0", "nothing");
    b.say("dump");
    b.begin("one id twice for one owner is one entry, for two owners two");
    for owner in [Party::Worker(4), Party::Worker(4), Party::Worker(10), Party::Handoff] {
        b.expect(&format!("submit 6 {} {} 0 0 - 0 0", kind(owner), worker(owner)), "done");
        b.say("advance 0 3");
    }
    b.all(&["counts", "dump"]);
    b.refuses("owners_with_completions 5", 8);
    b.expect("owners_with_completions 6", "list 3 0 4 0 10 1 0 tail-kept");
    b.expect("take_completed 0 4 1", "list 1 6 tail-kept");
    b.say("dump");
}

/// What a line may hold: buffers, paths and numbers at the edge of being read at all.
fn readable_limits(b: &mut Book) {
    b.begin("what can be read and what can't");
    b.say("add_edge 2");
    let path = |length: usize| write_path(&vec![0; length]);
    b.refuses(&format!("submit 1 0 0 1 0 - 0 {}", path(128)), 4);
    b.expect(&format!("submit 1 0 0 1 0 - 0 {}", path(129)), "malformed");
    b.expect("advance 0 1024", "list 0 tail-kept");
    b.expect("advance 0 1025", "malformed");
    b.expect("contains 4294967295", "no");
    b.expect("contains 4294967296", "malformed");
    b.expect("contains -1", "malformed");
    b.refuses("submit 1 0 0 18446744073709551615 0 - 0 0", 5);
    b.expect("submit 1 0 0 18446744073709551616 0 - 0 0", "malformed");
    b.expect("submit 1 3 0 1 0 - 0 0", "malformed");
    b.expect("submit 1 0 0 1 0 - 0 2 0", "malformed");
    b.expect("submit 1 0 0 1 0 - 0 1 0 0", "malformed");
    b.expect("add_edge 999999999999999", "edge 1");
    b.expect("add_edge 9999999999999999x", "malformed");
    b.expect("add_edge 12345678901234567", "malformed");
    b.expect("add_edge 0.00000000000001", "edge 2");
    b.expect("add_edge one", "malformed");
    b.expect("add_edge", "malformed");
    b.expect("nonsense", "malformed");
    b.expect("now 1", "malformed");
    b.say("dump");
}

/// 256 entries: all in flight, then all waiting, then mixed; each refusal beside a full table.
pub(super) fn full() -> Vec<String> {
    let mut book = Book::new();
    let b = &mut book;
    b.begin("256 in flight, 257 refused");
    b.all(&["add_edge 1000", "add_edge 77"]);
    for id in 0..256 {
        // Every third waits, the rest is done at the first advance.
        let (bytes, path) = if id % 3 == 0 { (50 + id, "2 0 1") } else { (0, "0") };
        b.expect(&format!("submit {} {} 0 {bytes} 0 - 0 {path}", 1000 - id, id % 3), "done");
    }
    b.refuses("submit 5 0 0 1 0 - 0 0", 7);
    b.all(&["counts", "rounds"]);
    b.refuses("advance 0 509", 8);
    assert!(b.say("advance 0 510").starts_with("list 170 "));
    b.refuses("submit 5 0 0 1 0 - 0 0", 7);
    full_pairs(b);
    b.refuses("take_completed 1 0 84", 8);
    assert!(b.say("take_completed 1 0 85").starts_with("list 85 "));
    b.expect("submit 5 0 0 1 0 - 4 0", "done");
    b.refuses("submit 5 0 0 1 0 - 4 0", 6);
    // In flight and waiting together reach 256 once more.
    (2000..2084).for_each(|id| b.expect(&format!("submit {id} 2 0 7 1 - 4 1 0"), "done"));
    b.refuses("submit 2084 2 0 7 1 - 4 1 0", 7);
    b.expect("cancel 5", "done");
    b.expect("submit 2084 2 0 7 1 - 4 1 0", "done");
    b.refuses("submit 2085 2 0 7 1 - 4 1 0", 7);
    b.say("dump");
    b.all(&["advance 60 768", "counts", "owners_with_completions 8", "dump"]);
    book.lines
}

fn full_pairs(b: &mut Book) {
    // Id 1000 is in flight, edges 0 and 1 are there, the clock is moved so that a time can lie before it.
    b.say("advance 4 0");
    let sound = Submit { id: 9, bytes: 10, latency: 0.0, cap: None, time: 4.0, path: vec![0, 1] };
    b.refuses(&sound.line(), 7);
    for (number, spoil) in SUBMIT_CAUSES {
        let mut one = sound.clone();
        spoil(&mut one);
        if number == 6 {
            one.id = 1000;
        }
        b.refuses(&one.line(), number);
    }
}

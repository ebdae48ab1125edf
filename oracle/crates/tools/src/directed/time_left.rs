//! The time left, which is 0 for a transfer that is done, something above 0 for one that will be, and no time for one that stalls or is not there.

use super::tolerance::{drain_to_bytes, end_of_drain};
use super::*;

const CANNOT: &str = "cannot_finish";

pub(super) fn time_left() -> Vec<String> {
    let mut book = Book::new();
    unplugged(&mut book);
    without_rate(&mut book);
    with_few_bytes(&mut book);
    without_end(&mut book);
    around_a_cancel(&mut book);
    book.lines
}

/// A drive of capacity 0, plugged in and unplugged again; the clock moves on meanwhile.
fn unplugged(b: &mut Book) {
    b.begin("an edge of capacity 0, plugged in and unplugged again");
    b.all(&["add_edge 0", "submit 1 0 0 100 0 - 0 1 0"]);
    b.settled(1, CANNOT);
    b.expect("next_completion_delay", "never");
    b.expect("advance 5 768", "list 0 tail-kept");
    b.settled(1, CANNOT);
    b.say("dump");
    b.say("widen 0 10");
    b.settled(1, &value(10.0));
    b.expect("advance 8 768", "list 0 tail-kept");
    b.settled(1, &value(7.0));
    b.say("widen 0 -10");
    b.settled(1, CANNOT);
    b.all(&["dump", "widen 0 70"]);
    b.settled(1, &value(1.0));
    b.expect("advance 9 768", "list 1 0 0 1 tail-kept");
    b.settled(1, "unknown");
    b.say("dump");

    b.begin("one unplugged edge stalls a path, and its other edges are free");
    b.all(&["add_edge 10", "add_edge 0", "submit 1 0 0 100 0 - 0 2 0 1", "submit 2 1 0 100 0 - 0 1 0"]);
    b.settled(1, CANNOT);
    b.settled(2, &value(10.0));
    b.settled(3, "unknown");
    b.say("dump");
}

/// A cap of 0, with a path and without one; a latency does not make it a time, and no bytes make it one.
fn without_rate(b: &mut Book) {
    for path in ["1 0", "0"] {
        b.begin(&format!("a cap of 0 and the path {path}"));
        b.all(&["add_edge 10", &format!("submit 1 0 0 5 0 0 0 {path}"), &format!("submit 2 0 0 5 3 -0 0 {path}"), &format!("submit 3 0 0 0 3 0 0 {path}")]);
        b.settled(1, CANNOT);
        b.settled(2, CANNOT);
        b.settled(3, &value(3.0));
        b.say("submit 4 0 0 0 0 0 0 0");
        b.settled(4, &value(0.0));
        b.expect("rate 4", &value(0.0));
        b.expect("advance 3 768", "list 2 0 0 3 0 0 4 tail-kept");
        b.settled(2, CANNOT);
        b.say("dump");
    }
}

/// Bytes at B or a neighbour of it when the edge is unplugged: up to B the transfer is done and keeps the rate it had, above it stalls.
fn with_few_bytes(b: &mut Book) {
    for (i, target) in neighbours(B).into_iter().enumerate() {
        let name = ["below B", "exactly B", "above B"][i];
        drain_to_bytes(b, target, &format!("bytes left {name}, and then unplugged"));
        let capacity = b.session.sim.edge(0).capacity;
        b.say(&format!("submit 2 0 0 1 0 - {} 1 0", hex(end_of_drain())));
        b.say(&format!("widen 0 {}", hex(-capacity)));
        assert_eq!(b.transfer(1).bytes.to_bits(), target.to_bits(), "bytes left {name}");
        b.settled(1, if target <= B { "value 0000000000000000" } else { CANNOT });
        assert_eq!(b.transfer(1).rate == 0.0, target > B);
        b.settled(2, CANNOT);
        b.expect(&format!("advance {} 768", hex(end_of_drain())), if target <= B { "list 1 0 0 1 tail-kept" } else { "list 0 tail-kept" });
        b.say("dump");
    }
}

/// A rate so small that the time overflows is a rate, and the time is told.
fn without_end(b: &mut Book) {
    b.begin("the least rate: a time without end is a time");
    b.all(&["add_edge 0000000000000001", "submit 1 0 0 9007199254740992 0 - 0 1 0", "submit 2 0 0 1 0 0000000000000001 0 0"]);
    b.settled(1, &value(f64::INFINITY));
    b.settled(2, &value(f64::INFINITY));
    b.say("widen 0 8000000000000001");
    b.settled(1, CANNOT);
    b.say("dump");

    b.begin("the least rate that lets a byte end in a time that a double holds, and the next below");
    let ends = f64::MAX.recip();
    for (id, rate) in [(1, ends.next_up()), (2, ends.next_down())] {
        b.say(&format!("submit {id} 0 0 1 0 {} 0 0", hex(rate)));
        b.settled(id, &value(1.0 / rate));
    }
    assert!((1.0 / ends.next_up()).is_finite() && (1.0 / ends.next_down()).is_infinite());
    b.say("dump");
}

/// All three answers before and after somebody is cancelled.
fn around_a_cancel(b: &mut Book) {
    b.begin("the three answers around a cancel");
    b.all(&["add_edge 10", "add_edge 0", "submit 1 0 0 100 0 - 0 1 0", "submit 2 1 0 100 0 - 0 1 0", "submit 3 2 0 100 0 - 0 1 1"]);
    b.settled(1, &value(20.0));
    b.settled(3, CANNOT);
    b.settled(4, "unknown");
    b.expect("advance 4 768", "list 0 tail-kept");
    b.expect("cancel 1", "done");
    b.settled(1, "unknown");
    b.settled(2, &value(8.0));
    b.settled(3, CANNOT);
    b.expect("cancel 3", "done");
    b.settled(3, "unknown");
    b.expect("cancel 3", "unknown");
    b.settled(2, &value(8.0));
    b.say("dump");
    b.expect("advance 12 768", "list 1 1 0 2 tail-kept");
    b.settled(2, "unknown");
    b.say("dump");
}

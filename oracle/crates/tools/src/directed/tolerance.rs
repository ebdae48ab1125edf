//! Numbers met to the bit: B, eps, next-done, and their neighbours.

use super::*;
use crate::random::Random;
use crate::tolerances::{eps_at, whole_over_double};

/// Bytes left are B or a neighbour of it, to the bit.
pub(super) fn bytes_left() -> Vec<String> {
    let mut book = Book::new();
    for (i, target) in neighbours(B).into_iter().enumerate() {
        let b = &mut book;
        let name = ["below B", "exactly B", "above B"][i];
        drain_to_bytes(b, target, &format!("bytes left {name}, met by an advance"));
        let done = if target <= B { "list 1 0 0 1 tail-kept" } else { "list 0 tail-kept" };
        b.expect(&format!("advance {} 768", hex(end_of_drain())), done);
        b.look();

        drain_to_bytes(b, target, &format!("bytes left {name}, seen beside another transfer"));
        b.say(&format!("submit 2 0 0 1 0 - {} 1 0", hex(end_of_drain())));
        assert_eq!(b.transfer(1).bytes.to_bits(), target.to_bits(), "bytes left {name}");
        b.say("dump");
        b.all(&["estimate_new 1 0 - 1 0", "rate 1", "rate 2", "rounds", "remaining 1", "settle", "remaining 1", "next_completion_delay"]);
        b.look();
        b.expect(&format!("advance {} 768", hex(end_of_drain())), done);
        b.say("dump");
    }
    book.lines
}

pub(super) fn end_of_drain() -> f64 {
    1.0 - 2f64.powi(-20)
}

/// One byte at rate 1 until 2^-19 is left, then 2^-20 seconds at the rate that leaves the target. Every step is exact.
pub(super) fn drain_to_bytes(b: &mut Book, target: f64, remark: &str) {
    let left = 2f64.powi(-19);
    let rate = (left - target) * 2f64.powi(20);
    b.begin(remark);
    b.all(&["add_edge 1", "submit 1 0 0 1 0 - 0 1 0"]);
    b.expect(&format!("advance {} 768", hex(1.0 - left)), "list 0 tail-kept");
    b.say(&format!("widen 0 {}", hex(rate - 1.0)));
    assert_eq!(b.transfer(1).bytes, left);
    assert_eq!(b.session.sim.edge(0).capacity, rate);
}

/// Bytes over rate are eps or a neighbour of it, to the bit: at the floor, and where the clock decides.
pub(super) fn drain_time() -> Vec<String> {
    let mut book = Book::new();
    for clock in [0.0, TWO_20, 12345.678] {
        let eps = eps_at(clock);
        for target in neighbours(eps) {
            let b = &mut book;
            let (bytes, capacity) = whole_over_double(target, 1).expect("a quotient for each");
            b.begin(&format!("bytes/rate {} eps at clock {clock}", relation(target, eps)));
            b.say(&format!("add_edge {}", hex(capacity)));
            b.say(&format!("advance {} 768", write_double(clock)));
            b.say(&format!("submit 1 0 0 {bytes} 0 - {} 1 0", write_double(clock)));
            b.expect("rate 1", &value(capacity));
            assert_eq!(bytes as f64 / capacity, target);
            let remaining = if target <= eps { 0.0 } else { target };
            b.settled(1, &value(remaining));
            b.say("next_completion_delay");
            let done = if target <= eps { "list 1 0 0 1 tail-kept" } else { "list 0 tail-kept" };
            b.expect(&format!("advance {} 768", write_double(clock)), done);
            b.say("dump");
        }
    }
    book.lines
}

fn relation(target: f64, eps: f64) -> &'static str {
    match target.total_cmp(&eps) {
        std::cmp::Ordering::Less => "just below",
        std::cmp::Ordering::Equal => "exactly",
        std::cmp::Ordering::Greater => "just above",
    }
}

/// The latency left is eps or a neighbour of it: as submitted, after a drain, and where eps leaves its floor.
pub(super) fn latency_left() -> Vec<String> {
    let mut book = Book::new();
    for clock in [0.0, TWO_20] {
        let eps = eps_at(clock);
        for latency in neighbours(eps) {
            let b = &mut book;
            b.begin(&format!("latency {} eps at clock {clock}", relation(latency, eps)));
            let (at, left) = (write_double(clock), hex(latency));
            b.say(&format!("advance {at} 768"));
            b.say(&format!("submit 1 0 0 0 {left} - {at} 0"));
            b.say(&format!("submit 2 1 0 5 {left} - {at} 0"));
            let (delay, done) = match latency <= eps {
                true => (0.0, "list 2 0 0 1 1 0 2 tail-kept"),
                false => ((clock + latency) - clock, "list 0 tail-kept"),
            };
            b.expect("next_completion_delay", &after(delay));
            b.settled(1, &value(if latency <= eps { 0.0 } else { latency }));
            b.expect(&format!("advance {at} 768"), done);
            b.say("dump");
        }
    }
    latency_after_drain(&mut book);
    eps_leaves_its_floor(&mut book);
    book.lines
}

/// A latency of a second and a bit, paid down to the bit.
fn latency_after_drain(b: &mut Book) {
    let eps = eps_at(TWO_20);
    for bit in [eps - f64::EPSILON, eps, eps + f64::EPSILON] {
        b.begin(&format!("latency paid down to {} eps", relation(bit, eps)));
        b.all(&["advance 1048575 768", &format!("submit 1 0 0 0 {} - 1048575 0", hex(1.0 + bit))]);
        b.say("submit 2 2 0 3 7 - 1048576 0");
        assert_eq!(b.transfer(1).latency.to_bits(), bit.to_bits());
        let done = if bit <= eps { "list 1 0 0 1 tail-kept" } else { "list 0 tail-kept" };
        b.say("dump");
        b.expect("advance 1048576 768", done);
        b.look();
    }
}

/// From 2^50 * F on the clock decides: there eps is F still, at the next clock of another eps it is one step above.
fn eps_leaves_its_floor(b: &mut Book) {
    let scale = 2f64.powi(50);
    for clock in [(F * scale).next_down(), F * scale, F.next_up() * scale] {
        let eps = eps_at(clock);
        assert_eq!(eps > F, clock > F * scale);
        b.begin(&format!("eps at clock {}", hex(clock)));
        b.say(&format!("advance {} 768", hex(clock)));
        b.say(&format!("submit 1 0 0 0 {} - {} 0", hex(F), hex(clock)));
        b.say(&format!("submit 2 0 0 0 {} - {} 0", hex(F.next_up()), hex(clock)));
        let done = if eps > F { "list 2 0 0 1 0 0 2 tail-kept" } else { "list 1 0 0 1 tail-kept" };
        b.expect(&format!("advance {} 768", hex(clock)), done);
        b.say("dump");
    }
}

/// An advance to next-done and to its neighbours: only the one before it is quiet.
pub(super) fn next_done() -> Vec<String> {
    let mut book = Book::new();
    for time in neighbours(1.0) {
        let b = &mut book;
        let quiet = time < 1.0;
        b.begin(&format!("advance {} next-done", relation(time, 1.0)));
        b.all(&["add_edge 10", "submit 1 0 0 10 0 - 0 1 0"]);
        b.expect("next_completion_delay", &after(1.0));
        assert_eq!(b.session.sim.next_done(), Some(1.0));
        let listed = if quiet { "list 0 tail-kept" } else { "list 1 0 0 1 tail-kept" };
        b.expect(&format!("advance {} 768", hex(time)), listed);
        assert_eq!(b.session.sim.edge(0).bytes_moved == 0.0, quiet);
        b.all(&["edge 0", "dump"]);
        b.all(&[&format!("advance {} 768", hex(time)), "next_completion_delay", "advance 1.5 0", "advance 1.5 768", "dump"]);
    }
    let b = &mut book;
    b.begin("a transfer waits for its latency alone; next-done is reached while the rates are stale");
    b.all(&["add_edge 4", "submit 1 0 0 0 2 - 0 1 0", "submit 2 1 0 8 0 - 0 1 0"]);
    b.expect("next_completion_delay", &after(2.0));
    b.expect(&format!("advance {} 768", hex(2f64.next_down())), "list 0 tail-kept");
    b.say("widen 0 0");
    // 4 * (2 - 2^-52) is one step below 8, so the drain leaves next to nothing.
    b.say("dump");
    b.expect("advance 2 768", "list 2 0 0 1 1 0 2 tail-kept");
    b.say("dump");
    infinite_delay(b);
    stuck_at_zero(b);
    book.lines
}

/// Bytes over a tiny rate overflow: the delay is infinite, which is not never.
fn infinite_delay(b: &mut Book) {
    b.begin("an infinite delay");
    b.all(&["add_edge 0000000000000001", "submit 1 0 0 9007199254740992 0 - 0 1 0"]);
    b.expect("next_completion_delay", &after(f64::INFINITY));
    b.settled(1, &value(f64::INFINITY));
    b.expect("advance 1099511627776 768", "list 0 tail-kept");
    b.expect("next_completion_delay", &after(f64::INFINITY));
    b.say("dump");
}

/// Next-done lies at the clock and nothing is listed: polling drains have rounded the bytes. The delay stays 0.
fn stuck_at_zero(b: &mut Book) {
    let (lines, next) = stalled();
    b.begin("a delay that stays 0 after drains by polling");
    lines.iter().for_each(|line| drop(b.say(line)));
    b.expect(&format!("advance {} 768", hex(next)), "list 0 tail-kept");
    b.expect("next_completion_delay", &after(0.0));
    b.say("dump");
    // A step further next-done lies before the clock, and the delay is 0 all the same.
    b.expect(&format!("advance {} 768", hex(next.next_up())), "list 0 tail-kept");
    b.expect("next_completion_delay", &after(0.0));
    b.say("dump");
}

/// Calls behind which an advance to next-done, and one a step further, list nobody; and that next-done.
pub(super) fn stalled() -> (Vec<String>, f64) {
    let mut random = Random::new(40);
    for _ in 0..20_000 {
        let mut trial = Book::new();
        // Many bytes, so that what is left over lies above B.
        let bytes = random.between(1 << 40, (1 << 41) - 1);
        trial.say(&format!("add_edge {}", hex(bytes as f64 / random.between(2100, 4000) as f64)));
        trial.say(&format!("submit 1 0 0 {bytes} 0 - 0 1 0"));
        trial.say("next_completion_delay");
        let next = trial.session.sim.next_done().expect("it moves");
        // Equal steps round the same way each time while the bytes keep their exponent.
        for poll in 1..=30 {
            trial.say(&format!("advance {} 768", 32 * poll));
            trial.say("settle");
        }
        let lines = trial.lines.clone();
        let stands = |trial: &mut Book, time: f64| {
            trial.say(&format!("advance {} 768", hex(time))) == "list 0 tail-kept" && trial.say("next_completion_delay") == after(0.0)
        };
        if stands(&mut trial, next) && stands(&mut trial, next.next_up()) {
            return (lines, next);
        }
    }
    panic!("no stall found");
}

//! Ties and roundings whose order shows in the rates.

use super::*;
use super::cases::rates;
use crate::random::Random;

/// Transfers with one cap, each crossing one edge many times: the roundings of the first leave less than the cap for the
/// last, so the order of ties shows. With single crossings it cannot: one rounding is smaller than the tie is wide.
pub(super) fn equal_caps() -> Vec<String> {
    let mut book = Book::new();
    let mut random = Random::new(7);
    let mut found = 0;
    for _ in 0..2000 {
        let (transfers, crossings) = (random.between(2, 5), random.between(3, 8));
        let cap = random.mantissa();
        let mut capacity = cap * (transfers * crossings) as f64;
        (0..random.between(0, 3)).for_each(|_| capacity = capacity.next_up());
        let mut trial = Book::new();
        trial.begin("equal caps: the lowest slot goes first, and the last gets less");
        trial.say(&format!("add_edge {}", hex(capacity)));
        for slot in 0..transfers {
            // Ids run against the slots, so that neither order can stand for the other.
            let path = write_path(&vec![0; crossings]);
            trial.say(&format!("submit {} 0 0 1000 0 {} 0 {path}", transfers - slot, hex(cap)));
        }
        trial.say("next_completion_delay");
        let rates: Vec<f64> = trial.session.sim.transfers().iter().map(|t| t.rate).collect();
        if rates[0] == cap && rates[transfers - 1] < cap {
            trial.all(&["rounds", "dump"]);
            book.lines.extend(trial.lines);
            found += 1;
        }
        if found == 8 {
            equal_shares(&mut book);
            slots_again(&mut book);
            return book.lines;
        }
    }
    panic!("too few ties found");
}

/// As many capped transfers as there are slots, with few caps, in orders that are far from the caps' own: falling, alternating, all equal, and with
/// gaps. Each cap has an edge of its own that leaves less than the cap for the last, so the order of ties shows for each.
pub(super) fn many_caps() -> Vec<String> {
    let mut book = Book::new();
    let mut random = Random::new(13);
    let four: Vec<(f64, f64)> = (0..4).map(|power| tied(&mut random, 64, f64::from(1 << power))).collect();
    let all = [tied(&mut random, 256, 1.0)];
    crowd(&mut book, "256 caps of four values, falling from slot to slot", &four, |slot| 3 - slot / 64);
    crowd(&mut book, "256 caps of four values, alternating", &four, |slot| [3, 0, 2, 1][slot % 4]);
    book.lines.push("# every third gives way, and some of the slots go to transfers without a cap".to_string());
    (0..256).step_by(3).for_each(|slot| drop(book.say(&format!("cancel {}", 255 - slot))));
    (0..40).for_each(|id| drop(book.say(&format!("submit {} 0 0 1000 0 - 0 1 {}", 1000 + id, id % 4))));
    book.all(&["next_completion_delay", "rounds", "dump"]);
    crowd(&mut book, "256 equal caps", &all, |_| 0);
    book.lines
}

/// A cap and the capacity of an edge that so many with this cap cross seven times each, where the roundings leave less than the cap for the last, and
/// for a quarter of them at the least the cap itself.
fn tied(random: &mut Random, transfers: usize, scale: f64) -> (f64, f64) {
    for _ in 0..5000 {
        let cap = random.mantissa() * scale;
        let mut capacity = cap * (transfers * 7) as f64;
        (0..random.between(0, 6)).for_each(|_| capacity = capacity.next_up());
        let mut trial = Book::new();
        crowd_of(&mut trial, &[(cap, capacity)], transfers, |_| 0);
        let at_cap = trial.session.sim.transfers().iter().filter(|t| t.rate == cap).count();
        if transfers / 4 <= at_cap && at_cap < transfers {
            return (cap, capacity);
        }
    }
    panic!("no tie found");
}

/// Slot by slot a transfer with one of the caps; ids run against the slots, so that neither order can stand for the other.
fn crowd_of(b: &mut Book, caps: &[(f64, f64)], transfers: usize, chosen: fn(usize) -> usize) {
    caps.iter().for_each(|(_, capacity)| drop(b.say(&format!("add_edge {}", hex(*capacity)))));
    for slot in 0..transfers {
        let edge = chosen(slot);
        let path = write_path(&[edge as u32; 7]);
        b.say(&format!("submit {} 0 0 1000 0 {} 0 {path}", 255 - slot, hex(caps[edge].0)));
    }
    b.say("next_completion_delay");
}

fn crowd(b: &mut Book, remark: &str, caps: &[(f64, f64)], chosen: fn(usize) -> usize) {
    b.begin(remark);
    crowd_of(b, caps, 256, chosen);
    for (edge, (cap, _)) in caps.iter().enumerate() {
        let slots: Vec<u32> = (0..256).filter(|slot| chosen(*slot) == edge).map(|slot| slot as u32).collect();
        let (first, last) = (slots[0], slots[slots.len() - 1]);
        assert!(b.transfer(255 - first).rate == *cap && b.transfer(255 - last).rate < *cap, "{remark}: edge {edge}");
    }
    b.all(&["rounds", "dump"]);
}

/// Two edges with one share: the lowest number wins, which the round number shows.
fn equal_shares(b: &mut Book) {
    b.begin("equal shares on two edges: the lower number wins");
    b.all(&["add_edge 10", "add_edge 10", "add_edge 4"]);
    b.all(&["submit 0 0 0 100 0 - 0 1 1", "submit 1 0 0 100 0 - 0 2 0 1", "submit 2 0 0 100 0 5 0 1 0"]);
    rates(b, &[5.0, 5.0, 5.0], 2);
    let mut random = Random::new(11);
    // Thirds of these capacities round, so that it shows which edge was served first.
    for _ in 0..200 {
        let capacity = random.mantissa() * 3.0;
        let mut trial = Book::new();
        trial.begin("equal shares that round: the order of the edges shows in the rates");
        trial.all(&[&format!("add_edge {}", hex(capacity)), &format!("add_edge {}", hex(capacity))]);
        let paths = ["1 0", "1 0", "2 0 1", "1 1", "1 1"];
        for (id, path) in paths.iter().enumerate() {
            trial.say(&format!("submit {id} 0 0 1000 0 - 0 {path}"));
        }
        trial.say("next_completion_delay");
        let rates: Vec<u64> = trial.session.sim.transfers().iter().map(|t| t.rate.to_bits()).collect();
        if rates[0] != rates[4] {
            trial.all(&["rounds", "dump"]);
            b.lines.extend(trial.lines);
            return;
        }
    }
    panic!("no rounding third found");
}

fn slots_again(b: &mut Book) {
    b.begin("freed slots: the lowest is taken first");
    (0..5).for_each(|id| drop(b.say(&format!("submit {id} 0 0 9 1 - 0 0"))));
    b.all(&["cancel 3", "cancel 1", "submit 8 0 0 9 1 - 0 0"]);
    assert_eq!(b.transfer(8).slot, Some(1));
    b.say("submit 7 0 0 9 1 - 0 0");
    assert_eq!(b.transfer(7).slot, Some(3));
    b.say("submit 6 0 0 9 1 - 0 0");
    assert_eq!(b.transfer(6).slot, Some(5));
    b.say("dump");
}

/// In units of the least subnormal: edge 1 has 3 for five crossings, its share rounds up to 1, four take it, the fourth clamps.
pub(super) fn clamp() -> Vec<String> {
    let mut book = Book::new();
    let b = &mut book;
    b.begin("a residual that clamps at 0 while the edge is still loaded");
    let unit = |n: u64| hex(f64::from_bits(n));
    b.all(&[&format!("add_edge {}", unit(4)), &format!("add_edge {}", unit(3)), &format!("add_edge {}", unit(7))]);
    (0..4).for_each(|id| drop(b.say(&format!("submit {id} 0 0 5 0 - 0 2 0 1"))));
    b.say("submit 4 0 0 5 0 - 0 2 1 2");
    b.say("submit 5 0 0 5 0 - 0 1 2");
    // Without the clamp the sixth would get 8 units.
    rates(b, &[LEAST, LEAST, LEAST, LEAST, 0.0, 7.0 * LEAST], 3);
    b.all(&["next_completion_delay", "advance 1000000 768", "dump"]);
    b.begin("caps equal to a share that was rounded up: the edge wins and clamps");
    b.all(&[&format!("add_edge {}", unit(3)), &format!("add_edge {}", unit(9))]);
    (0..5).for_each(|id| drop(b.say(&format!("submit {id} 0 0 5 0 {} 0 2 0 1", unit(1)))));
    b.say("submit 5 0 0 5 0 - 0 1 1");
    b.look();
    book.lines
}

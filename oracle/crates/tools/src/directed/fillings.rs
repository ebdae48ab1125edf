//! Fillings by themselves: document 01's small ones, many transfers over all edges, and capacities at both ends of the doubles.

use super::{value, Book, LEAST};
use crate::script::hex;

pub fn fillings() -> Vec<String> {
    let mut book = Book::new();
    small(&mut book);
    crowded(&mut book);
    ends(&mut book);
    book.lines
}

fn edge(book: &mut Book, capacity: f64) {
    book.say(&format!("add_edge {}", hex(capacity)));
}

fn send(book: &mut Book, id: u32, cap: Option<f64>, path: &[u32]) {
    let cap = cap.map_or("-".to_string(), hex);
    let path: Vec<String> = path.iter().map(u32::to_string).collect();
    book.say(&format!("submit {id} 0 0 100 0 {cap} 0 {} {}", path.len(), path.join(" ")).trim_end().to_string());
}

fn rates(book: &mut Book, expected: &[f64], rounds: u32) {
    for (id, rate) in expected.iter().enumerate() {
        book.expect(&format!("rate {id}"), &value(*rate));
    }
    book.expect("rounds", &format!("number {rounds}"));
}

/// Cases 1 to 6 and 12, with the rates and rounds that document 01 gives.
fn small(book: &mut Book) {
    let cases: [(&str, &[f64], &[(Option<f64>, &[u32])], &[f64], u32); 6] = [
        ("case 1", &[10.0], &[(None, &[0]), (None, &[0])], &[5.0, 5.0], 1),
        ("case 2", &[12.0], &[(Some(2.0), &[0]), (None, &[0]), (None, &[0])], &[2.0, 5.0, 5.0], 2),
        ("case 3", &[12.0], &[(Some(4.0), &[0]), (None, &[0]), (None, &[0])], &[4.0, 4.0, 4.0], 1),
        ("case 4", &[10.0, 4.0], &[(None, &[0]), (None, &[0, 1])], &[6.0, 4.0], 2),
        ("case 5", &[10.0], &[(None, &[0, 0])], &[5.0], 1),
        ("case 6", &[], &[(None, &[])], &[f64::INFINITY], 0),
    ];
    for (name, capacities, transfers, expected, rounds) in cases {
        book.begin(name);
        capacities.iter().for_each(|&capacity| edge(book, capacity));
        for (id, &(cap, path)) in transfers.iter().enumerate() {
            send(book, id as u32, cap, path);
        }
        rates(book, expected, rounds);
    }
    book.begin("case 12: who still pays its latency has its share all the same");
    edge(book, 10.0);
    send(book, 0, None, &[0]);
    book.say("submit 1 0 0 100 5 - 0 1 0");
    rates(book, &[5.0, 5.0], 1);
}

/// 256 transfers over 64 edges, a third of them capped, paths of one to eight edges.
fn crowded(book: &mut Book) {
    book.begin("256 transfers over 64 edges");
    (0..64).for_each(|e| edge(book, 1000.0 + 37.0 * e as f64));
    for id in 0..256u32 {
        let path: Vec<u32> = (0..id % 8 + 1).map(|k| (id * 7 + k * 13) % 64).collect();
        let cap = (id % 3 == 0).then_some(1.0 + id as f64 / 7.0);
        send(book, id, cap, &path);
    }
    for id in 0..256 {
        book.say(&format!("rate {id}"));
    }
    let rounds = book.say("rounds");
    let count: u32 = rounds.trim_start_matches("number ").parse().expect("a number");
    assert!((64..=256).contains(&count), "{count} rounds");
}

/// Capacities among the subnormal numbers and next to the largest, shared by counts that do not divide them.
fn ends(book: &mut Book) {
    for (name, capacity) in [("subnormal capacities", 5.0 * LEAST), ("the largest capacity", f64::MAX), ("the smallest normal capacity", f64::MIN_POSITIVE)] {
        for count in [1, 3, 7] {
            book.begin(&format!("{name}, {count} transfers"));
            edge(book, capacity);
            (0..count).for_each(|id| send(book, id, None, &[0]));
            (0..count).for_each(|id| drop(book.say(&format!("rate {id}"))));
            book.expect("rounds", "number 1");
        }
    }
}

//! Document 01's cases, with the answers it gives.

use super::*;

pub(super) fn cases() -> Vec<String> {
    let mut book = Book::new();
    let b = &mut book;
    first_cases(b);
    later_cases(b);
    case_13(b);
    b.begin("case 14: ids ascending, a buffer of one is short");
    b.all(&["submit 9 0 3 0 0 - 0 0", "submit 2 0 3 0 0 - 0 0"]);
    b.expect("advance 0 768", "list 2 0 3 2 0 3 9 tail-kept");
    b.refuses("take_completed 0 3 1", 8);
    b.expect("take_completed 0 3 2", "list 2 2 9 tail-kept");
    b.expect("take_completed 0 3 2", "nothing");
    b.say("dump");
    case_15(b);
    b.begin("two less three thirds, crossing by crossing, is not quite one");
    b.all(&["add_edge 1", "add_edge 2", "submit 0 0 0 100 0 - 0 2 0 1", "submit 1 0 0 100 0 - 0 2 0 1"]);
    b.all(&["submit 2 0 0 100 0 - 0 2 0 1", "submit 3 0 0 100 0 - 0 1 1"]);
    b.expect("rate 3", "value 3ff0000000000001");
    b.say("dump");
    book.lines
}

fn first_cases(b: &mut Book) {
    b.begin("case 1: two alike");
    b.all(&["add_edge 10", "submit 0 0 0 100 0 - 0 1 0", "submit 1 0 0 100 0 - 0 1 0"]);
    rates(b, &[5.0, 5.0], 1);
    b.begin("case 2: one capped below the share");
    b.all(&["add_edge 12", "submit 0 0 0 100 0 2 0 1 0", "submit 1 0 0 100 0 - 0 1 0", "submit 2 0 0 100 0 - 0 1 0"]);
    rates(b, &[2.0, 5.0, 5.0], 2);
    b.begin("case 3: a cap equal to the share does not win");
    b.all(&["add_edge 12", "submit 0 0 0 100 0 4 0 1 0", "submit 1 0 0 100 0 - 0 1 0", "submit 2 0 0 100 0 - 0 1 0"]);
    rates(b, &[4.0, 4.0, 4.0], 1);
    b.begin("case 4: the narrow edge first");
    b.all(&["add_edge 10", "add_edge 4", "submit 0 0 0 100 0 - 0 1 0", "submit 1 0 0 100 0 - 0 2 0 1"]);
    rates(b, &[6.0, 4.0], 2);
    b.begin("case 5: a repeated edge counts twice");
    b.all(&["add_edge 10", "submit 0 0 0 100 0 - 0 2 0 0"]);
    rates(b, &[5.0], 1);
    b.begin("case 6: no path, no cap");
    b.say("submit 0 0 0 1000 0 - 0 0");
    rates(b, &[f64::INFINITY], 0);
    b.expect("advance 0 768", "list 1 0 0 0 tail-kept");
    b.say("dump");
}

pub(super) fn rates(b: &mut Book, wanted: &[f64], rounds: u64) {
    for (id, rate) in wanted.iter().enumerate() {
        b.expect(&format!("rate {id}"), &value(*rate));
    }
    b.expect("rounds", &format!("number {rounds}"));
    b.say("dump");
}

fn later_cases(b: &mut Book) {
    b.begin("case 7: no path, cap 0");
    b.say("submit 0 0 0 5 0 0 0 0");
    b.expect("next_completion_delay", "never");
    b.expect("advance 7 768", "list 0 tail-kept");
    b.settled(0, "cannot_finish");
    b.say("dump");
    b.begin("case 8: capacity 0");
    b.all(&["add_edge 0", "submit 0 0 0 5 0 - 0 1 0"]);
    rates(b, &[0.0], 1);
    b.expect("next_completion_delay", "never");
    b.expect("estimate_new 0 0 - 1 0", &value(f64::INFINITY));
    b.expect("estimate_new 5 2 0 0", &value(2.0));
    b.begin("case 9: no bytes, latency 1");
    b.say("submit 0 0 0 0 1 - 0 0");
    b.expect("next_completion_delay", &after(1.0));
    b.expect("advance 1 768", "list 1 0 0 0 tail-kept");
    b.say("dump");
    b.begin("case 10: an estimate beside two others");
    b.all(&["add_edge 12", "submit 0 0 0 100 0 - 0 1 0", "submit 1 0 0 100 0 - 0 1 0"]);
    b.expect("estimate_new 8 1 - 1 0", &value(3.0));
    b.expect("estimate_new 8 -1 - 1 0", &value(2.0));
    b.expect("estimate_new 8 1 2 1 0", &value(5.0));
    b.begin("case 11: eps at clock 0 and at 2^20, seen by the latency that still counts as paid");
    b.say(&format!("submit 0 0 0 0 {} - 0 0", hex(F)));
    b.say(&format!("submit 1 0 0 0 {} - 0 0", hex(F.next_up())));
    b.expect("advance 0 768", "list 1 0 0 0 tail-kept");
    b.expect("advance 1048576 768", "list 1 0 0 1 tail-kept");
    b.say(&format!("submit 2 0 0 0 {} - 1048576 0", hex(1.0 / (1 << 30) as f64)));
    b.say(&format!("submit 3 0 0 0 {} - 1048576 0", hex((1.0 / (1 << 30) as f64).next_up())));
    b.expect("advance 1048576 768", "list 1 0 0 2 tail-kept");
    b.say("dump");
    b.begin("case 12: a latency holds its share");
    b.all(&["add_edge 10", "submit 0 0 0 100 5 - 0 1 0", "submit 1 0 0 100 0 - 0 1 0"]);
    b.expect("next_completion_delay", &after(20.0));
    b.say("dump");
}

fn case_13(b: &mut Book) {
    let start = [
        "add_edge 10",
        "submit 1 0 0 100 0 - 0 1 0",
        "submit 2 0 0 100 0 - 0 1 0",
        "advance 0 768",
        "advance 10 768",
        "cancel 2",
    ];
    let moved = |bytes: f64, integral: f64| format!("edge {} {} {}", hex(10.0), hex(bytes), hex(integral));
    b.begin("case 13: asked before, the advance to 12 is quiet");
    b.all(&start);
    b.expect("edge 0", &moved(100.0, 20.0));
    b.expect("next_completion_delay", &after(5.0));
    b.expect("advance 12 768", "list 0 tail-kept");
    b.expect("edge 0", &moved(100.0, 22.0));
    b.expect("advance 15 768", "list 1 0 0 1 tail-kept");
    b.expect("edge 0", &moved(150.0, 25.0));
    b.say("dump");
    b.begin("case 13 without the question: the advance to 12 drains");
    b.all(&start);
    b.expect("edge 0", &moved(100.0, 20.0));
    b.expect("advance 12 768", "list 0 tail-kept");
    b.expect("edge 0", &moved(120.0, 22.0));
    b.expect("advance 15 768", "list 1 0 0 1 tail-kept");
    b.expect("edge 0", &moved(150.0, 25.0));
    b.say("dump");
    b.begin("case 13 with widen and add_edge after a quiet advance: both drain first");
    b.all(&["add_edge 10", "submit 1 0 0 100 0 - 0 1 0", "next_completion_delay", "advance 2 768"]);
    b.expect("edge 0", &moved(0.0, 2.0));
    b.say("widen 0 0");
    b.expect("edge 0", &moved(20.0, 2.0));
    b.all(&["next_completion_delay", "advance 4 768"]);
    b.expect("edge 0", &moved(20.0, 4.0));
    b.say("add_edge 3");
    b.expect("edge 0", &moved(40.0, 4.0));
    b.expect("next_completion_delay", &after(6.0));
    b.say("dump");
}

fn case_15(b: &mut Book) {
    b.begin("case 15, the small limits: path, bytes, time");
    b.say("add_edge 8");
    b.expect("submit 0 0 0 1 0 - 0 8 0 0 0 0 0 0 0 0", "done");
    b.refuses("submit 1 0 0 1 0 - 0 9 0 0 0 0 0 0 0 0 0", 4);
    b.expect("submit 1 0 0 9007199254740992 0 - 0 1 0", "done");
    b.refuses("submit 2 0 0 9007199254740993 0 - 0 1 0", 5);
    b.expect("advance 2 768", "list 1 0 0 0 tail-kept");
    b.expect("advance 2 768", "list 0 tail-kept");
    b.expect("submit 2 0 0 0 0 - 2 0", "done");
    b.refuses(&format!("advance {} 768", hex(2f64.next_down())), 2);
    b.refuses(&format!("submit 3 0 0 0 0 - {} 0", hex(2f64.next_down())), 2);
    b.say("dump");
}

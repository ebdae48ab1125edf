//! `run_until` and `finish`: from completion to completion.

use super::tolerance::stalled;
use super::*;

/// What a reader asks behind some steps; the first call lists what was listed on the way.
const LOOK: [&str; 3] = ["now", "counts", "dump"];

pub(super) fn steps() -> Vec<String> {
    let mut book = Book::new();
    let b = &mut book;
    plain_steps(b);
    pending_latency(b);
    done_but_not_listed(b);
    at_the_clock(b);
    refused(b);
    one_after_another(b);
    unplugged(b);
    end_of_time(b);
    a_delay_that_stays_0(b);
    all_at_once(b);
    book.lines
}

/// The answer of steps: a time and what is listed there for each.
fn told(steps: &[(f64, &str)]) -> String {
    let lines: Vec<String> = steps.iter().map(|(time, list)| format!("at {} list {list}\n", hex(*time))).collect();
    lines.concat() + "done"
}

fn plain_steps(b: &mut Book) {
    let start = ["add_edge 10", "submit 1 0 0 100 0 - 0 1 0", "submit 2 1 0 40 0 - 0 1 0"];
    b.begin("two on one edge: the second is done at 8 and leaves its share, so the first is done at 14");
    b.all(&start);
    b.expect("finish", &told(&[(8.0, "1 1 0 2"), (14.0, "1 0 0 1")]));
    b.all(&LOOK);
    b.expect("finish", "done");
    b.expect("run_until 20", "done");
    b.expect("now", &value(20.0));
    b.begin("the same by hand in one far step: the first is still there at 14");
    b.all(&start);
    b.expect("advance 14 768", "list 1 1 0 2 tail-kept");
    b.all(&LOOK);
    b.begin("up to a time before, exactly at, and after a completion; nothing is collected");
    b.all(&start);
    b.expect(&format!("run_until {}", hex(8f64.next_down())), "done");
    b.say("dump");
    b.expect("run_until 8", &told(&[(8.0, "1 1 0 2")]));
    b.all(&LOOK);
    b.expect("run_until 13", "done");
    b.expect("edge 0", &format!("edge {} {} {}", hex(10.0), hex(80.0), hex(21.0)));
    b.expect("run_until 15", &told(&[(14.0, "1 0 0 1")]));
    b.expect("now", &value(15.0));
    b.expect("owners_with_completions 512", "list 2 0 0 1 0 tail-kept");
    b.expect("take_completed 1 0 256", "list 1 2 tail-kept");
    b.say("dump");
}

fn pending_latency(b: &mut Book) {
    for words in ["run_until 30", "finish"] {
        b.begin(&format!("a pending latency holds its share from the start: {words}"));
        b.all(&["add_edge 10", "submit 1 0 0 50 0 - 0 1 0", "submit 2 0 3 20 12 - 0 1 0", "submit 3 2 0 0 4 - 0 0"]);
        // The first has half of the edge until 10, while the second moves nothing; from then on the second has all of it.
        b.expect(words, &told(&[(4.0, "1 2 0 3"), (10.0, "1 0 0 1"), (14.0, "1 0 3 2")]));
        b.all(&LOOK);
    }
}

fn done_but_not_listed(b: &mut Book) {
    for words in ["run_until 6", "run_until 100", "finish"] {
        b.begin(&format!("a submission passes a completion, which holds its share until it is listed: {words}"));
        b.all(&["add_edge 10", "submit 1 0 0 20 0 - 0 1 0", "submit 2 0 0 80 0 - 0 1 0", "submit 3 1 0 30 0 - 6 1 0"]);
        assert_eq!((b.transfer(1).bytes, b.session.sim.now()), (0.0, 6.0));
        // At 6 the second has 50 left and the third 30, at 5 a second each.
        let all = [(6.0, "1 0 0 1"), (12.0, "1 1 0 3"), (14.0, "1 0 0 2")];
        b.expect(words, &told(if words == "run_until 6" { &all[..1] } else { &all }));
        b.all(&LOOK);
    }
}

fn at_the_clock(b: &mut Book) {
    b.begin("a time that is the clock's: nobody, somebody without bytes, somebody who is done there");
    b.expect("run_until 0", "done");
    b.expect("run_until 8000000000000000", "done");
    b.expect("submit 7 0 2 0 0 - 3 0", "done");
    b.expect("submit 4 1 0 0 0 - 3 0", "done");
    b.expect("run_until 3", &told(&[(3.0, "2 1 0 4 0 2 7")]));
    b.expect("run_until 3", "done");
    b.all(&["add_edge 4", "submit 5 0 0 8 0 - 3 1 0", "submit 6 0 0 9 0 - 5 0"]);
    b.expect("run_until 5", &told(&[(5.0, "2 0 0 5 0 0 6")]));
    b.all(&LOOK);
}

fn refused(b: &mut Book) {
    b.begin("times that are none, a time before the clock, and lines that can't be read");
    b.all(&["add_edge 10", "submit 1 0 0 100 0 - 2 1 0", "next_completion_delay", "advance 3 768"]);
    for time in ["7ff8000000000000", "fff0000000000000", "7ff0000000000000", "-1", "8000000000000001", &hex(LATEST.next_up())] {
        b.refuses(&format!("run_until {time}"), 1);
    }
    for time in [hex(3f64.next_down()), "0".to_string(), "8000000000000000".to_string()] {
        b.refuses(&format!("run_until {time}"), 2);
    }
    for line in ["run_until", "run_until 5 768", "run_until x", "run_until -", "finish 5", "finish now", "Finish", "run_until5"] {
        b.expect(line, "malformed");
    }
    b.say("dump");
    b.expect("run_until 3", "done");
    b.expect("finish", &told(&[(12.0, "1 0 0 1")]));
    b.say("dump");
}

/// At the end of the first the second has more than eps to go at its share, and less at twice of it.
fn one_after_another(b: &mut Book) {
    let late = 3.0 / (1u64 << 32) as f64;
    let end = TWO_20 + 1.0 - late;
    for words in [format!("run_until {}", hex(end)), "finish".to_string()] {
        b.begin("two done one after another at one time");
        b.all(&["add_edge 2097152", "submit 1 0 0 1048576 0 - 1048576 1 0"]);
        b.say(&format!("submit 2 1 0 1048576 0 - {} 1 0", hex(TWO_20 + late)));
        b.expect(&words, &told(&[(end, "1 0 0 1"), (end, "1 1 0 2")]));
        b.all(&LOOK);
    }
}

fn unplugged(b: &mut Book) {
    for words in ["run_until 9", "finish"] {
        b.begin(&format!("an edge without capacity: {words}"));
        b.all(&["add_edge 0", "add_edge 10", "submit 1 0 0 5 0 - 0 1 0", "submit 2 0 0 50 0 - 0 1 1", "submit 3 0 0 5 0 - 0 2 0 1"]);
        b.expect(words, &told(&[(5.0, "1 0 0 2")]));
        b.all(&LOOK);
        b.expect("finish", "done");
        b.expect("next_completion_delay", "never");
        // Plugged in, the two share it.
        b.say("widen 0 2");
        let now = b.session.sim.now();
        b.expect("finish", &told(&[(now + 5.0, "2 0 0 1 0 0 3")]));
        b.say("dump");
    }
}

fn end_of_time(b: &mut Book) {
    let most = LATEST as u64;
    b.begin("somebody is done at the last time there is, somebody a byte later");
    b.say("add_edge 3");
    b.say(&format!("submit 1 0 0 {most} 0 1 0 1 0"));
    b.say(&format!("submit 2 0 0 {} 0 1 0 1 0", most + 1));
    b.say("submit 3 1 0 7 0 1 0 1 0");
    // At the last time eps is 2^-10, and a byte takes a second.
    b.expect("finish", &told(&[(7.0, "1 1 0 3"), (LATEST, "1 0 0 1")]));
    b.all(&LOOK);
    b.expect("finish", "done");
    b.expect(&format!("run_until {}", hex(LATEST)), "done");
    b.begin("a completion past the last time: finish leaves the clock, run_until goes there");
    b.all(&["add_edge 1", &format!("submit 1 0 0 {} 0 - 0 1 0", most + 1), "submit 2 0 0 0 2 - 0 0"]);
    b.expect("finish", &told(&[(2.0, "1 0 0 2")]));
    b.expect("now", &value(2.0));
    b.expect(&format!("run_until {most}"), "done");
    b.expect("now", &value(LATEST));
    b.say("dump");
    b.begin("an infinite delay");
    b.all(&["add_edge 0000000000000001", "submit 1 0 0 9007199254740992 0 - 0 1 0"]);
    b.expect("next_completion_delay", &after(f64::INFINITY));
    b.expect("finish", "done");
    b.expect("run_until 5", "done");
    b.all(&LOOK);
}

/// Next-done is reached and nobody is listed: the steps go on from double to double.
fn a_delay_that_stays_0(b: &mut Book) {
    let (lines, next) = stalled();
    let second = hex(next.next_up());
    for (words, stuck) in [("finish", false), ("finish", true), ("run_until 5000", false), ("run_until 5000", true)] {
        b.begin(&format!("a delay that stays 0 after drains by polling: {words}, {} the stall", if stuck { "in" } else { "before" }));
        lines.iter().for_each(|line| drop(b.say(line)));
        if stuck {
            b.expect(&format!("advance {} 768", hex(next)), "list 0 tail-kept");
            b.expect("next_completion_delay", &after(0.0));
        }
        let listed = b.say(words);
        let time = listed.split(' ').nth(1).and_then(crate::script::read_double).expect("a step");
        assert!(listed.ends_with("list 1 0 0 1\ndone") && time > next.next_up(), "{listed}");
        b.all(&LOOK);
    }
    b.begin("the same up to times at which nobody is listed yet");
    lines.iter().for_each(|line| drop(b.say(line)));
    b.expect(&format!("run_until {}", hex(next)), "done");
    b.expect("next_completion_delay", &after(0.0));
    b.expect(&format!("run_until {}", hex(next)), "done");
    b.expect(&format!("run_until {second}"), "done");
    b.say("dump");
    assert!(b.say("finish").ends_with("list 1 0 0 1\ndone"));
    b.all(&LOOK);
}

fn all_at_once(b: &mut Book) {
    b.begin("256 done in one step");
    (0..256).for_each(|id| b.expect(&format!("submit {} {} 0 0 {} - 0 0", 900 - id, id % 3, id / 128), "done"));
    let told = b.say("finish");
    assert!(told.starts_with(&format!("at {} list 128 ", hex(0.0))) && told.contains(&format!("\nat {} list 128 ", hex(1.0))), "{told}");
    b.say("counts");
    b.begin("256 done in one list");
    (0..256).for_each(|id| b.expect(&format!("submit {id} {} 0 9 0 - 0 0", id % 3), "done"));
    assert!(b.say("run_until 1").starts_with(&format!("at {} list 256 ", hex(0.0))));
    b.all(&["now", "counts"]);
}

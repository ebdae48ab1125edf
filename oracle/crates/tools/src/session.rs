//! The thin layer between a script and a copy of flows.rs: what the port adds and the Rust lacks.
//!
//! Refusals stand call by call as a list of (number, when), in document 01's numbers and in the order of asking; the first
//! that holds is the answer. Everything that is computed comes from the copy.

use crate::script::{hex, kind, lines, read_line, worker, write_path, Call, Line};
use copies::{Bottleneck, Party, Simulator, Submission};
use std::io::{BufRead, Write};

/// The bounds of document 01.
const MOST_EDGES: usize = 64;
const LONGEST_PATH: usize = 8;
const MOST_ENTRIES: usize = 256;
const MOST_BYTES: u64 = 1 << 53;
const LATEST: f64 = (1u64 << 40) as f64;
/// What each place of a lent buffer holds before a call.
const UNTOUCHED: u32 = 0xA5A5_A5A5;

/// Makes a fresh simulator.
pub type Maker = fn() -> Box<dyn Simulator>;

pub struct Session {
    pub sim: Box<dyn Simulator>,
    completed: [u64; 3],
    cancelled: [u64; 3],
    /// Leaves slots, rounds and who froze whom out, and the last drain where nobody is in flight, for a copy that has none.
    common: bool,
    /// More steps in one `run_until` or `finish` are a panic: a faulty copy may step on for ever.
    pub most_steps: usize,
}

impl Session {
    pub fn new(make: Maker, common: bool) -> Session {
        Session { sim: make(), completed: [0; 3], cancelled: [0; 3], common, most_steps: usize::MAX }
    }

    /// The same session once more, to try a call on.
    pub fn copy(&self) -> Session {
        Session { sim: self.sim.copy(), ..*self }
    }

    pub fn answer_line(&mut self, line: &Line) -> Option<String> {
        match line {
            Line::Blank => None,
            Line::Malformed => Some("malformed".to_string()),
            Line::Call(call) => Some(self.answer(call)),
        }
    }

    pub fn answer(&mut self, call: &Call) -> String {
        if let Some(number) = self.refusal(call) {
            return format!("refused {number}");
        }
        self.accepted(call)
    }

    /// The refusal that holds before any work is done; 8 needs the list and is found with it, and the copy itself tells whether it takes a floor.
    pub fn refusal(&self, call: &Call) -> Option<u32> {
        let sim = &self.sim;
        let absent = |edge: &u32| *edge as usize >= sim.edges();
        let causes: Vec<(u32, bool)> = match call {
            Call::AddEdge { capacity } => vec![(1, !not_below_zero(*capacity)), (7, sim.edges() >= MOST_EDGES)],
            Call::Widen { edge, amount } => vec![
                (1, !amount.is_finite()),
                (3, absent(edge)),
                // The sum is judged last: only an edge that is there has one.
                (1, !absent(edge) && !not_below_zero(sim.edge(*edge as usize).capacity + amount)),
            ],
            Call::Submit { id, owner, bytes, latency, cap, time, path } => vec![
                (1, !latency.is_finite() || !cap_in_order(*cap) || !is_clock_time(*time)),
                (2, *time < sim.now()),
                (3, path.iter().any(absent)),
                (4, path.len() > LONGEST_PATH),
                (5, *bytes > MOST_BYTES),
                (6, sim.contains(*id)),
                (7, sim.in_flight() + sim.uncollected() >= MOST_ENTRIES),
                (9, sim.submitted()[kind(*owner)] == u64::MAX),
            ],
            Call::Advance { time, .. } | Call::RunUntil { time } => vec![(1, !is_clock_time(*time)), (2, *time < sim.now())],
            Call::EstimateNew { bytes, latency, cap, path } => vec![
                (1, !not_below_zero(*bytes) || !latency.is_finite() || !cap_in_order(*cap)),
                (3, path.iter().any(absent)),
                (4, path.len() > LONGEST_PATH),
            ],
            Call::MeanInFlight { edge, until } => vec![(1, !until.is_finite()), (3, absent(edge))],
            Call::Edge { edge } => vec![(3, absent(edge))],
            _ => vec![],
        };
        causes.into_iter().find(|(_, holds)| *holds).map(|(number, _)| number)
    }

    fn accepted(&mut self, call: &Call) -> String {
        match call {
            Call::New { floor } => self.begin(*floor),
            Call::AddEdge { capacity } => format!("edge {}", self.sim.add_edge(plus_zero(*capacity))),
            Call::Widen { edge, amount } => {
                self.sim.widen(*edge as usize, plus_zero(*amount));
                "done".to_string()
            }
            Call::Submit { id, owner, bytes, latency, cap, time, path } => {
                self.sim.submit(&Submission {
                    id: *id,
                    owner: *owner,
                    bytes: *bytes,
                    latency: plus_zero(*latency),
                    cap: cap.map(plus_zero),
                    time: plus_zero(*time),
                    path: &numbers(path),
                });
                "done".to_string()
            }
            Call::Advance { time, places } => self.advance(plus_zero(*time), *places),
            Call::RunUntil { time } => self.run_until(plus_zero(*time)),
            Call::Finish => self.finish(),
            Call::Cancel { id } => self.cancel(*id),
            Call::TakeCompleted { owner, places } => self.take_completed(*owner, *places),
            Call::OwnersWithCompletions { places } => {
                let owners = self.sim.owners_with_completions();
                let entries: Vec<[u32; 2]> = owners.iter().map(|o| [kind(*o) as u32, worker(*o)]).collect();
                write_list(&entries, *places).unwrap_or_else(too_short)
            }
            Call::NextCompletionDelay => match self.sim.next_completion_delay() {
                Some(delay) => format!("after {}", hex(delay)),
                None => "never".to_string(),
            },
            Call::EstimateNew { bytes, latency, cap, path } => {
                let cap = cap.map(plus_zero);
                value(self.sim.estimate_new(&numbers(path), plus_zero(*bytes), plus_zero(*latency), cap))
            }
            Call::Settle => {
                self.sim.settle();
                "done".to_string()
            }
            Call::Remaining { id } => self.remaining(*id),
            Call::MeanInFlight { edge, until } => value(self.sim.mean_in_flight(*edge as usize, plus_zero(*until))),
            Call::Rate { id } => self.sim.rate(*id).map_or("unknown".to_string(), value),
            Call::Bottleneck { id } => self.sim.bottleneck(*id).map_or("unknown".to_string(), |by| self.frozen_by(by)),
            Call::Rounds => format!("number {}", self.rounds()),
            Call::Contains { id } => (if self.sim.contains(*id) { "yes" } else { "no" }).to_string(),
            Call::Now => value(self.sim.now()),
            Call::Edge { edge } => format!("edge {}", self.edge(*edge as usize)),
            Call::Counts => self.counts(),
            Call::Dump => self.dump(),
        }
    }

    /// A fresh simulator. The Rust as given can't follow to another floor than its own: `-` says so.
    fn begin(&mut self, floor: Option<f64>) -> String {
        if !self.sim.begin(floor) {
            return "refused 1".to_string();
        }
        (self.completed, self.cancelled) = ([0; 3], [0; 3]);
        let followed = floor.is_none_or(|floor| floor == self.sim.floor());
        (if followed { "done" } else { "-" }).to_string()
    }

    /// Done on a copy where the buffer might be short, so that a refusal leaves no trace.
    fn advance(&mut self, time: f64, places: usize) -> String {
        let before = (places < 3 * self.sim.in_flight()).then(|| self.sim.copy());
        let entries = self.who_is_done(time);
        match (write_list(&entries, places), before) {
            (Some(text), _) => {
                self.tally_completed(&entries);
                text
            }
            (None, before) => {
                self.sim = before.expect("a short buffer was foreseen");
                too_short()
            }
        }
    }

    /// Advances and lists kind, worker and id of each.
    fn who_is_done(&mut self, time: f64) -> Vec<[u32; 3]> {
        self.sim.advance(time).iter().map(|(owner, id)| [kind(*owner) as u32, worker(*owner), *id]).collect()
    }

    fn tally_completed(&mut self, entries: &[[u32; 3]]) {
        entries.iter().for_each(|[kind, ..]| self.completed[*kind as usize] += 1);
    }

    /// From completion to completion up to `time`, until nobody is listed there.
    fn run_until(&mut self, time: f64) -> String {
        let mut steps = Steps::default();
        loop {
            let ahead = self.sim.next_completion_delay().map_or(time, |delay| steps.ahead(self.sim.now(), delay));
            let to = if ahead < time { ahead } else { time };
            if !self.step(to, &mut steps) && to == time {
                return steps.told();
            }
        }
    }

    /// From completion to completion until nobody is ever done, or not while the clock can tell.
    fn finish(&mut self) -> String {
        let mut steps = Steps::default();
        while let Some(delay) = self.sim.next_completion_delay() {
            let to = steps.ahead(self.sim.now(), delay);
            if to > LATEST {
                break;
            }
            self.step(to, &mut steps);
        }
        steps.told()
    }

    /// One advance with a buffer that is always long enough; whether it lists somebody.
    fn step(&mut self, to: f64, steps: &mut Steps) -> bool {
        steps.count += 1;
        assert!(steps.count <= self.most_steps, "no end of steps");
        let entries = self.who_is_done(to);
        self.tally_completed(&entries);
        steps.stuck = entries.is_empty();
        if !steps.stuck {
            let words: Vec<String> = entries.concat().iter().map(u32::to_string).collect();
            steps.lines.push(format!("at {} list {} {}", hex(to), entries.len(), words.join(" ")));
        }
        !steps.stuck
    }

    fn cancel(&mut self, id: u32) -> String {
        let Some(owner) = self.sim.owner(id) else { return "unknown".to_string() };
        self.sim.cancel(id);
        self.cancelled[kind(owner)] += 1;
        "done".to_string()
    }

    /// The time by the state as it stands, and whether that state is the clock's.
    fn remaining(&self, id: u32) -> String {
        let left = self.sim.time_left(id);
        let told = match left {
            None => "unknown".to_string(),
            Some(None) => "cannot_finish".to_string(),
            Some(Some(time)) => value(time),
        };
        let flag = self.flag();
        if flag == "current" {
            // The Rust's own question has nothing to drain or to fill then; it says 0 of an unknown id and of a transfer that can't finish.
            let own = self.sim.copy().estimate_remaining(id);
            assert!(own == left.flatten().unwrap_or(0.0), "the Rust says {} where {told} is told", hex(own));
        }
        format!("{told} {flag}")
    }

    fn flag(&self) -> &'static str {
        match self.last_drain() {
            None => "-",
            Some(drained) if drained < self.sim.now() || self.sim.stale() => "behind",
            Some(_) => "current",
        }
    }

    /// In the common form none where nobody is in flight: there the Rust as given can't tell.
    fn last_drain(&self) -> Option<f64> {
        self.sim.last_drain().filter(|_| !self.common || self.sim.in_flight() > 0)
    }

    fn take_completed(&mut self, owner: Party, places: usize) -> String {
        let waiting = self.sim.queued().iter().filter(|(o, _)| *o == owner).count();
        if waiting == 0 {
            return "nothing".to_string();
        }
        if places < waiting {
            return too_short();
        }
        let entries: Vec<[u32; 1]> = self.sim.take_completed(owner).into_iter().map(|id| [id]).collect();
        write_list(&entries, places).unwrap_or_else(too_short)
    }

    fn rounds(&self) -> String {
        match self.sim.rounds() {
            Some(rounds) if !self.common => rounds.to_string(),
            _ => "-".to_string(),
        }
    }

    /// Who froze a transfer; `-` in the common form, for the Rust as given can't tell.
    fn frozen_by(&self, by: Option<Bottleneck>) -> String {
        match by.filter(|_| !self.common) {
            None => "-".to_string(),
            Some(Bottleneck::Outside) => "none".to_string(),
            Some(Bottleneck::Cap) => "cap".to_string(),
            Some(Bottleneck::Edge(edge)) => format!("edge {edge}"),
        }
    }

    fn edge(&self, edge: usize) -> String {
        let e = self.sim.edge(edge);
        format!("{} {} {}", hex(e.capacity), hex(e.bytes_moved), hex(e.load_integral))
    }

    /// What `counts` and `dump` say of a kind.
    fn tally(&self, kind: usize) -> String {
        let (submitted, bytes) = (self.sim.submitted()[kind], self.sim.bytes_submitted()[kind]);
        format!("{submitted} {} {} {}", self.completed[kind], self.cancelled[kind], hex(bytes))
    }

    fn counts(&self) -> String {
        let sim = &self.sim;
        let tables = format!("{} {} {} {}", sim.edges(), sim.in_flight(), sim.uncollected(), sim.peak());
        format!("counts {tables} {} {} {}", self.tally(0), self.tally(1), self.tally(2))
    }

    fn dump(&self) -> String {
        let sim = &self.sim;
        let next = sim.next_done().map_or("-".to_string(), hex);
        let drained = self.last_drain().map_or("-".to_string(), hex);
        let mut lines = vec![format!(
            "dump clock {} stale {} next {next} rounds {} edges {} flight {} queued {} peak {} floor {} drained {drained}",
            hex(sim.now()),
            u8::from(sim.stale()),
            self.rounds(),
            sim.edges(),
            sim.in_flight(),
            sim.uncollected(),
            sim.peak(),
            hex(sim.floor())
        )];
        lines.extend((0..3).map(|kind| format!("kind {kind} {}", self.tally(kind))));
        lines.extend((0..sim.edges()).map(|e| format!("edge {e} {}", self.edge(e))));
        lines.extend(self.slot_lines());
        for (owner, id) in sim.queued() {
            lines.push(format!("queued {} {} {id}", kind(owner), worker(owner)));
        }
        lines.push("end".to_string());
        lines.join("\n")
    }

    /// By slot; in the common form by id, with `-` for the slot.
    fn slot_lines(&self) -> Vec<String> {
        let mut transfers = self.sim.transfers();
        if self.common {
            transfers.sort_by_key(|t| t.id);
        }
        let line = |t: &copies::TransferView| {
            let slot = t.slot.filter(|_| !self.common).map_or("-".to_string(), |s| s.to_string());
            format!(
                "slot {slot} {} {} {} {} {} {} {} {} {} by {}",
                t.id,
                kind(t.owner),
                worker(t.owner),
                hex(t.latency),
                hex(t.bytes),
                t.cap.map_or("-".to_string(), hex),
                hex(t.rate),
                hex(t.last),
                write_path(&t.path),
                self.frozen_by(t.by)
            )
        };
        transfers.iter().map(line).collect()
    }
}

/// What `run_until` and `finish` have listed, and whether their last step listed nobody.
#[derive(Default)]
struct Steps {
    count: usize,
    lines: Vec<String>,
    stuck: bool,
}

impl Steps {
    /// Where the clock goes for a delay: to the next double at least, where it stood still for nothing.
    fn ahead(&self, now: f64, delay: f64) -> f64 {
        let to = now + delay;
        if self.stuck && to <= now { now.next_up() } else { to }
    }

    fn told(mut self) -> String {
        self.lines.push("done".to_string());
        self.lines.join("\n")
    }
}

/// Answers every line of a script.
pub fn run(session: &mut Session, script: impl BufRead, mut out: impl Write) -> std::io::Result<()> {
    for line in lines(script) {
        if let Some(answer) = session.answer_line(&read_line(&line?)) {
            writeln!(out, "{answer}")?;
        }
    }
    out.flush()
}

/// Finite and at least zero; both zeros pass.
fn not_below_zero(value: f64) -> bool {
    value.is_finite() && value >= 0.0
}

fn cap_in_order(cap: Option<f64>) -> bool {
    cap.is_none_or(not_below_zero)
}

fn is_clock_time(time: f64) -> bool {
    not_below_zero(time) && time <= LATEST
}

/// Negative zero is read as zero.
pub fn plus_zero(value: f64) -> f64 {
    if value == 0.0 { 0.0 } else { value }
}

fn numbers(path: &[u32]) -> Vec<usize> {
    path.iter().map(|edge| *edge as usize).collect()
}

fn value(value: f64) -> String {
    format!("value {}", hex(value))
}

fn too_short() -> String {
    "refused 8".to_string()
}

/// Writes entries to the front of a lent buffer and reads them back from it; none where they do not fit.
fn write_list<const N: usize>(entries: &[[u32; N]], places: usize) -> Option<String> {
    let mut buffer = vec![UNTOUCHED; places];
    let words = entries.concat();
    buffer.get_mut(..words.len())?.copy_from_slice(&words);
    let (written, tail) = buffer.split_at(words.len());
    let mut text = format!("list {}", entries.len());
    for word in written {
        text += &format!(" {word}");
    }
    let kept = tail.iter().all(|place| *place == UNTOUCHED);
    Some(text + if kept { " tail-kept" } else { " tail-changed" })
}

#[cfg(test)]
mod tests {
    use super::*;
    use crate::tolerances::{COARSEST, F};

    /// The last answer of a script, from each copy.
    fn last(script: &[&str]) -> String {
        let answer = |make: Maker| {
            let mut session = Session::new(make, true);
            script.iter().fold(String::new(), |_, line| session.answer_line(&read_line(line)).expect("a call"))
        };
        assert_eq!(answer(copies::given), answer(copies::patched));
        answer(copies::patched)
    }

    const TWO: [&str; 3] = ["add_edge 10", "submit 1 0 0 100 0 - 0 1 0", "submit 2 1 0 40 0 - 0 1 0"];

    fn after_two(calls: &[&str]) -> String {
        last(&[&TWO, calls].concat())
    }

    #[test]
    fn steps_go_from_completion_to_completion() {
        let (eight, fourteen) = (hex(8.0), hex(14.0));
        assert_eq!(after_two(&["finish"]), format!("at {eight} list 1 1 0 2\nat {fourteen} list 1 0 0 1\ndone"));
        assert_eq!(after_two(&["run_until 7"]), "done");
        assert_eq!(after_two(&["run_until 8"]), format!("at {eight} list 1 1 0 2\ndone"));
        assert_eq!(after_two(&["run_until 9", "now"]), value(9.0));
        assert_eq!(after_two(&["finish", "now"]), value(14.0));
        assert_eq!(after_two(&["finish", "finish"]), "done");
        // Nothing is collected.
        assert_eq!(after_two(&["finish", "take_completed 1 0 256"]), "list 1 2 tail-kept");
    }

    #[test]
    fn steps_are_refused_as_an_advance_is() {
        for time in ["-1", "7ff8000000000000", "7ff0000000000000", "4270000000000001"] {
            assert_eq!(after_two(&["advance 3 768", &format!("run_until {time}")]), "refused 1", "{time}");
        }
        assert_eq!(after_two(&["advance 3 768", "run_until 2"]), "refused 2");
        assert_eq!(after_two(&["run_until 8000000000000000"]), "done");
    }

    /// The answers of patched to a script, in its own form.
    fn patched(script: &[&str]) -> Vec<String> {
        let mut session = Session::new(copies::patched, false);
        script.iter().map(|line| session.answer_line(&read_line(line)).expect("a call")).collect()
    }

    /// A transfer of 100 bytes at 10 a second, its rate filled, and then some calls; the answers to these.
    fn after_one(calls: &[&str]) -> Vec<String> {
        let one = ["add_edge 10", "submit 1 0 0 100 0 - 0 1 0", "next_completion_delay"];
        patched(&[&one, calls].concat()).split_off(one.len())
    }

    fn left(time: f64, flag: &str) -> String {
        format!("{} {flag}", value(time))
    }

    #[test]
    fn a_fresh_simulator_was_drained_at_0() {
        // Nothing is stale and nobody in flight, so the advance is quiet.
        let said = patched(&["remaining 1", "advance 3 768", "remaining 1", "settle", "remaining 1"]);
        assert_eq!(said, ["unknown current", "list 0 tail-kept", "unknown behind", "done", "unknown current"]);
        assert_eq!(patched(&["add_edge 1", "remaining 1"]), ["edge 0", "unknown behind"]);
    }

    #[test]
    fn a_quiet_advance_leaves_the_time_as_it_was() {
        let said = after_one(&["remaining 1", "advance 2 768", "remaining 1", "advance 4 768", "remaining 1", "remaining 2"]);
        assert_eq!([&said[0], &said[2], &said[4]], [&left(10.0, "current"), &left(10.0, "behind"), &left(10.0, "behind")]);
        assert_eq!(said[5], "unknown behind");
    }

    #[test]
    fn settling_takes_the_time_off() {
        let said = after_one(&["advance 2 768", "settle", "remaining 1", "remaining 2", "settle", "remaining 1"]);
        assert_eq!(said[1..], ["done".to_string(), left(8.0, "current"), "unknown current".to_string(), "done".to_string(), left(8.0, "current")]);
    }

    #[test]
    fn a_new_transfer_has_no_rate_before_a_filling() {
        let said = after_one(&["submit 2 0 0 100 0 - 2 1 0", "remaining 2", "remaining 1", "submit 3 0 0 0 7 - 2 1 0", "remaining 3", "rate 1", "remaining 2"]);
        assert_eq!(said[1], "cannot_finish behind");
        // The older one was drained by the submission, and has the rate of when it was alone.
        assert_eq!(said[2], left(8.0, "behind"));
        assert_eq!(said[4], left(7.0, "behind"));
        // The transfer without bytes holds no share, so 5 a second are left for each.
        assert_eq!(said[6], left(20.0, "current"));
    }

    #[test]
    fn a_question_leaves_the_state_as_it_was() {
        for calls in [&["advance 2 768"][..], &["submit 2 0 0 8 0 - 2 1 0"], &["settle"], &["cancel 1"], &["advance 10 768"]] {
            let said = after_one(&[calls, &["dump", "remaining 1", "remaining 2", "dump"]].concat());
            assert_eq!(said[1], said[4], "{calls:?}");
        }
    }

    #[test]
    fn a_watched_run_is_the_unwatched_one() {
        let start = ["add_edge 3", "submit 1 0 0 10 0.1 - 0 1 0", "submit 2 0 0 7 0 0.7 0.3 1 0", "next_completion_delay"];
        let plan = [&start[..], &["advance 1.1 768", "widen 0 0.1", "finish", "dump"]].concat();
        let watched: Vec<&str> = plan.iter().flat_map(|line| [*line, "remaining 1", "remaining 2"]).collect();
        let others: Vec<String> = patched(&watched).into_iter().step_by(3).collect();
        assert_eq!(others, patched(&plan));
    }

    #[test]
    fn the_common_form_tells_a_last_drain_where_somebody_is_in_flight() {
        let drained = |calls: &[&str]| after_two(calls).lines().next().and_then(|line| line.split(' ').next_back().map(str::to_string)).expect("a dump");
        assert_eq!(drained(&["next_completion_delay", "advance 3 768", "dump"]), hex(0.0));
        assert_eq!(drained(&["next_completion_delay", "advance 3 768", "settle", "dump"]), hex(3.0));
        assert_eq!(drained(&["finish", "dump"]), "-");
        assert_eq!(after_two(&["settle", "remaining 1"]), left(20.0, "current"));
        assert_eq!(after_two(&["settle", "advance 3 768", "remaining 9"]), "unknown behind");
        assert_eq!(after_two(&["finish", "remaining 1"]), "unknown -");
        assert_eq!(last(&["remaining 1"]), "unknown -");
    }

    /// The floor that a dump tells.
    fn floor_of(dump: &str) -> &str {
        dump.split(' ').skip_while(|word| *word != "floor").nth(1).expect("a floor")
    }

    #[test]
    fn a_floor_is_taken_from_one_end_to_the_other() {
        for floor in [F, F.next_up(), 1e-7, COARSEST.next_down(), COARSEST] {
            let said = patched(&[&format!("new {}", hex(floor)), "dump", "add_edge 1", "dump", "new", "dump"]);
            assert_eq!([&said[0], floor_of(&said[1]), floor_of(&said[3]), floor_of(&said[5])], ["done", &hex(floor), &hex(floor), &hex(F)]);
        }
        assert_eq!(patched(&["new 0.001", "new 0.000000000001"]), ["done", "done"]);
        for floor in [F.next_down(), COARSEST.next_up(), 0.0, -0.0, -F, -COARSEST, f64::from_bits(1), 1.0, f64::INFINITY, f64::NEG_INFINITY, f64::NAN] {
            let said = after_one(&["advance 10 768", "submit 2 1 0 9 0 - 11 1 0", "dump", &format!("new {}", hex(floor)), "dump"]);
            assert_eq!(said[3], "refused 1", "{floor}");
            assert_eq!(said[2], said[4], "{floor}");
        }
    }

    #[test]
    fn the_rust_as_given_has_its_own_floor_alone() {
        let mut session = Session::new(copies::given, true);
        let mut say = |line: &str| session.answer_line(&read_line(line)).expect("a call");
        assert_eq!([say("new 0.000000000001"), say("new"), say("new 0.002"), say("new 0.001")], ["done", "done", "refused 1", "-"]);
        assert_eq!(floor_of(&say("dump")), hex(F));
    }

    /// 10 bytes at 1,000 a second, and the floor a millisecond: drained half of that before the end it is done.
    #[test]
    fn eps_is_the_floor_where_that_is_larger() {
        let plan = |floor: &str, calls: &[&str]| {
            let start = [&format!("new {floor}"), "add_edge 1000", "submit 1 0 0 10 0 - 0 1 0"];
            patched(&[&start[..], calls].concat()).split_off(start.len())
        };
        let quiet = ["next_completion_delay", "advance 0.0095 768", "settle", "remaining 1", "advance 0.0095 768"];
        let nobody = "list 0 tail-kept".to_string();
        assert_eq!(plan("0.001", &quiet)[3..], [left(0.0, "current"), nobody.clone()]);
        assert_eq!(plan("0.0001", &quiet)[4], nobody);
        assert_ne!(plan("0.0001", &quiet)[3], left(0.0, "current"));
        assert_eq!(plan("0.001", &["advance 0.0095 768"]), ["list 1 0 0 1 tail-kept"]);
        assert_eq!(plan("0.0001", &["advance 0.0095 768"]), [nobody]);
    }

    #[test]
    fn who_froze_a_transfer_is_told_by_the_last_filling() {
        // Without bytes at the second filling the first takes no part, and has its rate still.
        let first = ["bottleneck 1", "submit 2 0 0 100 0 - 10 1 0", "bottleneck 1", "rate 1", "bottleneck 2", "bottleneck 3"];
        let rate = value(10.0);
        assert_eq!(after_one(&first), ["edge 0", "done", "none", &rate, "edge 0", "unknown"]);
        let capped = ["submit 2 0 0 100 0 5 0 1 0", "submit 3 0 0 100 0 4 0 1 0", "submit 4 0 0 100 0 4 0 0", "bottleneck 2", "bottleneck 3", "bottleneck 4"];
        assert_eq!(after_one(&capped)[3..], ["edge 0", "edge 0", "none"]);
        assert_eq!(after_one(&["submit 2 0 0 100 0 4 0 1 0", "bottleneck 2", "bottleneck 1"])[1..], ["cap", "edge 0"]);
    }

    #[test]
    fn a_dump_shows_who_froze_whom_and_fills_nothing() {
        let shown = |calls: &[&str]| -> Vec<String> {
            let dump = after_one(calls).pop().unwrap_or_default();
            dump.lines().filter_map(|line| line.strip_prefix("slot ")?.split_once(" by ")).map(|(_, by)| by.to_string()).collect()
        };
        assert_eq!(shown(&["dump"]), ["edge 0"]);
        assert_eq!(shown(&["submit 2 0 0 100 0 1 0 1 0", "dump"]), ["edge 0", "none"]);
        assert_eq!(shown(&["submit 2 0 0 100 0 1 0 1 0", "bottleneck 9", "dump"]), ["edge 0", "cap"]);
    }

    #[test]
    fn the_rust_as_given_cannot_tell_who_froze_a_transfer() {
        assert_eq!(after_two(&["bottleneck 1"]), "-");
        assert_eq!(after_two(&["bottleneck 3"]), "unknown");
        assert!(after_two(&["bottleneck 3", "dump"]).lines().filter(|line| line.starts_with("slot ")).all(|line| line.ends_with(" 1 0 by -")));
        assert!(after_two(&["bottleneck 3", "dump"]).contains(" stale 0 "));
    }

    #[test]
    fn nobody_is_done_where_the_clock_ends() {
        // Past 2^40 seconds, and never.
        for path in ["add_edge 0.00000000000001", "add_edge 0"] {
            let far = [path, "submit 1 0 0 1 0 - 0 1 0"];
            assert_eq!(last(&[&far[..], &["finish"]].concat()), "done");
            assert_eq!(last(&[&far[..], &["finish", "now"]].concat()), value(0.0));
            assert_eq!(last(&[&far[..], &["run_until 1099511627776"]].concat()), "done");
        }
    }
}

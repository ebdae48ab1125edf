//! Random scripts. A session over the patched copy runs along, so that most calls can be made acceptable.

mod aims;

use crate::exact::Judge;
use crate::random::Random;
use crate::script::{hex, read_line, Call};
use crate::session::Session;
use crate::tolerances::{COARSEST, F};
use copies::Party;

#[derive(Clone, Copy, PartialEq, Debug)]
pub enum Profile {
    /// Small whole numbers; every call lies in the exact domain.
    Whole,
    /// Any doubles: subnormal, huge, negative zero, NaN, infinities.
    Wild,
    /// Real plans: megabytes and milliseconds.
    Plans,
    /// Up to 256 transfers and beyond.
    Crowd,
    /// Half the calls wrong.
    Wrong,
    /// Equal caps, caps equal to shares, equal shares.
    Ties,
}

pub const PROFILES: [(&str, Profile); 6] = [
    ("whole", Profile::Whole),
    ("wild", Profile::Wild),
    ("plans", Profile::Plans),
    ("crowd", Profile::Crowd),
    ("wrong", Profile::Wrong),
    ("ties", Profile::Ties),
];

pub fn profile(name: &str) -> Option<Profile> {
    PROFILES.iter().find(|(n, _)| *n == name).map(|(_, profile)| *profile)
}

/// `count` lines, each sequence from a `new` to a `dump`, some with a `finish` behind it.
pub fn script(seed: u64, count: usize, profile: Profile) -> Vec<String> {
    let mut generator = Generator::new(seed, profile);
    while generator.lines.len() < count {
        let room = count - generator.lines.len();
        generator.sequence(room);
    }
    generator.lines
}

/// The calls in the order of the weights below.
#[derive(Clone, Copy, PartialEq)]
enum Kind {
    Submit,
    Advance,
    Cancel,
    Widen,
    AddEdge,
    Take,
    Owners,
    Delay,
    EstimateNew,
    Settle,
    Remaining,
    Mean,
    Rate,
    Bottleneck,
    Rounds,
    Contains,
    Now,
    Edge,
    Counts,
    Dump,
    RunUntil,
    Finish,
    New,
}

const KINDS: [Kind; 23] = [
    Kind::Submit,
    Kind::Advance,
    Kind::Cancel,
    Kind::Widen,
    Kind::AddEdge,
    Kind::Take,
    Kind::Owners,
    Kind::Delay,
    Kind::EstimateNew,
    Kind::Settle,
    Kind::Remaining,
    Kind::Mean,
    Kind::Rate,
    Kind::Bottleneck,
    Kind::Rounds,
    Kind::Contains,
    Kind::Now,
    Kind::Edge,
    Kind::Counts,
    Kind::Dump,
    Kind::RunUntil,
    Kind::Finish,
    Kind::New,
];

const USUAL: [usize; 23] = [44, 40, 10, 6, 4, 8, 5, 14, 10, 5, 9, 5, 11, 12, 7, 4, 3, 7, 5, 4, 8, 1, 3];
/// More submissions than completions.
const BUSY: [usize; 23] = [90, 30, 10, 6, 4, 8, 5, 12, 10, 5, 9, 5, 11, 14, 7, 4, 3, 7, 5, 4, 8, 2, 3];
/// Many submissions, few completions, and dumps seldom, for they are long; a crowd that is finished is none.
const CROWDED: [usize; 23] = [400, 60, 12, 4, 4, 10, 8, 16, 12, 6, 8, 5, 14, 24, 8, 8, 4, 8, 6, 2, 10, 0, 6];

/// Small numbers, and beside them numbers with many divisors: more of their shares come out whole.
const WHOLE_CAPACITIES: [&[f64]; 2] = [
    &[0.0, 1.0, 2.0, 3.0, 4.0, 5.0, 6.0, 8.0, 10.0, 12.0, 12.0, 24.0, 60.0],
    &[120.0, 420.0, 840.0, 840.0, 1680.0, 2520.0, 2520.0, 5040.0, 10080.0],
];
const WHOLE_CAPS: [&[f64]; 2] = [
    &[0.0, 1.0, 2.0, 2.0, 3.0, 4.0, 5.0, 6.0, 10.0, 12.0],
    &[0.0, 60.0, 70.0, 84.0, 105.0, 105.0, 120.0, 140.0, 168.0, 210.0, 280.0, 420.0, 840.0],
];
const WHOLE_BYTES: [&[u64]; 2] = [
    &[0, 1, 2, 4, 6, 8, 10, 12, 24, 60, 100, 120, 240],
    &[0, 840, 1680, 2520, 2520, 5040, 7560, 10080, 25200, 40320, 2520 << 10, 5040 << 20],
];
const WHOLE_LATENCIES: [f64; 9] = [0.0, 0.0, 0.0, 0.0, 1.0, 2.0, 5.0, 0.5, -1.0];
const WHOLE_STEPS: [f64; 8] = [0.25, 0.5, 1.0, 1.0, 2.0, 3.0, 5.0, 10.0];
const SPECIAL: [u64; 22] = [
    0x0000_0000_0000_0000, // the zeros
    0x8000_0000_0000_0000,
    0x0000_0000_0000_0001, // subnormal
    0x000f_ffff_ffff_ffff,
    0x0010_0000_0000_0000, // smallest normal
    0x7fef_ffff_ffff_ffff, // largest
    0xffef_ffff_ffff_ffff,
    0x7ff0_0000_0000_0000, // infinities
    0xfff0_0000_0000_0000,
    0x7ff8_0000_0000_0000, // NaN, quiet and signalling
    0xfff8_0000_0000_0000,
    0x7ff0_0000_0000_0001,
    0xfff4_0000_0000_0000,
    0x3ff0_0000_0000_0000, // 1, -1
    0xbff0_0000_0000_0000,
    0x3eb0_c6f7_a0b5_ed8d, // 1e-6
    0x3d71_9799_812d_ea11, // 1e-12
    0x4270_0000_0000_0000, // 2^40 and the next
    0x4270_0000_0000_0001,
    0x4330_0000_0000_0000, // 2^52, 2^53
    0x4340_0000_0000_0000,
    0x8000_0000_0000_0001,
];
/// Floors that are refused: next to both ends and far from them, the zeros, below zero, no numbers.
const REFUSED_FLOORS: [f64; 16] = [
    F.next_down(),
    COARSEST.next_up(),
    1e-13,
    0.002,
    1.0,
    f64::MAX,
    f64::from_bits(1),
    0.0,
    -0.0,
    -F,
    -1e-6,
    -COARSEST,
    f64::INFINITY,
    f64::NEG_INFINITY,
    f64::NAN,
    f64::from_bits(0xfff0_0000_0000_0001),
];
const LATEST: f64 = (1u64 << 40) as f64;
const AMPLE: usize = 768;

struct Generator {
    random: Random,
    profile: Profile,
    lines: Vec<String>,
    session: Session,
    judge: Judge,
    /// The number that a sequence of ties is built on.
    base: f64,
    /// Which of the two lists a sequence of whole numbers takes.
    list: usize,
}

impl Generator {
    fn new(seed: u64, profile: Profile) -> Generator {
        Generator {
            random: Random::new(seed),
            profile,
            lines: Vec::new(),
            session: Session::new(copies::patched, false),
            judge: Judge::default(),
            base: 1.0,
            list: 0,
        }
    }

    /// One sequence of at most `room` lines.
    fn sequence(&mut self, room: usize) {
        let (short, long) = match self.profile {
            Profile::Crowd => (400, 700),
            Profile::Plans => (40, 160),
            Profile::Whole => (20, 120),
            _ => (15, 80),
        };
        let length = self.random.between(short, long).min(room);
        let start = self.lines.len();
        self.base = self.random.magnitude(-3, 20);
        self.list = usize::from(self.random.chance(65));
        let beginning = self.beginning();
        self.emit(beginning);
        for _ in 0..self.random.between(0, 4) {
            let call = self.add_edge();
            self.offer(call);
        }
        while self.lines.len() - start < length.saturating_sub(1) {
            self.step();
        }
        if length > 1 {
            self.emit(Call::Dump.to_string());
        }
        if self.random.chance(if self.profile == Profile::Crowd { 100 } else { 30 }) && self.offer(Call::Finish) {
            self.emit(Call::Counts.to_string());
            if self.random.chance(30) {
                // A drain with nobody in flight.
                let time = self.time();
                self.offer(Call::Advance { time, places: AMPLE });
                self.offer(Call::Settle);
                self.offer(Call::Remaining { id: 0 });
            }
        }
        self.lines.truncate(start + room);
    }

    /// A fresh simulator, at times with a floor. Under `whole` that is the Rust's own, for behind another one nothing lies in the domain.
    fn beginning(&mut self) -> String {
        let floor = match (self.profile, self.random.below(10)) {
            (Profile::Whole, 1..) | (_, 4..) => return Call::New { floor: None }.to_string(),
            (Profile::Whole, _) => F,
            _ => self.floor(),
        };
        // By its bits, or in decimal where that reads back.
        if self.random.chance(50) { format!("new {}", hex(floor)) } else { Call::New { floor: Some(floor) }.to_string() }
    }

    /// A floor that is taken: an end, the double next to it, any other.
    fn floor(&mut self) -> f64 {
        match self.random.below(8) {
            0 => F,
            1 => F.next_up(),
            2 => COARSEST.next_down(),
            3 | 4 => COARSEST,
            _ => self.random.magnitude(-40, -10).clamp(F, COARSEST),
        }
    }

    /// One line more, or a few.
    fn step(&mut self) {
        if self.profile == Profile::Wrong && self.random.chance(76) {
            let line = self.wrong_line();
            return self.emit(line);
        }
        // So many steps of a hundred are some lines aimed at one place.
        let aimed = match self.profile {
            Profile::Whole => 6,
            Profile::Wrong => 20,
            _ => 15,
        };
        if self.random.chance(aimed) {
            return self.aim();
        }
        let weights = match self.profile {
            Profile::Crowd => CROWDED,
            Profile::Whole | Profile::Ties => BUSY,
            _ => USUAL,
        };
        for _ in 0..12 {
            let kind = KINDS[self.random.weighted(&weights)];
            let call = self.call(kind);
            if self.offer(call) {
                return;
            }
        }
        self.emit(Call::Now.to_string());
    }

    fn emit(&mut self, line: String) {
        let read = read_line(&line);
        self.session.answer_line(&read);
        if self.profile == Profile::Whole {
            self.judge.admits(&read);
        }
        self.lines.push(line);
    }

    /// Emits a call; under `whole` only if it and the filling it leads to stay exact.
    fn offer(&mut self, call: Call) -> bool {
        let line = call.to_string();
        if self.profile == Profile::Whole {
            let mut trial = self.judge.copy();
            let sound = trial.admits(&read_line(&line)) && trial.admits(&read_line("next_completion_delay"));
            if !sound {
                return false;
            }
        }
        self.emit(line);
        true
    }

    fn call(&mut self, kind: Kind) -> Call {
        match kind {
            Kind::Submit => self.submit(),
            Kind::Advance => Call::Advance { time: self.time(), places: self.places() },
            Kind::Cancel => Call::Cancel { id: self.known_id() },
            Kind::Widen => Call::Widen { edge: self.edge(), amount: self.amount() },
            Kind::AddEdge => self.add_edge(),
            Kind::Take => Call::TakeCompleted { owner: self.waiting_owner(), places: self.places() },
            Kind::Owners => Call::OwnersWithCompletions { places: self.places() },
            Kind::Delay => Call::NextCompletionDelay,
            Kind::EstimateNew => {
                let (bytes, latency) = (self.estimated_bytes(), self.latency());
                Call::EstimateNew { bytes, latency, cap: self.cap(), path: self.path() }
            }
            Kind::Settle => Call::Settle,
            Kind::Remaining => Call::Remaining { id: self.known_id() },
            Kind::Mean => Call::MeanInFlight { edge: self.edge(), until: self.until() },
            Kind::Rate => Call::Rate { id: self.known_id() },
            Kind::Bottleneck => Call::Bottleneck { id: self.known_id() },
            Kind::Rounds => Call::Rounds,
            Kind::Contains => Call::Contains { id: self.known_id() },
            Kind::Now => Call::Now,
            Kind::Edge => Call::Edge { edge: self.edge() },
            Kind::Counts => Call::Counts,
            Kind::Dump => Call::Dump,
            Kind::RunUntil => Call::RunUntil { time: self.time_ahead() },
            Kind::Finish => Call::Finish,
            // One that is taken ends a sequence.
            Kind::New => Call::New { floor: Some(*self.random.pick(&REFUSED_FLOORS)) },
        }
    }

    fn add_edge(&mut self) -> Call {
        Call::AddEdge { capacity: self.capacity() }
    }

    fn submit(&mut self) -> Call {
        let id = self.new_id();
        let time = if self.random.chance(70) { self.session.sim.now() } else { self.time() };
        let (owner, bytes, latency, cap) = (self.owner(), self.bytes(), self.latency(), self.cap());
        Call::Submit { id, owner, bytes, latency, cap, time, path: self.path() }
    }

    // ---- numbers ----

    /// Any double; the weights keep extremes frequent.
    fn wild(&mut self) -> f64 {
        match self.random.below(10) {
            0 => f64::from_bits(*self.random.pick(&SPECIAL)),
            1 => f64::from_bits(self.random.bits()),
            2 => f64::from_bits(self.random.bits() >> self.random.between(12, 50)),
            3 => self.random.magnitude(-1000, 1000),
            4 => self.random.below(100) as f64,
            _ => self.random.magnitude(-40, 40),
        }
    }

    /// As `wild`, but seldom what a call refuses.
    fn wild_positive(&mut self) -> f64 {
        let value = self.wild();
        if self.random.chance(10) {
            return value;
        }
        if value.is_finite() { value.abs() } else { 1.0 }
    }

    fn capacity(&mut self) -> f64 {
        match self.profile {
            Profile::Whole => *self.random.pick(WHOLE_CAPACITIES[self.list]),
            Profile::Wild => self.wild_positive(),
            Profile::Plans => self.random.pick(&[50.0, 125.0, 550.0, 1000.0, 2400.0, 5500.0, 0.0]) * 1e6,
            Profile::Crowd => self.random.magnitude(0, 20),
            Profile::Wrong => self.random.pick(&[0.0, 1.0, 10.0, 12.5, 1e9]) * 1.0,
            Profile::Ties => self.tied_capacity(),
        }
    }

    fn cap(&mut self) -> Option<f64> {
        let capped = if self.profile == Profile::Ties { 70 } else { 35 };
        if !self.random.chance(capped) {
            return None;
        }
        Some(match self.profile {
            Profile::Whole => *self.random.pick(WHOLE_CAPS[self.list]),
            Profile::Wild => self.wild_positive(),
            Profile::Plans => self.random.between(0, 40) as f64 * 12.5e6,
            Profile::Crowd => self.random.magnitude(-6, 16),
            Profile::Wrong => self.random.below(12) as f64,
            Profile::Ties => self.tied_cap(),
        })
    }

    /// A few times the base, or up to three steps above.
    fn tied_capacity(&mut self) -> f64 {
        let mut capacity = self.base * *self.random.pick(&[1.0, 2.0, 3.0, 3.0, 4.0, 6.0, 7.0, 12.0, 14.0, 15.0, 21.0]);
        if self.random.chance(40) {
            (0..self.random.between(1, 3)).for_each(|_| capacity = capacity.next_up());
        }
        capacity
    }

    /// The base, a share of some capacity, or its neighbour.
    fn tied_cap(&mut self) -> f64 {
        let edges = self.session.sim.edges();
        let cap = if edges == 0 || self.random.chance(40) {
            self.base * *self.random.pick(&[1.0, 1.0, 0.5, 2.0])
        } else {
            self.session.sim.edge(self.random.below(edges)).capacity / self.random.between(1, 7) as f64
        };
        match self.random.below(8) {
            0 => cap.next_up(),
            1 => cap.next_down().max(0.0),
            _ => cap,
        }
    }

    fn amount(&mut self) -> f64 {
        let edges = self.session.sim.edges();
        if edges > 0 && self.random.chance(15) {
            // Taken off a capacity: half of it, or all.
            let capacity = self.session.sim.edge(self.random.below(edges)).capacity;
            return -capacity / *self.random.pick(&[1.0, 2.0]);
        }
        match self.profile {
            Profile::Wild => self.wild(),
            Profile::Whole => *self.random.pick(&[0.0, 1.0, 2.0, 12.0, 60.0, 420.0, 840.0, -1.0]),
            _ => if self.random.chance(20) { 0.0 } else { self.capacity() },
        }
    }

    fn bytes(&mut self) -> u64 {
        match self.profile {
            Profile::Whole => *self.random.pick(WHOLE_BYTES[self.list]),
            Profile::Wild => match self.random.below(6) {
                0 => *self.random.pick(&[0, 1, 2, (1 << 53) - 1, 1 << 53, (1 << 53) + 1, u64::MAX]),
                _ => self.random.bits() >> self.random.between(11, 63),
            },
            Profile::Plans => self.random.between(0, 4000) as u64 * 1_000_000 + self.random.below(3) as u64 * 4097,
            Profile::Crowd => self.random.bits() >> self.random.between(30, 60),
            Profile::Wrong => self.random.below(500) as u64,
            Profile::Ties => *self.random.pick(&[0, 1, 7, 100, 1000, 1 << 20, 1 << 40]),
        }
    }

    fn estimated_bytes(&mut self) -> f64 {
        if self.profile == Profile::Wild { self.wild_positive() } else { self.bytes() as f64 }
    }

    fn latency(&mut self) -> f64 {
        match self.profile {
            Profile::Whole => *self.random.pick(&WHOLE_LATENCIES),
            Profile::Wild => if self.random.chance(60) { 0.0 } else { self.wild() },
            Profile::Plans => self.random.below(80) as f64 / 10_000.0,
            Profile::Crowd => if self.random.chance(50) { 0.0 } else { self.random.magnitude(-12, 4) },
            Profile::Wrong => *self.random.pick(&[0.0, 0.0, 0.5, 3.0, -2.0]),
            Profile::Ties => *self.random.pick(&[0.0, 0.0, 0.0, 1e-12, 0.125]),
        }
    }

    fn until(&mut self) -> f64 {
        match self.random.below(4) {
            0 => 0.0,
            1 => -1.0,
            2 if self.profile == Profile::Wild => self.wild(),
            _ => self.session.sim.now(),
        }
    }

    // ---- times ----

    /// A clock time that mostly lies ahead: the clock, next-done, its neighbours, before it, past it.
    fn time(&mut self) -> f64 {
        let clock = self.session.sim.now();
        let next = self.next_done().filter(|t| t.is_finite() && *t > clock);
        let time = match (self.random.below(20), next) {
            (0 | 1, _) => clock,
            (2..=9, Some(next)) => next,
            (10, Some(next)) => next.next_down(),
            (11, Some(next)) => next.next_up(),
            (12..=15, Some(next)) => clock + (next - clock) * self.fraction(),
            _ => clock + self.step_ahead(),
        };
        time.clamp(clock, LATEST.max(clock))
    }

    /// As `time`, or some steps further, past several completions.
    fn time_ahead(&mut self) -> f64 {
        let time = self.time();
        let further = self.random.below(4) as f64 * (time - self.session.sim.now());
        (time + further).min(LATEST)
    }

    /// When the next transfer will be done, asked of a copy: asking must not fill.
    fn next_done(&mut self) -> Option<f64> {
        let sim = &self.session.sim;
        if !sim.stale() {
            return sim.next_done();
        }
        let mut asked = sim.copy();
        asked.next_completion_delay();
        asked.next_done()
    }

    fn fraction(&mut self) -> f64 {
        match self.profile {
            Profile::Whole => *self.random.pick(&[0.25, 0.5, 0.75]),
            _ => self.random.mantissa() - 1.0,
        }
    }

    fn step_ahead(&mut self) -> f64 {
        match self.profile {
            Profile::Whole => *self.random.pick(&WHOLE_STEPS),
            Profile::Wild => {
                let step = self.wild_positive();
                // A leap to the end of time is kept rare: nothing is left to do there.
                if step < 1e6 || self.random.chance(5) { step } else { self.random.magnitude(-40, 12) }
            }
            Profile::Plans => match self.random.below(3) {
                0 => 1.0 / 60.0,
                1 => self.random.between(1, 50) as f64 / 1000.0,
                _ => self.random.between(1, 20) as f64 / 8.0,
            },
            _ => self.random.magnitude(-14, 4),
        }
    }

    // ---- ids, edges, buffers ----

    /// An id that is free, but for a few.
    fn new_id(&mut self) -> u32 {
        let pool = if self.profile == Profile::Crowd { 600 } else { 24 };
        for _ in 0..20 {
            let id = match self.random.below(12) {
                0 => *self.random.pick(&[u32::MAX, u32::MAX - 1, 1_000_000_000, 99, 100, 1000]),
                _ => self.random.below(pool) as u32,
            };
            if !self.session.sim.contains(id) || self.random.chance(2) {
                return id;
            }
        }
        self.random.bits() as u32
    }

    /// An id in flight, but for a few.
    fn known_id(&mut self) -> u32 {
        let ids = self.session.sim.ids();
        if ids.is_empty() || self.random.chance(8) {
            return self.random.below(40) as u32;
        }
        *self.random.pick(&ids)
    }

    fn owner(&mut self) -> Party {
        match self.random.below(10) {
            0..=1 => Party::Handoff,
            2..=3 => Party::Write,
            4 => Party::Worker(*self.random.pick(&[u32::MAX, 10, 9])),
            _ => Party::Worker(self.random.below(3) as u32),
        }
    }

    fn waiting_owner(&mut self) -> Party {
        let owners = self.session.sim.owners_with_completions();
        if owners.is_empty() || self.random.chance(20) { self.owner() } else { *self.random.pick(&owners) }
    }

    fn edge(&mut self) -> u32 {
        let edges = self.session.sim.edges();
        if edges == 0 || self.random.chance(3) { edges as u32 } else { self.random.below(edges) as u32 }
    }

    fn path(&mut self) -> Vec<u32> {
        let edges = self.session.sim.edges();
        if edges == 0 {
            return if self.random.chance(95) { vec![] } else { vec![0] };
        }
        let length = match self.random.below(20) {
            0 => 0,
            1..=9 => 1,
            10..=14 => 2,
            15..=17 => self.random.between(3, 4),
            18 => self.random.between(5, 8),
            _ => if self.profile == Profile::Whole { 3 } else { self.random.between(7, 9) },
        };
        if self.profile == Profile::Ties && self.random.chance(15) {
            // One edge many times: here the order of equal caps can show.
            return vec![self.random.below(edges) as u32; self.random.between(2, 8)];
        }
        let few = edges.min(6);
        let first = self.random.below(edges - few + 1);
        (0..length).map(|_| (first + self.random.below(few)) as u32).collect()
    }

    fn places(&mut self) -> usize {
        if self.random.chance(90) { AMPLE } else { self.random.below(14) }
    }

    // ---- wrong lines ----

    /// A line that is refused, unknown or malformed, or nearly so.
    fn wrong_line(&mut self) -> String {
        let kind = KINDS[self.random.weighted(&USUAL)];
        // A call without arguments can only be misspelt.
        let bare = matches!(kind, Kind::Delay | Kind::Settle | Kind::Rounds | Kind::Now | Kind::Counts | Kind::Dump | Kind::Finish);
        if bare || self.random.chance(5) {
            return self.malformed();
        }
        let mut call = self.call(kind);
        let causes = if self.random.chance(30) { 2 } else { 1 };
        for _ in 0..causes {
            self.spoil(&mut call);
        }
        call.to_string()
    }

    /// Turns one argument of a call bad.
    fn spoil(&mut self, call: &mut Call) {
        let (bad, bad_time) = (self.bad_double(), self.bad_time());
        let absent = (self.session.sim.edges() + self.random.below(3)) as u32;
        let flying = self.known_id();
        let pick = self.random.below(8);
        match call {
            Call::AddEdge { capacity } => *capacity = bad,
            Call::Widen { edge, amount } => match pick {
                0..=2 => *edge = absent,
                3..=5 => *amount = bad,
                6 => *amount = f64::MAX,
                _ => *amount = -1e18,
            },
            Call::Submit { id, bytes, latency, cap, time, path, .. } => match pick {
                0 => *latency = f64::from_bits(SPECIAL[7 + self.random.below(6)]),
                1 => *cap = Some(bad),
                2 | 3 => *time = bad_time,
                4 => path.push(absent),
                5 => path.resize(self.random.between(9, 12), 0),
                6 => *bytes = (1 << 53) + 1 + (self.random.bits() >> self.random.between(11, 63)),
                _ => *id = flying,
            },
            Call::Advance { time, places } => match pick {
                0..=4 => *time = bad_time,
                _ => *places = self.random.below(3),
            },
            Call::RunUntil { time } => *time = bad_time,
            Call::EstimateNew { bytes, latency, cap, path } => match pick {
                0 | 1 => *bytes = bad,
                2 => *latency = f64::from_bits(SPECIAL[7 + self.random.below(6)]),
                3 => *cap = Some(bad),
                4 | 5 => path.push(absent),
                _ => path.resize(self.random.between(9, 12), 0),
            },
            Call::MeanInFlight { edge, until } => match pick {
                0..=3 => *edge = absent,
                _ => *until = bad,
            },
            Call::Edge { edge } => *edge = absent,
            Call::Cancel { id } | Call::Rate { id } | Call::Bottleneck { id } | Call::Remaining { id } | Call::Contains { id } => *id = 777,
            Call::TakeCompleted { places, .. } | Call::OwnersWithCompletions { places } => *places = self.random.below(2),
            _ => {}
        }
    }

    fn bad_double(&mut self) -> f64 {
        match self.random.below(4) {
            0 => -1.0,
            1 => f64::from_bits(0x8000_0000_0000_0001),
            _ => f64::from_bits(SPECIAL[7 + self.random.below(6)]),
        }
    }

    fn bad_time(&mut self) -> f64 {
        match self.random.below(4) {
            0 => self.bad_double(),
            1 => LATEST.next_up(),
            2 => self.session.sim.now().next_down(),
            _ => self.session.sim.now() / 2.0,
        }
    }

    /// A line that can't be read: a word too many or too few, a strange word, a number out of range.
    fn malformed(&mut self) -> String {
        let kind = KINDS[self.random.weighted(&USUAL)];
        let text = self.call(kind).to_string();
        let mut words: Vec<&str> = text.split(' ').collect();
        let at = self.random.below(words.len());
        match self.random.below(6) {
            0 => words.push("7"),
            // Without its floor `new` is another call.
            1 if words.len() > 1 && kind != Kind::New => drop(words.pop()),
            2 => words[0] = "sumbit",
            3 => words[at] = "18446744073709551616",
            4 => words[at] = "x1",
            _ => words.insert(0, "?"),
        }
        words.join(" ")
    }
}

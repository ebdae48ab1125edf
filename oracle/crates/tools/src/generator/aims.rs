//! A few lines each, aimed at places that random numbers do not meet: bytes left, time left and latency left at their
//! tolerances, transfers that stall, questions that only read, who froze a transfer, the calls that drain before they change something, ties and clamps.

mod bottlenecks;

use super::*;
use crate::tolerances::{eps_over, neighbours, whole_over_double, B};

/// What is left before the last step to B: from here on B and its neighbours are met by exact steps.
const LITTLE: f64 = 1.0 / (1 << 19) as f64;
/// A rate at which anything takes longer than a double can tell.
const LEAST: f64 = f64::from_bits(1);

/// Emits lines for one place, or stops where one of them may not be.
type Aim = fn(&mut Generator) -> Option<()>;

impl Generator {
    /// Some lines at one place, or a single one where a call would leave the domain of `whole` or a table is full.
    pub(super) fn aim(&mut self) {
        let common: &[Aim] = match self.profile {
            // Of a drain before a change and of a number next to a tolerance, nothing lies in the exact domain.
            Profile::Whole => &[Self::at_stall, Self::at_watch, Self::at_drain_time, Self::at_latency_left],
            _ => &[Self::at_stall, Self::at_watch, Self::at_bytes_left, Self::at_drain_time, Self::at_latency_left, Self::at_early_end, Self::at_change],
        };
        let frozen: &[Aim] = &[Self::at_share, Self::at_equal_shares, Self::at_chain, Self::at_outside];
        let own: &[Aim] = match self.profile {
            Profile::Wild => &[Self::at_clamp],
            Profile::Ties => &[Self::at_equal_caps],
            Profile::Crowd => &[Self::at_many_caps],
            _ => &[],
        };
        // Whether somebody is done early is best asked where the floor is coarse.
        let early = self.session.sim.floor() >= 1e-6 && self.random.chance(30);
        let aim = if early { Self::at_early_end } else { *self.random.pick(&[common, frozen, own].concat()) };
        if aim(self).is_none() {
            self.emit(Call::Now.to_string());
        }
    }

    /// Some bytes run down to B or a neighbour of it, and a call that tells whether they count as none.
    fn at_bytes_left(&mut self) -> Option<()> {
        let clock = self.session.sim.now();
        // Steps of 2^-fine seconds: no shorter than eps, so that it is the bytes that decide, and whole steps from 0 to the clock.
        let finest = -1 - exponent(self.eps_at(2.0 * clock + 1.0));
        let fine = finest - self.random.below(8) as i32;
        let coarse = fine - 21 - self.random.below(4) as i32;
        let start = (clock * 2f64.powi(fine)).ceil() / 2f64.powi(fine);
        let (bytes, target) = (self.random.between(1, 2) as u64, *self.random.pick(&neighbours(B)));
        let first = (bytes as f64 - LITTLE) * 2f64.powi(coarse);
        let last = (LITTLE - target) * 2f64.powi(fine);
        let middle = start + 2f64.powi(-coarse);
        let end = middle + 2f64.powi(-fine);
        let edge = self.aimed_edge(first)?;
        let id = self.aimed_submit(bytes, 0.0, None, start, vec![edge])?;
        self.maybe(Call::NextCompletionDelay, 50)?;
        self.aimed(Call::Advance { time: middle, places: AMPLE })?;
        self.aimed(Call::Widen { edge, amount: last - first })?;
        self.maybe(Call::Bottleneck { id }, 30)?;
        match self.random.below(4) {
            0 => self.with_another(id, edge, end)?,
            1 => {
                self.aimed(Call::NextCompletionDelay)?;
                self.aimed(Call::Advance { time: end, places: AMPLE })?;
                self.aimed(Call::EstimateNew { bytes: 1.0, latency: 0.0, cap: None, path: vec![edge] })?;
            }
            _ => {}
        }
        if self.random.chance(30) {
            self.time_left(id)?;
        }
        self.aimed(Call::Advance { time: end, places: AMPLE })?;
        self.maybe(Call::Contains { id }, 30)
    }

    /// Another beside it shows who takes part in a filling and in an estimate.
    fn with_another(&mut self, id: u32, edge: u32, time: f64) -> Option<()> {
        let bytes = self.some_bytes();
        let other = self.aimed_submit(bytes, 0.0, None, time, vec![edge])?;
        self.maybe(Call::EstimateNew { bytes: 1.0, latency: 0.0, cap: None, path: vec![edge] }, 50)?;
        self.aimed(Call::Rate { id: other })?;
        self.aimed(Call::Bottleneck { id })?;
        self.maybe(Call::Rounds, 50)
    }

    /// A transfer that stalls or nearly so, and how long it takes: over a path or not, at no rate or the least, with no bytes or all; then plugged in, unplugged or gone.
    fn at_stall(&mut self) -> Option<()> {
        let clock = self.session.sim.now();
        let (capacity, cap) = *self.random.pick(&[(0.0, None), (8.0, None), (8.0, Some(0.0)), (LEAST, None), (LEAST, None)]);
        let bytes = *self.random.pick(&[0, 8, 8, 1 << 53]);
        let latency = *self.random.pick(&[0.0, 0.0, 2.0]);
        let edge = self.aimed_edge(capacity)?;
        let path = if self.random.chance(25) { vec![] } else { vec![edge] };
        let id = self.aimed_submit(bytes, latency, cap, clock, path.clone())?;
        self.time_left(id)?;
        self.maybe(Call::Bottleneck { id }, 50)?;
        let (bytes, latency) = (*self.random.pick(&[0.0, 8.0]), *self.random.pick(&[-1.0, 0.0, 2.0]));
        self.maybe(Call::EstimateNew { bytes, latency, cap, path }, 30)?;
        let change = match self.random.below(3) {
            0 => Call::Widen { edge, amount: 8.0 },
            1 => Call::Widen { edge, amount: -capacity },
            _ => Call::Cancel { id },
        };
        self.aimed(change)?;
        // Drained by the change, and at the rate from before.
        self.aimed(Call::Remaining { id })?;
        self.time_left(id)
    }

    /// Somebody watches: the time left is asked after a quiet advance or two, as it was at the last drain, and then settled.
    fn at_watch(&mut self) -> Option<()> {
        if self.random.chance(25) {
            return self.at_growing_eps();
        }
        let id = if self.random.chance(50) { self.alone()?.0 } else { self.known_id() };
        self.maybe(Call::Remaining { id }, 30)?;
        let question = if self.random.chance(50) { Call::NextCompletionDelay } else { Call::Rate { id } };
        self.aimed(question)?;
        for _ in 0..self.random.between(1, 2) {
            self.quiet_step()?;
            self.aimed(Call::Remaining { id })?;
        }
        self.aimed(Call::Settle)?;
        self.aimed(Call::Remaining { id })
    }

    /// What is left lies above eps at the last drain, and not at the clock. A quiet advance ends before anybody is done, and eps grows by its 2^50th part
    /// alone, so there are only the last steps before a completion: the next double where eps has left its floor, or from half an eps before a power of two,
    /// where every step is exact.
    fn at_growing_eps(&mut self) -> Option<()> {
        let clock = self.session.sim.now();
        let step = clock.next_up();
        let (id, drained, end) = if self.profile != Profile::Whole && self.eps_at(step) > self.eps_at(clock) {
            let target = self.eps_at(step);
            let (bytes, cap) = whole_over_double(target, self.random.between(1, 3000) as u64)?;
            let by_latency = self.random.chance(50);
            let (bytes, latency, cap) = if by_latency { (0, target, None) } else { (bytes, 0.0, Some(cap)) };
            (self.aimed_submit(bytes, latency, cap, clock, vec![])?, clock, step)
        } else {
            let leaves_floor = self.session.sim.floor() * 2f64.powi(50);
            let end = Some(2f64.powi(exponent(clock.max(leaves_floor)) + 1)).filter(|end| *end <= LATEST)?;
            let half = self.eps_at(end) / 2.0;
            (self.aimed_submit(0, end + half - clock, None, clock, vec![])?, end - half, end)
        };
        self.aimed(Call::NextCompletionDelay)?;
        self.aimed(Call::Advance { time: drained, places: AMPLE })?;
        self.aimed(Call::Settle)?;
        self.maybe(Call::Remaining { id }, 50)?;
        self.aimed(Call::Advance { time: end, places: AMPLE })?;
        self.aimed(Call::Remaining { id })?;
        // Drained, it is done, and next-done is as it was.
        self.maybe(Call::Settle, 60)?;
        self.maybe(Call::NextCompletionDelay, 60)
    }

    /// Bytes over rate are eps or a neighbour of it.
    fn at_drain_time(&mut self) -> Option<()> {
        let clock = self.round_clock()?;
        let target = *self.random.pick(&neighbours(self.eps_at(clock)));
        let (bytes, rate) = whole_over_double(target, self.random.between(1, 3000) as u64)?;
        let id = if self.random.chance(50) {
            self.aimed_submit(bytes, 0.0, Some(rate), clock, vec![])?
        } else {
            let edge = self.aimed_edge(rate)?;
            self.aimed_submit(bytes, 0.0, None, clock, vec![edge])?
        };
        self.question(id)?;
        self.aimed(Call::Advance { time: clock, places: AMPLE })?;
        self.maybe(Call::Contains { id }, 30)
    }

    /// The latency left is eps or a neighbour of it, as submitted or after a step of the clock.
    fn at_latency_left(&mut self) -> Option<()> {
        let clock = self.round_clock()?;
        let bytes = *self.random.pick(&[0, 0, 7]);
        // The least steps of the clock: a sum with one of them keeps all digits of eps.
        let step = (clock.next_up() - clock).max(2f64.powi(-41)) * *self.random.pick(&[1.0, 2.0]);
        let end = if self.random.chance(50) { clock } else { clock + step };
        let target = *self.random.pick(&neighbours(self.eps_at(end)));
        let id = self.aimed_submit(bytes, target + (end - clock), None, clock, vec![])?;
        if self.random.chance(30) {
            self.aimed_submit(1, 1.0, None, end, vec![])?;
        }
        if self.session.sim.edges() > 0 {
            // An estimate has no tolerance.
            let path = vec![self.random.below(self.session.sim.edges()) as u32];
            self.maybe(Call::EstimateNew { bytes: 1.0, latency: target, cap: None, path }, 30)?;
        }
        self.maybe(Call::Dump, 10)?;
        self.question(id)?;
        self.aimed(Call::Advance { time: end, places: AMPLE })?;
        self.maybe(Call::Contains { id }, 30)
    }

    /// The clock stops where somebody is done but for eps, or just before: drained there it is listed early or not, and quietly reached nobody is listed.
    fn at_early_end(&mut self) -> Option<()> {
        if self.random.chance(60) {
            self.alone()?;
        }
        self.aimed(Call::NextCompletionDelay)?;
        let (clock, next) = (self.session.sim.now(), self.session.sim.next_done().filter(|t| t.is_finite())?);
        let (_, id) = *self.session.sim.copy().advance(next).first()?;
        let path: Vec<u32> = self.session.sim.transfers().iter().find(|t| t.id == id)?.path.iter().map(|e| *e as u32).collect();
        let eps = self.eps_at(next);
        let early = match self.random.below(4) {
            0 => *self.random.pick(&neighbours(next - eps)),
            1 => next - eps * (1.0 + self.fraction()),
            _ => next - eps * self.fraction(),
        };
        let time = Some(early).filter(|t| *t > clock && *t < next && *t <= LATEST)?;
        match self.random.below(5) {
            0 | 1 => {
                self.aimed(Call::Advance { time, places: AMPLE })?;
                self.maybe(Call::Remaining { id }, 50)?;
                self.aimed(Call::Settle)?;
                self.aimed(Call::Remaining { id })?;
                self.maybe(Call::NextCompletionDelay, 50)?;
            }
            2 => {
                // Who is done and not listed takes part in a filling all the same.
                let bytes = self.some_bytes();
                let other = self.aimed_submit(bytes, 0.0, None, time, path.clone())?;
                self.maybe(Call::Remaining { id }, 50)?;
                self.aimed(Call::Rate { id: other })?;
            }
            3 => {
                self.aimed(Call::Advance { time, places: AMPLE })?;
                self.aimed(Call::Widen { edge: *path.first()?, amount: 0.0 })?;
                self.maybe(Call::NextCompletionDelay, 50)?;
            }
            _ => {
                self.aimed(Call::RunUntil { time })?;
                self.maybe(Call::Settle, 50)?;
                let further = if self.random.chance(50) { next } else { time };
                self.aimed(Call::RunUntil { time: further })?;
            }
        }
        let time = self.session.sim.now();
        self.aimed(Call::Advance { time, places: AMPLE })?;
        path.first().map_or(Some(()), |edge| self.maybe(Call::Edge { edge: *edge }, 50))
    }

    /// A quiet advance, then a call that has to drain before it changes anything, then one that shows the bytes.
    fn at_change(&mut self) -> Option<()> {
        let moving = |t: &copies::TransferView| t.rate > 0.0 && t.rate.is_finite() && t.bytes > 1.0 && t.latency == 0.0 && !t.path.is_empty();
        let mut found: Vec<(u32, u32)> = self.session.sim.transfers().iter().filter(|t| moving(t)).map(|t| (t.id, t.path[0] as u32)).collect();
        if found.is_empty() || self.random.chance(30) {
            found = vec![self.alone()?];
        }
        let (id, edge) = *self.random.pick(&found);
        self.aimed(Call::NextCompletionDelay)?;
        for _ in 0..self.random.between(1, 2) {
            self.quiet_step()?;
        }
        let change = match self.random.below(6) {
            0 => Call::AddEdge { capacity: self.capacity() },
            1 => Call::Cancel { id },
            2 | 3 => Call::Widen { edge, amount: 0.0 },
            _ => Call::Widen { edge, amount: self.amount() },
        };
        self.aimed(change)?;
        match self.random.below(5) {
            0 => self.aimed(Call::Dump),
            1 => self.aimed(Call::NextCompletionDelay),
            2 => self.aimed(Call::Bottleneck { id }),
            3 => {
                let time = self.time();
                self.aimed(Call::Advance { time, places: AMPLE })?;
                self.aimed(Call::Edge { edge })
            }
            _ => self.aimed(Call::Edge { edge }),
        }
    }

    /// Equal caps that use an edge up to the last bits, each crossing it many times: here the order of the ties shows.
    fn at_equal_caps(&mut self) -> Option<()> {
        let (transfers, crossings) = (self.random.between(2, 5), self.random.between(3, 8));
        let cap = self.random.mantissa();
        let mut capacity = cap * (transfers * crossings) as f64;
        (0..self.random.between(0, 3)).for_each(|_| capacity = capacity.next_up());
        let edge = self.aimed_edge(capacity)?;
        let clock = self.session.sim.now();
        for _ in 0..transfers {
            self.aimed_submit(1000, 0.0, Some(cap), clock, vec![edge; crossings])?;
        }
        self.aimed(Call::NextCompletionDelay)?;
        self.aimed(Call::Dump)
    }

    /// A crowd with three caps in no order, each cap using an edge up to the last bits: here the order of the ties shows for each.
    fn at_many_caps(&mut self) -> Option<()> {
        let caps = [self.random.mantissa(), self.random.mantissa(), self.random.mantissa()];
        let chosen: Vec<usize> = (0..self.random.between(20, 60)).map(|_| self.random.below(3)).collect();
        let mut edges = Vec::new();
        for (which, cap) in caps.iter().enumerate() {
            let mut capacity = cap * (7 * chosen.iter().filter(|c| **c == which).count()) as f64;
            (0..self.random.between(0, 3)).for_each(|_| capacity = capacity.next_up());
            edges.push(self.aimed_edge(capacity)?);
        }
        let clock = self.session.sim.now();
        for which in chosen {
            self.aimed_submit(1000, 0.0, Some(caps[which]), clock, vec![edges[which]; 7])?;
        }
        self.aimed(Call::NextCompletionDelay)?;
        self.aimed(Call::Dump)
    }

    /// Edges of a few units of the least subnormal: shares round up by half of themselves, and residuals clamp at 0.
    fn at_clamp(&mut self) -> Option<()> {
        let mut edges = Vec::new();
        for _ in 0..3 {
            let units = self.random.between(2, 9) as u64;
            edges.push(self.aimed_edge(f64::from_bits(units))?);
        }
        let clock = self.session.sim.now();
        let [low, middle, high] = edges[..] else { return None };
        for _ in 0..self.random.between(2, 4) {
            self.aimed_submit(5, 0.0, None, clock, vec![low, middle])?;
        }
        self.aimed_submit(5, 0.0, None, clock, vec![middle, high])?;
        self.aimed_submit(5, 0.0, None, clock, vec![high])?;
        self.aimed(Call::NextCompletionDelay)?;
        self.aimed(Call::Dump)
    }

    // ---- parts ----

    /// The seconds that count as none at a clock, with the floor of this sequence.
    fn eps_at(&self, clock: f64) -> f64 {
        eps_over(self.session.sim.floor(), clock)
    }

    /// Emits a call where it may be.
    fn aimed(&mut self, call: Call) -> Option<()> {
        self.offer(call).then_some(())
    }

    fn maybe(&mut self, call: Call, percent: usize) -> Option<()> {
        if self.random.chance(percent) { self.aimed(call) } else { Some(()) }
    }

    /// What drains, fills or only looks, or nothing.
    fn question(&mut self, id: u32) -> Option<()> {
        match self.random.below(5) {
            0 => self.time_left(id),
            1 => self.aimed(Call::NextCompletionDelay),
            2 => self.aimed(Call::Rate { id }),
            3 => self.aimed(Call::Bottleneck { id }),
            _ => Some(()),
        }
    }

    /// The time left, settled mostly, as it stands, or both.
    fn time_left(&mut self, id: u32) -> Option<()> {
        self.maybe(Call::Remaining { id }, 25)?;
        self.maybe(Call::Settle, 75)?;
        self.aimed(Call::Remaining { id })
    }

    /// The clock moves on to where nobody is done yet, if rates are up to date.
    fn quiet_step(&mut self) -> Option<()> {
        let clock = self.session.sim.now();
        let ahead = match self.session.sim.next_done() {
            Some(next) if next.is_finite() => (next - clock) * (0.125 + 0.75 * self.fraction()),
            _ => self.step_ahead(),
        };
        let time = Some(clock + ahead).filter(|t| *t > clock && *t <= LATEST)?;
        self.aimed(Call::Advance { time, places: AMPLE })
    }

    /// A new transfer over an edge of its own, and that edge.
    fn alone(&mut self) -> Option<(u32, u32)> {
        let clock = self.session.sim.now();
        let capacity = Some(self.capacity()).filter(|c| c.is_finite() && *c > 0.0).unwrap_or(8.0);
        let edge = self.aimed_edge(capacity)?;
        let bytes = self.some_bytes();
        Some((self.aimed_submit(bytes, 0.0, None, clock, vec![edge])?, edge))
    }

    /// A new edge, which nobody else crosses.
    fn aimed_edge(&mut self, capacity: f64) -> Option<u32> {
        let edge = self.session.sim.edges();
        self.aimed(Call::AddEdge { capacity })?;
        (self.session.sim.edges() > edge).then_some(edge as u32)
    }

    /// A new transfer's id.
    fn aimed_submit(&mut self, bytes: u64, latency: f64, cap: Option<f64>, time: f64, path: Vec<u32>) -> Option<u32> {
        let (id, owner) = (self.new_id(), self.owner());
        let before = self.session.sim.in_flight();
        self.aimed(Call::Submit { id, owner, bytes, latency, cap, time, path })?;
        (self.session.sim.in_flight() > before).then_some(id)
    }

    fn some_bytes(&mut self) -> u64 {
        self.bytes().clamp(100, 1 << 50)
    }

    /// The clock as it is; under `whole` moved to a power of two where eps has left its floor, so that eps is one too.
    fn round_clock(&mut self) -> Option<f64> {
        if self.profile == Profile::Whole {
            let next = exponent(self.session.sim.now().max(1024.0)) + 1;
            self.aimed(Call::Advance { time: 2f64.powi(next), places: AMPLE })?;
        }
        Some(self.session.sim.now())
    }
}

/// The power of two at or below a normal number.
fn exponent(value: f64) -> i32 {
    (value.to_bits() >> 52 & 0x7ff) as i32 - 1023
}

#[cfg(test)]
mod tests {
    use super::*;
    use crate::script::Line;
    use copies::TransferView;

    /// The profiles whose scripts of so many lines bring some transfer there, by the eps at the clock, while the floor is the Rust's own.
    fn met(lines: usize, place: fn(&TransferView, f64) -> bool) -> Vec<&'static str> {
        met_over(|floor| floor == F, lines, place)
    }

    /// The same while the floor is coarse: a microsecond or more.
    fn met_coarse(lines: usize, place: fn(&TransferView, f64) -> bool) -> Vec<&'static str> {
        met_over(|floor| floor >= 1e-6, lines, place)
    }

    fn met_over(floors: fn(f64) -> bool, lines: usize, place: fn(&TransferView, f64) -> bool) -> Vec<&'static str> {
        let meets = |profile: Profile| {
            let mut session = Session::new(copies::patched, false);
            script(3, lines, profile).iter().any(|line| {
                session.answer_line(&read_line(line));
                let eps = eps_over(session.sim.floor(), session.sim.now());
                floors(session.sim.floor()) && session.sim.transfers().iter().any(|t| place(t, eps))
            })
        };
        PROFILES.iter().filter(|(_, profile)| meets(*profile)).map(|(name, _)| *name).collect()
    }

    const ALL: [&str; 6] = ["whole", "wild", "plans", "crowd", "wrong", "ties"];

    #[test]
    fn bytes_left_are_met() {
        for place in [|t: &TransferView, _| t.bytes == B, |t: &TransferView, _| t.bytes == B.next_up()] {
            assert_eq!(met(6000, place), ALL[1..]);
        }
    }

    #[test]
    fn time_left_is_met() {
        assert_eq!(met(6000, |t, eps| t.rate > 0.0 && t.bytes / t.rate == eps), ALL);
        assert_eq!(met(6000, |t, eps| t.rate > 0.0 && t.bytes / t.rate == eps.next_up()), ALL[1..]);
    }

    #[test]
    fn latency_left_is_met() {
        assert_eq!(met(6000, |t, eps| t.latency == eps), ALL);
        assert_eq!(met(6000, |t, eps| t.latency == eps.next_up()), ALL[1..]);
    }

    #[test]
    fn coarse_floors_are_met() {
        assert_eq!(met_coarse(20_000, |t, eps| t.rate > 0.0 && t.bytes / t.rate == eps), ALL[1..]);
        assert_eq!(met_coarse(20_000, |t, eps| t.rate > 0.0 && t.bytes / t.rate == eps.next_up()), ALL[1..]);
        assert_eq!(met_coarse(20_000, |t, eps| t.latency == eps), ALL[1..]);
        assert_eq!(met_coarse(20_000, |t, eps| t.latency == eps.next_up()), ALL[1..]);
        // Done by the floor alone, with bytes that count and no latency left.
        assert_eq!(met_coarse(20_000, |t, eps| t.bytes > 1.0 && t.latency == 0.0 && t.bytes / t.rate < eps), ALL[1..]);
    }

    /// The floors of a profile's script of so many lines, taken and refused.
    fn floors(lines: usize, profile: Profile) -> (Vec<f64>, Vec<f64>) {
        let mut session = Session::new(copies::patched, false);
        let (mut taken, mut refused) = (Vec::new(), Vec::new());
        for line in script(3, lines, profile) {
            let read = read_line(&line);
            let answer = session.answer_line(&read);
            if let Line::Call(Call::New { floor: Some(floor) }) = read {
                if answer.as_deref() == Some("done") { taken.push(floor) } else { refused.push(floor) }
            }
        }
        (taken, refused)
    }

    #[test]
    fn floors_are_taken_and_refused_in_every_profile() {
        for (name, profile) in PROFILES {
            let (taken, refused) = floors(50_000, profile);
            for floor in REFUSED_FLOORS {
                assert!(refused.iter().any(|f| f.to_bits() == floor.to_bits()), "{floor} in {name}");
            }
            assert!(taken.contains(&F), "{name}");
            if profile == Profile::Whole {
                assert!(taken.iter().all(|floor| *floor == F));
                continue;
            }
            for floor in [F.next_up(), COARSEST.next_down(), COARSEST] {
                assert!(taken.contains(&floor), "{floor} in {name}");
            }
        }
    }

    /// As a plan with a coarse floor shows it: done by the question, and a delay all the same, since nothing has made next-done anew.
    #[test]
    fn done_and_not_listed_is_met() {
        assert_eq!(told(20_000, |said, session, _| {
            let sim = &session.sim;
            said == "value 0000000000000000 current" && sim.floor() >= 1e-6 && sim.next_done() > Some(sim.now())
        }), ALL[1..]);
    }

    /// The profiles whose scripts of so many lines get such an answer on a transfer's time.
    fn told(lines: usize, wanted: fn(&str, &Session, u32) -> bool) -> Vec<&'static str> {
        let tells = |profile: Profile| {
            let mut session = Session::new(copies::patched, false);
            script(3, lines, profile).iter().any(|line| {
                let read = read_line(line);
                let answer = session.answer_line(&read).unwrap_or_default();
                matches!(read, Line::Call(Call::Remaining { id }) if wanted(&answer, &session, id))
            })
        };
        PROFILES.iter().filter(|(_, profile)| tells(*profile)).map(|(name, _)| *name).collect()
    }

    #[test]
    fn every_answer_on_the_time_left_is_met() {
        assert_eq!(told(6000, |said, _, _| said == "unknown current"), ALL);
        assert_eq!(told(6000, |said, _, _| said == "unknown behind"), ALL);
        assert_eq!(told(6000, |said, _, _| said == "cannot_finish current"), ALL);
        assert_eq!(told(6000, |said, _, _| said == "cannot_finish behind"), ALL);
        assert_eq!(told(6000, |said, _, _| said == "value 0000000000000000 current"), ALL);
        assert_eq!(told(6000, |said, _, _| said == "value 0000000000000000 behind"), ALL);
        assert_eq!(told(6000, |said, _, _| said == "value 7ff0000000000000 current"), ALL[1..]);
        assert_eq!(told(6000, |said, _, _| said == "value 7ff0000000000000 behind"), ALL[1..]);
    }

    /// A time of two seconds or more, settled and as it was before a quiet advance.
    #[test]
    fn times_are_met_before_and_after_settling() {
        assert_eq!(told(6000, |said, _, _| said.starts_with("value 4") && said.ends_with("current")), ALL);
        assert_eq!(told(6000, |said, session, _| said.starts_with("value 4") && session.sim.last_drain() < Some(session.sim.now())), ALL);
    }

    #[test]
    fn eps_at_the_clock_makes_a_transfer_done_that_was_not_at_the_last_drain() {
        let grown = |said: &str, session: &Session, id: u32| {
            let found = session.sim.transfers().into_iter().find(|t| t.id == id);
            let above = |t: TransferView| t.latency > eps_over(F, t.last) || t.bytes > B && t.bytes / t.rate > eps_over(F, t.last);
            session.sim.floor() == F && said == "value 0000000000000000 behind" && found.is_some_and(above)
        };
        assert_eq!(told(6000, grown), ALL);
    }

    /// Of five or more with one cap some run at it, and the last a rounding below.
    #[test]
    fn many_ties_are_met() {
        let mut session = Session::new(copies::patched, false);
        assert!(script(3, 6000, Profile::Crowd).iter().any(|line| {
            session.answer_line(&read_line(line));
            let all = session.sim.transfers();
            let tied = |cap: f64| {
                let rates: Vec<f64> = all.iter().filter(|t| t.cap == Some(cap)).map(|t| t.rate).collect();
                rates.len() >= 5 && rates[0] == cap && rates.iter().any(|rate| *rate < cap && cap - rate < 1e-9)
            };
            all.iter().any(|t| t.cap.is_some_and(tied))
        }));
    }
}

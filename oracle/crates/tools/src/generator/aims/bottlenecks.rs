//! Lines aimed at who froze a transfer: caps next to the share, edges with equal shares, many rounds, and who takes no part.

use super::*;

/// How long before its end a transfer of a rate up to 2 has at most B bytes left, every step exact.
const SHORTLY: f64 = 1.0 / (1 << 21) as f64;

impl Generator {
    /// A few share an edge, one of them with a cap that is the share or next to it: frozen with the others, or before them.
    pub(super) fn at_share(&mut self) -> Option<()> {
        let (clock, count) = (self.session.sim.now(), self.random.between(1, 4));
        let capacity = self.some_capacity() * count as f64;
        let share = capacity / count as f64;
        let caps = if self.profile == Profile::Whole { [share / 2.0, share, 2.0 * share] } else { neighbours(share) };
        let edge = self.aimed_edge(capacity)?;
        let cap = *self.random.pick(&caps);
        let bytes = self.some_bytes();
        let mut ids = vec![self.aimed_submit(bytes, 0.0, Some(cap), clock, vec![edge])?];
        for _ in 1..count {
            ids.push(self.aimed_submit(bytes, 0.0, None, clock, vec![edge])?);
        }
        self.who_froze(&ids)
    }

    /// Two edges of one capacity, or of nearly one, on the same paths, in both orders and crossed more than once.
    pub(super) fn at_equal_shares(&mut self) -> Option<()> {
        let (clock, capacity) = (self.session.sim.now(), self.some_capacity());
        let others = if self.profile == Profile::Whole { [capacity, capacity, 2.0 * capacity] } else { neighbours(capacity) };
        let other = *self.random.pick(&others);
        let (low, high) = (self.aimed_edge(capacity)?, self.aimed_edge(other)?);
        let paths = [vec![low, high], vec![high, low], vec![high, high, low, low], vec![high]];
        let mut ids = Vec::new();
        for _ in 0..self.random.between(1, 3) {
            let (bytes, path) = (self.some_bytes(), self.random.pick(&paths).clone());
            ids.push(self.aimed_submit(bytes, 0.0, None, clock, path)?);
        }
        self.who_froze(&ids)
    }

    /// Edges in a row and transfers over two neighbours each: every round sets free what a later one shares. Then a change, and all is asked again.
    pub(super) fn at_chain(&mut self) -> Option<()> {
        let (clock, unit) = (self.session.sim.now(), self.some_capacity());
        let mut edges = Vec::new();
        for _ in 0..self.random.between(3, 5) {
            let times = *self.random.pick(&[1.0, 2.0, 3.0, 4.0, 6.0]);
            edges.push(self.aimed_edge(times * unit)?);
        }
        let mut ids = Vec::new();
        for pair in edges.windows(2) {
            let path = if self.random.chance(50) { pair.to_vec() } else { vec![pair[1], pair[0]] };
            let (bytes, cap) = (self.some_bytes(), self.random.chance(25).then_some(unit));
            ids.push(self.aimed_submit(bytes, 0.0, cap, clock, path)?);
        }
        self.who_froze(&ids)?;
        let (edge, id) = (*self.random.pick(&edges), *self.random.pick(&ids));
        let change = if self.random.chance(60) { Call::Widen { edge, amount: unit } } else { Call::Cancel { id } };
        self.aimed(change)?;
        self.who_froze(&ids)
    }

    /// Bytes run out, or have a path that is empty. Drained without a filling a transfer keeps who froze it, and at the next filling it has nobody, at its old rate.
    pub(super) fn at_outside(&mut self) -> Option<()> {
        let clock = self.session.sim.now();
        let rate = if self.profile == Profile::Whole { *self.random.pick(&[1.0, 2.0]) } else { self.random.magnitude(-3, 16) };
        let (bytes, cap) = (*self.random.pick(&[1, 8, 100]), *self.random.pick(&[None, Some(rate), Some(rate / 2.0), Some(0.0)]));
        if self.random.chance(25) {
            let id = self.aimed_submit(bytes, 0.0, cap, clock, vec![])?;
            return self.who_froze(&[id]);
        }
        let edge = self.aimed_edge(rate)?;
        let id = self.aimed_submit(bytes, 0.0, cap, clock, vec![edge])?;
        self.who_froze(&[id])?;
        let end = Some(clock + bytes as f64 / cap.unwrap_or(rate)).filter(|end| *end <= LATEST)?;
        if self.random.chance(50) {
            // A submission drains it, and then there is a filling.
            let bytes = self.some_bytes();
            self.aimed_submit(bytes, 0.0, None, end, vec![edge])?;
        } else {
            let before = if self.profile == Profile::Whole { end - SHORTLY } else { end.next_down() };
            self.aimed(Call::Advance { time: before.max(clock), places: AMPLE })?;
            self.aimed(Call::Settle)?;
            self.who_froze(&[id])?;
            self.aimed(Call::Widen { edge, amount: 0.0 })?;
        }
        self.who_froze(&[id])?;
        self.maybe(Call::Rate { id }, 50)
    }

    /// Who froze each of them; at times the whole state too, before they are asked and behind.
    fn who_froze(&mut self, ids: &[u32]) -> Option<()> {
        self.maybe(Call::Dump, 20)?;
        for id in ids {
            self.aimed(Call::Bottleneck { id: *id })?;
        }
        self.maybe(Call::Dump, 20)
    }

    fn some_capacity(&mut self) -> f64 {
        if self.profile == Profile::Whole { *self.random.pick(&[4.0, 12.0, 60.0]) } else { self.random.magnitude(-3, 20) }
    }
}

#[cfg(test)]
mod tests {
    use super::*;
    use crate::script::Line;
    use copies::{Bottleneck, TransferView};

    const ALL: [&str; 6] = ["whole", "wild", "plans", "crowd", "wrong", "ties"];

    /// The profiles whose scripts of so many lines ask for the bottleneck of such a transfer; rates are up to date by then.
    fn asked(lines: usize, place: fn(&TransferView, &Session) -> bool) -> Vec<&'static str> {
        let meets = |profile: Profile| {
            let mut session = Session::new(copies::patched, false);
            script(3, lines, profile).iter().any(|line| {
                let read = read_line(line);
                session.answer_line(&read);
                let Line::Call(Call::Bottleneck { id }) = read else { return false };
                session.sim.transfers().iter().any(|t| t.id == id && place(t, &session))
            })
        };
        PROFILES.iter().filter(|(_, profile)| meets(*profile)).map(|(name, _)| *name).collect()
    }

    fn is_edge(t: &TransferView) -> bool {
        matches!(t.by, Some(Bottleneck::Edge(_)))
    }

    #[test]
    fn every_answer_is_met() {
        assert_eq!(asked(10_000, |t, _| is_edge(t)), ALL);
        assert_eq!(asked(10_000, |t, _| t.by == Some(Bottleneck::Cap)), ALL);
        assert_eq!(asked(10_000, |t, _| t.by == Some(Bottleneck::Outside) && t.path.is_empty() && t.cap > Some(0.0)), ALL);
        assert_eq!(asked(10_000, |t, _| t.by == Some(Bottleneck::Outside) && t.path.is_empty() && t.cap.is_none()), ALL);
        assert_eq!(asked(10_000, |t, _| t.rate == 0.0 && t.by == Some(Bottleneck::Cap)), ALL);
        assert_eq!(asked(10_000, |t, _| t.rate == 0.0 && is_edge(t)), ALL);
    }

    #[test]
    fn outside_at_the_old_rate_is_met() {
        assert_eq!(asked(10_000, |t, _| t.rate > 0.0 && t.by == Some(Bottleneck::Outside) && !t.path.is_empty()), ALL);
    }

    #[test]
    fn without_bytes_and_frozen_by_an_edge_is_met() {
        assert_eq!(asked(10_000, |t, _| t.bytes <= B && is_edge(t)), ALL);
    }

    #[test]
    fn an_edge_at_exactly_the_cap_is_met() {
        assert_eq!(asked(10_000, |t, _| t.cap == Some(t.rate) && t.rate > 0.0 && is_edge(t)), ALL);
        assert_eq!(asked(10_000, |t, _| t.cap == Some(t.rate.next_up()) && is_edge(t)), ALL[1..]);
    }

    /// An edge of a higher number on the path has the same capacity and the same crossings.
    #[test]
    fn equal_shares_on_a_path_are_met() {
        let tied = |t: &TransferView, session: &Session| {
            let Some(Bottleneck::Edge(low)) = t.by else { return false };
            let all = session.sim.transfers();
            let seen = |edge: usize| (session.sim.edge(edge).capacity, all.iter().flat_map(|t| &t.path).filter(|e| **e == edge).count());
            t.path.iter().any(|edge| *edge > low && seen(*edge) == seen(low))
        };
        assert_eq!(asked(10_000, tied), ALL);
    }

    /// Exactly the cap, or an edge of the path that is used up but for its slack, with nobody on it faster by more than that.
    fn explained(t: &TransferView, session: &Session) -> bool {
        match t.by {
            Some(Bottleneck::Cap) => t.cap == Some(t.rate) && !t.path.is_empty(),
            Some(Bottleneck::Edge(edge)) => t.path.contains(&edge) && used_up(edge, t.rate, session),
            Some(Bottleneck::Outside) => true,
            None => false,
        }
    }

    /// By all who took part, each crossing counted. The sum here rounds, so it has twice the slack.
    fn used_up(edge: usize, rate: f64, session: &Session) -> bool {
        let all = session.sim.transfers();
        let taking_part = all.iter().filter(|t| t.by != Some(Bottleneck::Outside));
        let rates: Vec<f64> = taking_part.flat_map(|t| t.path.iter().filter(|e| **e == edge).map(|_| t.rate)).collect();
        let capacity = session.sim.edge(edge).capacity;
        let slack = (rates.len() + 1) as f64 * (capacity * f64::EPSILON + LEAST);
        rates.iter().sum::<f64>() >= capacity - 2.0 * slack && rates.iter().all(|other| *other <= rate + slack)
    }

    #[test]
    fn what_is_told_explains_the_rate() {
        assert_eq!(asked(20_000, |t, session| !explained(t, session)), [""; 0]);
    }
}

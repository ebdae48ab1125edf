//! Decides which calls lie in the domain on which the Rust as given is compared.
//!
//! A call lies in it while, since the last `new`,
//! 1. every + - * / that flows.rs did was exact, in slot order and in hash order, its running sums in every order
//!    (the checked copies note this, see copies::checked), and
//! 2. no accepted `cancel` of a known id, `widen` or `add_edge` came while some transfer was last drained before the clock,
//!    as quiet advances leave it.
//!
//! Such a `new` has the floor that the Rust has, left out or given; behind one with another floor nothing lies in the domain.
//! `run_until` and `finish` count as the calls that they are made of. Calls that are refused or can't be read change nothing and stay in. The first call outside takes the rest of its
//! sequence out with it.

use crate::script::{Call, Line};
use crate::session::Session;
use crate::tolerances::F;
use copies::checked::take_inexact;

pub struct Judge {
    given: Session,
    patched: Session,
    outside: bool,
}

impl Default for Judge {
    fn default() -> Self {
        Judge {
            given: Session::new(copies::checked_given, true),
            patched: Session::new(copies::checked_patched, true),
            outside: false,
        }
    }
}

impl Judge {
    /// The same judge once more, to try a call on.
    pub fn copy(&self) -> Judge {
        Judge { given: self.given.copy(), patched: self.patched.copy(), ..*self }
    }

    /// Does the call and says whether it lies in the domain.
    pub fn admits(&mut self, line: &Line) -> bool {
        match line {
            Line::Call(call @ Call::New { .. }) => self.begin(call),
            Line::Call(call) if !self.outside => self.outside = !self.does_within(call),
            _ => {}
        }
        !self.outside
    }

    /// A floor that is refused changes nothing.
    fn begin(&mut self, call: &Call) {
        if self.patched.answer(call) == "done" {
            self.given.answer(call);
            self.outside = self.patched.sim.floor() != F;
        }
    }

    fn does_within(&mut self, call: &Call) -> bool {
        if self.drains_only_when_patched(call) && self.is_behind() {
            return false;
        }
        take_inexact();
        self.patched.answer(call);
        self.given.answer(call);
        !take_inexact()
    }

    /// The three calls that drain to the clock in the patched copy alone.
    fn drains_only_when_patched(&self, call: &Call) -> bool {
        match call {
            Call::Cancel { id } => self.patched.sim.contains(*id),
            Call::Widen { .. } | Call::AddEdge { .. } => self.patched.refusal(call).is_none(),
            _ => false,
        }
    }

    /// Whether a drain to the clock would move anybody.
    fn is_behind(&self) -> bool {
        let sim = &self.patched.sim;
        sim.transfers().iter().any(|t| t.last < sim.now())
    }
}

#[cfg(test)]
mod tests {
    use super::*;
    use crate::script::read_line;

    fn admitted(script: &[&str]) -> Vec<bool> {
        let mut judge = Judge::default();
        script.iter().map(|line| judge.admits(&read_line(line))).collect()
    }

    #[test]
    fn a_drain_of_the_patched_copy_alone_leaves_the_domain() {
        let start = ["add_edge 10", "submit 1 0 0 100 0 - 0 1 0", "next_completion_delay", "advance 2 768"];
        let after = |calls: &[&str]| admitted(&[&start, calls].concat())[start.len()..].to_vec();
        assert_eq!(after(&["widen 0 1", "now"]), [false, false]);
        assert_eq!(after(&["cancel 2", "widen 7 1", "cancel 1"]), [true, true, false]);
        assert_eq!(after(&["remaining 1", "settle", "remaining 1", "add_edge 3"]), [true, true, true, true]);
        assert_eq!(after(&["advance 10 768", "advance 12 768", "add_edge 3"]), [true, true, true]);
    }

    #[test]
    fn another_floor_leaves_the_domain_until_the_next_new() {
        let start = ["add_edge 10", "submit 1 0 0 100 0 - 0 1 0"];
        let after = |calls: &[&str]| admitted(&[&start, calls].concat())[start.len()..].to_vec();
        assert_eq!(after(&["new 0.001", "now", "new 0.002", "new", "now"]), [false, false, false, true, true]);
        assert_eq!(after(&["new 0.001", "new 0.000000000001", "now"]), [false, true, true]);
        assert_eq!(after(&["new 3d719799812dea12", "new 3d719799812dea11", "now"]), [false, true, true]);
        // Refused, it leaves the transfer in flight, and thirds round.
        assert_eq!(after(&["new 7ff8000000000000", "new 0", "new x", "widen 0 -7", "finish", "now"]), [true, true, true, true, false, false]);
    }

    #[test]
    fn steps_count_as_the_calls_they_are_made_of() {
        let start = ["add_edge 10", "submit 1 0 0 100 0 - 0 1 0", "submit 2 0 0 40 0 - 0 1 0"];
        let after = |calls: &[&str]| admitted(&[&start, calls].concat())[start.len()..].to_vec();
        // Twice 5 a second until 8, then 10 until 14; the step to 9 is quiet.
        assert_eq!(after(&["run_until 9", "finish", "widen 0 1"]), [true, true, true]);
        assert_eq!(after(&["run_until 9", "widen 0 1", "now"]), [true, false, false]);
        assert_eq!(after(&["run_until -1", "widen 0 10", "finish"]), [true, true, true]);
        // Thirds round.
        assert_eq!(after(&["submit 3 0 0 40 0 - 0 1 0", "finish", "now"]), [true, false, false]);
    }
}

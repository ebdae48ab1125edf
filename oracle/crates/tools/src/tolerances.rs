//! What counts as done, and numbers that meet it to the bit.

/// So many bytes count as none.
pub const B: f64 = 1e-6;
/// So many seconds count as none at any clock, where no other floor is given.
pub const F: f64 = 1e-12;
/// The coarsest floor that is taken; the finest is F.
pub const COARSEST: f64 = 1e-3;

/// The seconds that count as none at a clock.
pub fn eps_at(clock: f64) -> f64 {
    eps_over(F, clock)
}

/// The same over some floor.
pub fn eps_over(floor: f64, clock: f64) -> f64 {
    (clock * 4.0 * f64::EPSILON).max(floor)
}

/// A number and the doubles just below and above it.
pub fn neighbours(v: f64) -> [f64; 3] {
    [v.next_down(), v, v.next_up()]
}

/// A whole number, `from` or a little above, and a double whose rounded quotient is the target.
pub fn whole_over_double(target: f64, from: u64) -> Option<(u64, f64)> {
    (from..from + 1000).find_map(|n| {
        let about = n as f64 / target;
        let found = [about, about.next_down(), about.next_up()].into_iter().find(|c| n as f64 / c == target);
        found.map(|c| (n, c))
    })
}

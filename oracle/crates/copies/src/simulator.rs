//! What a driver may do with a copy of flows.rs, and what it may read of its state.

/// Plain binary64; a name of its own because the checked copies give `f64` another meaning.
pub type Double = f64;

/// An owner, in the order in which owners are listed.
#[derive(Clone, Copy, Debug, PartialEq, Eq, PartialOrd, Ord)]
pub enum Party {
    Worker(u32),
    Handoff,
    Write,
}

/// One submission, its arguments already found to be in order.
pub struct Submission<'a> {
    pub id: u32,
    pub owner: Party,
    pub bytes: u64,
    pub latency: Double,
    pub cap: Option<Double>,
    pub time: Double,
    pub path: &'a [usize],
}

/// An edge as it stands.
pub struct EdgeView {
    pub capacity: Double,
    pub bytes_moved: Double,
    pub load_integral: Double,
}

/// Who froze a transfer at the last filling.
#[derive(Clone, Copy, Debug, PartialEq, Eq)]
pub enum Bottleneck {
    /// It took no part, or has no path.
    Outside,
    Cap,
    Edge(usize),
}

/// A transfer in flight as it stands; the copy in hash order has no slots.
pub struct TransferView {
    pub slot: Option<usize>,
    pub id: u32,
    pub owner: Party,
    pub latency: Double,
    pub bytes: Double,
    pub cap: Option<Double>,
    pub rate: Double,
    pub last: Double,
    pub path: Vec<usize>,
    /// Only the patched copies record it.
    pub by: Option<Bottleneck>,
}

pub trait Simulator {
    /// The same state once more.
    fn copy(&self) -> Box<dyn Simulator>;

    /// Puts a fresh simulator in its place, with a floor of eps where one is given: the Rust as given goes on with its own. A floor out of range changes nothing, and the answer is no.
    fn begin(&mut self, floor: Option<Double>) -> bool;
    fn add_edge(&mut self, capacity: Double) -> usize;
    fn widen(&mut self, edge: usize, amount: Double);
    fn submit(&mut self, submission: &Submission);
    fn advance(&mut self, time: Double) -> Vec<(Party, u32)>;
    fn cancel(&mut self, id: u32);
    /// The ids of an owner, ascending; none where nothing waits.
    fn take_completed(&mut self, owner: Party) -> Vec<u32>;
    fn owners_with_completions(&self) -> Vec<Party>;
    fn next_completion_delay(&mut self) -> Option<Double>;
    fn estimate_new(&self, path: &[usize], bytes: Double, latency: Double, cap: Option<Double>) -> Double;
    /// The Rust's own question, which drains and fills first; 0 of an unknown id and of one that can't finish.
    fn estimate_remaining(&mut self, id: u32) -> Double;
    /// Drains to the clock, and fills where rates are stale: the Rust's own question of a name that nobody has.
    fn settle(&mut self);
    /// How long a transfer takes by the state as it stands, with eps at the clock: none for an unknown id, and no time for one that can't finish.
    fn time_left(&self, id: u32) -> Option<Option<Double>>;
    /// Brings rates up to date and reads one.
    fn rate(&mut self, id: u32) -> Option<Double>;
    /// Brings rates up to date and tells who froze a transfer: none for an unknown id, and nobody where the copy has no record of it.
    fn bottleneck(&mut self, id: u32) -> Option<Option<Bottleneck>>;
    fn mean_in_flight(&self, edge: usize, until: Double) -> Double;

    fn now(&self) -> Double;
    fn stale(&self) -> bool;
    fn next_done(&self) -> Option<Double>;
    /// The seconds that count as none at any clock.
    fn floor(&self) -> Double;
    /// When everybody was last drained. The patched copies record it; as given it is read off whoever is in flight, and where nobody is there is none.
    fn last_drain(&self) -> Option<Double>;
    /// Rounds of the last filling; only the patched copies count them.
    fn rounds(&self) -> Option<u64>;
    fn edges(&self) -> usize;
    fn edge(&self, edge: usize) -> EdgeView;
    fn contains(&self, id: u32) -> bool;
    fn in_flight(&self) -> usize;
    fn peak(&self) -> usize;
    /// Submissions by kind: worker, hand-off, write.
    fn submitted(&self) -> [u64; 3];
    fn bytes_submitted(&self) -> [Double; 3];
    /// By slot where there are slots, else by id.
    fn transfers(&self) -> Vec<TransferView>;
    fn ids(&self) -> Vec<u32>;
    fn owner(&self, id: u32) -> Option<Party>;
    /// What waits uncollected: owners in order, then ids ascending.
    fn queued(&self) -> Vec<(Party, u32)>;
    fn uncollected(&self) -> usize;
}

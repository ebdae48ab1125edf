//! The session script: one call to a line, read and written.

use copies::Party;
use std::fmt;
use std::io::BufRead;

/// Longest buffer and path that a script may ask for.
pub const MOST_PLACES: usize = 1024;
pub const MOST_PATH: usize = 128;

/// A call as read. Doubles keep their bits; the session reads negative zero as zero.
#[derive(Clone, Debug)]
pub enum Call {
    New { floor: Option<f64> },
    AddEdge { capacity: f64 },
    Widen { edge: u32, amount: f64 },
    Submit { id: u32, owner: Party, bytes: u64, latency: f64, cap: Option<f64>, time: f64, path: Vec<u32> },
    Advance { time: f64, places: usize },
    RunUntil { time: f64 },
    Finish,
    Cancel { id: u32 },
    TakeCompleted { owner: Party, places: usize },
    OwnersWithCompletions { places: usize },
    NextCompletionDelay,
    EstimateNew { bytes: f64, latency: f64, cap: Option<f64>, path: Vec<u32> },
    Settle,
    Remaining { id: u32 },
    MeanInFlight { edge: u32, until: f64 },
    Rate { id: u32 },
    Bottleneck { id: u32 },
    Rounds,
    Contains { id: u32 },
    Now,
    Edge { edge: u32 },
    Counts,
    Dump,
}

/// A line of a script.
#[derive(Clone, Debug)]
pub enum Line {
    Blank,
    Call(Call),
    Malformed,
}

/// What a text file may begin with to say how it is written: a blank there, and nowhere else.
const BYTE_ORDER_MARK: char = '\u{feff}';

/// The lines of a script as text, without their ends.
pub fn lines(script: impl BufRead) -> impl Iterator<Item = std::io::Result<String>> {
    script.split(b'\n').enumerate().map(|(i, line)| {
        let line = String::from_utf8_lossy(&line?).into_owned();
        Ok(if i == 0 { without_mark(&line).to_string() } else { line })
    })
}

/// A script without the mark at its very start.
pub fn without_mark(script: &str) -> &str {
    script.strip_prefix(BYTE_ORDER_MARK).unwrap_or(script)
}

/// Several lines may be one answer: a `dump` up to its `end`, steps `at` some time up to their `done`. Says of a line what
/// ends the answer that it belongs to, or nothing where it ends it itself; `inside` is what was said of the line before.
pub fn goes_on_to(inside: Option<&'static str>, line: &str) -> Option<&'static str> {
    let end = inside.or(match line.split(' ').next() {
        Some("dump") => Some("end"),
        Some("at") => Some("done"),
        _ => None,
    });
    end.filter(|end| *end != line)
}

/// Takes the remark off a line, and the blanks around the rest: space, tab, carriage return and form feed, no others.
pub fn without_remark(line: &str) -> &str {
    line.split('#').next().unwrap_or("").trim_ascii()
}

pub fn read_line(line: &str) -> Line {
    let text = without_remark(line);
    if text.is_empty() {
        return Line::Blank;
    }
    let mut words = Words { rest: text.split_ascii_whitespace() };
    match words.call() {
        Some(call) if words.rest.next().is_none() => Line::Call(call),
        _ => Line::Malformed,
    }
}

struct Words<'a> {
    rest: std::str::SplitAsciiWhitespace<'a>,
}

impl<'a> Words<'a> {
    fn word(&mut self) -> Option<&'a str> {
        self.rest.next()
    }

    fn call(&mut self) -> Option<Call> {
        Some(match self.word()? {
            "new" => Call::New { floor: self.floor()? },
            "add_edge" => Call::AddEdge { capacity: self.double()? },
            "widen" => Call::Widen { edge: self.number()?, amount: self.double()? },
            "submit" => Call::Submit {
                id: self.number()?,
                owner: self.owner()?,
                bytes: self.bytes()?,
                latency: self.double()?,
                cap: self.cap()?,
                time: self.double()?,
                path: self.path()?,
            },
            "advance" => Call::Advance { time: self.double()?, places: self.places()? },
            "run_until" => Call::RunUntil { time: self.double()? },
            "finish" => Call::Finish,
            "cancel" => Call::Cancel { id: self.number()? },
            "take_completed" => Call::TakeCompleted { owner: self.owner()?, places: self.places()? },
            "owners_with_completions" => Call::OwnersWithCompletions { places: self.places()? },
            "next_completion_delay" => Call::NextCompletionDelay,
            "estimate_new" => Call::EstimateNew {
                bytes: self.double()?,
                latency: self.double()?,
                cap: self.cap()?,
                path: self.path()?,
            },
            "settle" => Call::Settle,
            "remaining" => Call::Remaining { id: self.number()? },
            "mean_in_flight" => Call::MeanInFlight { edge: self.number()?, until: self.double()? },
            "rate" => Call::Rate { id: self.number()? },
            "bottleneck" => Call::Bottleneck { id: self.number()? },
            "rounds" => Call::Rounds,
            "contains" => Call::Contains { id: self.number()? },
            "now" => Call::Now,
            "edge" => Call::Edge { edge: self.number()? },
            "counts" => Call::Counts,
            "dump" => Call::Dump,
            _ => return None,
        })
    }

    fn double(&mut self) -> Option<f64> {
        read_double(self.word()?)
    }

    /// A double, or nothing behind the call's name.
    fn floor(&mut self) -> Option<Option<f64>> {
        self.word().map_or(Some(None), |word| read_double(word).map(Some))
    }

    /// A decimal u32.
    fn number(&mut self) -> Option<u32> {
        self.bytes()?.try_into().ok()
    }

    /// A decimal u64.
    fn bytes(&mut self) -> Option<u64> {
        let word = self.word()?;
        let digits = word.bytes().all(|b| b.is_ascii_digit());
        if digits { word.parse().ok() } else { None }
    }

    fn places(&mut self) -> Option<usize> {
        let places = self.number()? as usize;
        (places <= MOST_PLACES).then_some(places)
    }

    fn cap(&mut self) -> Option<Option<f64>> {
        let word = self.word()?;
        if word == "-" { Some(None) } else { read_double(word).map(Some) }
    }

    fn owner(&mut self) -> Option<Party> {
        match (self.number()?, self.number()?) {
            (0, worker) => Some(Party::Worker(worker)),
            (1, 0) => Some(Party::Handoff),
            (2, 0) => Some(Party::Write),
            _ => None,
        }
    }

    fn path(&mut self) -> Option<Vec<u32>> {
        let length = self.number()? as usize;
        if length > MOST_PATH {
            return None;
        }
        (0..length).map(|_| self.number()).collect()
    }
}

/// 16 hex digits are bits; anything else is a decimal number of at most 15 digits.
pub fn read_double(word: &str) -> Option<f64> {
    if word.len() == 16 && word.bytes().all(|b| b.is_ascii_hexdigit()) {
        return u64::from_str_radix(word, 16).ok().map(f64::from_bits);
    }
    let (negative, size) = match word.strip_prefix('-') {
        Some(rest) => (true, rest),
        None => (false, word),
    };
    let (whole, fraction) = size.split_once('.').unwrap_or((size, "0"));
    let given = size.bytes().filter(u8::is_ascii_digit).count();
    let sound = |part: &str| !part.is_empty() && part.bytes().all(|b| b.is_ascii_digit());
    if !sound(whole) || !sound(fraction) || given > 15 {
        return None;
    }
    // Both are below 2^53, so the one division rounds to the nearest double.
    let digits: u64 = format!("{whole}{fraction}").parse().ok()?;
    let value = digits as f64 / 10u64.pow(fraction.len() as u32) as f64;
    Some(if negative { -value } else { value })
}

/// The decimal form where it reads back to the same bits, else the bits.
pub fn write_double(value: f64) -> String {
    let decimal = format!("{value}");
    let same = read_double(&decimal).is_some_and(|read| read.to_bits() == value.to_bits());
    let negative_zero = value == 0.0 && value.is_sign_negative();
    if decimal.len() < 16 && same && !negative_zero { decimal } else { hex(value) }
}

/// A double as answers have it.
pub fn hex(value: f64) -> String {
    format!("{:016x}", value.to_bits())
}

pub fn kind(owner: Party) -> usize {
    match owner {
        Party::Worker(_) => 0,
        Party::Handoff => 1,
        Party::Write => 2,
    }
}

pub fn worker(owner: Party) -> u32 {
    match owner {
        Party::Worker(number) => number,
        _ => 0,
    }
}

/// A path with its length in front.
pub fn write_path<N: fmt::Display>(path: &[N]) -> String {
    let mut text = path.len().to_string();
    for edge in path {
        text += &format!(" {edge}");
    }
    text
}

fn write_cap(cap: Option<f64>) -> String {
    cap.map_or("-".to_string(), write_double)
}

fn write_owner(owner: Party) -> String {
    format!("{} {}", kind(owner), worker(owner))
}

impl fmt::Display for Call {
    fn fmt(&self, f: &mut fmt::Formatter) -> fmt::Result {
        let double = |value: &f64| write_double(*value);
        match self {
            Call::New { floor: None } => write!(f, "new"),
            Call::New { floor: Some(floor) } => write!(f, "new {}", double(floor)),
            Call::AddEdge { capacity } => write!(f, "add_edge {}", double(capacity)),
            Call::Widen { edge, amount } => write!(f, "widen {edge} {}", double(amount)),
            Call::Submit { id, owner, bytes, latency, cap, time, path } => write!(
                f,
                "submit {id} {} {bytes} {} {} {} {}",
                write_owner(*owner),
                double(latency),
                write_cap(*cap),
                double(time),
                write_path(path)
            ),
            Call::Advance { time, places } => write!(f, "advance {} {places}", double(time)),
            Call::RunUntil { time } => write!(f, "run_until {}", double(time)),
            Call::Finish => write!(f, "finish"),
            Call::Cancel { id } => write!(f, "cancel {id}"),
            Call::TakeCompleted { owner, places } => write!(f, "take_completed {} {places}", write_owner(*owner)),
            Call::OwnersWithCompletions { places } => write!(f, "owners_with_completions {places}"),
            Call::NextCompletionDelay => write!(f, "next_completion_delay"),
            Call::EstimateNew { bytes, latency, cap, path } => {
                write!(f, "estimate_new {} {} {} {}", double(bytes), double(latency), write_cap(*cap), write_path(path))
            }
            Call::Settle => write!(f, "settle"),
            Call::Remaining { id } => write!(f, "remaining {id}"),
            Call::MeanInFlight { edge, until } => write!(f, "mean_in_flight {edge} {}", double(until)),
            Call::Rate { id } => write!(f, "rate {id}"),
            Call::Bottleneck { id } => write!(f, "bottleneck {id}"),
            Call::Rounds => write!(f, "rounds"),
            Call::Contains { id } => write!(f, "contains {id}"),
            Call::Now => write!(f, "now"),
            Call::Edge { edge } => write!(f, "edge {edge}"),
            Call::Counts => write!(f, "counts"),
            Call::Dump => write!(f, "dump"),
        }
    }
}

#[cfg(test)]
mod tests {
    use super::*;

    #[test]
    fn doubles_are_read_as_bits_or_decimals() {
        assert_eq!(read_double("4014000000000000"), Some(5.0));
        assert_eq!(read_double("-3.5"), Some(-3.5));
        assert_eq!(read_double("0.1"), Some(0.1));
        assert_eq!(read_double("999999999999999"), Some(999_999_999_999_999.0));
        for bad in ["", "-", ".5", "5.", "+1", "1e3", "12345678901234567", "1.2.3", "--1"] {
            assert_eq!(read_double(bad), None, "{bad}");
        }
    }

    #[test]
    fn a_call_is_read_back_as_written() {
        let lines = ["submit 1 0 7 100 0.25 - 3 2 0 1", "advance 4014000000000001 768", "widen 0 -1", "new", "dump", "run_until 2.5", "finish"];
        for line in lines.into_iter().chain(["settle", "remaining 4294967295", "bottleneck 0", "bottleneck 4294967295", "new 0.001", "new 0.000000000001", "new 3d719799812dea12", "new -3"]) {
            let Line::Call(call) = read_line(line) else { panic!("{line}") };
            assert_eq!(call.to_string(), line);
        }
        assert!(matches!(read_line("  # only a remark"), Line::Blank));
        for line in ["now 1", "run_until", "run_until 1 768", "run_until -", "finish 1", "settle 1", "remaining", "remaining 1 1", "estimate_remaining 1", "new -", "new 1e-3", "new 0.001 1",
            "new floor", "news", "bottleneck", "bottleneck 1 1", "bottleneck 4294967296", "bottleneck -1", "bottlenecks 1"] {
            assert!(matches!(read_line(line), Line::Malformed), "{line}");
        }
    }

    #[test]
    fn a_byte_order_mark_is_a_blank_at_the_start_alone() {
        let read = |text: &[u8]| -> Vec<Line> { lines(text).map(|line| read_line(&line.expect("readable"))).collect() };
        assert!(matches!(read(b"\xef\xbb\xbfnow\nnow")[..], [Line::Call(Call::Now), Line::Call(Call::Now)]));
        assert!(matches!(read(b"\xef\xbb\xbf\nnow")[..], [Line::Blank, Line::Call(Call::Now)]));
        assert!(matches!(read(b"\xef\xbb\xbf# a remark")[..], [Line::Blank]));
        assert!(matches!(read(b"now\n\xef\xbb\xbfnow")[..], [Line::Call(Call::Now), Line::Malformed]));
        assert!(matches!(read(b" \xef\xbb\xbfnow")[..], [Line::Malformed]));
        assert!(matches!(read(b"\xef\xbb\xbf\xef\xbb\xbfnow")[..], [Line::Malformed]));
    }

    #[test]
    fn four_bytes_are_blanks() {
        assert!(matches!(read_line(" \t\r\x0c"), Line::Blank));
        assert!(matches!(read_line("\x0c contains\t1\r"), Line::Call(Call::Contains { id: 1 })));
        for other in ["\x0b", "\u{a0}", "now\x0b", "\u{a0}now", "now\u{2003}"] {
            assert!(matches!(read_line(other), Line::Malformed), "{other:?}");
        }
    }
}

//! What the build scripts share: where flows.rs stands, and how the generated copies are made from it.

use std::fs;
use std::path::{Path, PathBuf};

/// Path of the ported file below the folder that holds the published sources.
const BELOW: &str = "src/kv_cache/flows.rs";

/// The text of flows.rs, and a line for cargo so that an edit of it builds anew.
pub fn flows_text() -> Result<String, String> {
    println!("cargo::rerun-if-env-changed=FLOWS_SRC");
    let file = flows_file()?;
    println!("cargo::rerun-if-changed={}", file.display());
    fs::read_to_string(&file).map_err(|e| format!("cannot read {}: {e}", file.display()))
}

/// FLOWS_SRC where it is set, else docs/src in the repository, else shared/docs/src beside the repository.
fn flows_file() -> Result<PathBuf, String> {
    let set = std::env::var("FLOWS_SRC").unwrap_or_default();
    // A relative setting counts from the repository; joining an absolute one replaces it.
    let folders = if set.is_empty() { vec!["docs/src", "../shared/docs/src"] } else { vec![set.as_str()] };
    let mut files = folders.iter().map(|folder| repository().join(folder).join(BELOW));
    let tried = folders.join(" or ");
    files.find(|file| file.is_file()).ok_or(format!("flows.rs is missing: no {BELOW} in {tried} (set FLOWS_SRC)"))
}

/// The folder above oracle/.
fn repository() -> PathBuf {
    let package = PathBuf::from(std::env::var_os("CARGO_MANIFEST_DIR").expect("run by cargo"));
    package.join("../../..")
}

/// Applies a unified diff of one file. Every context and removed line must match: a changed flows.rs fails here.
pub fn apply_patch(text: &str, patch: &str) -> Result<String, String> {
    let old: Vec<&str> = text.lines().collect();
    let mut new: Vec<&str> = Vec::new();
    let mut taken = 0;
    for line in patch.lines() {
        if let Some(header) = line.strip_prefix("@@ -") {
            let start = hunk_start(header)?;
            new.extend(old.get(taken..start).ok_or("hunks out of order")?);
            taken = start;
        } else if line.starts_with("---") || line.starts_with("+++") {
            continue;
        } else if let Some(added) = line.strip_prefix('+') {
            new.push(added);
        } else if let Some(gone) = line.strip_prefix('-') {
            expect_line(&old, taken, gone)?;
            taken += 1;
        } else if let Some(kept) = line.strip_prefix(' ') {
            expect_line(&old, taken, kept)?;
            new.push(kept);
            taken += 1;
        } else {
            return Err(format!("not a line of a diff: {line}"));
        }
    }
    new.extend(&old[taken..]);
    Ok(new.join("\n") + "\n")
}

/// Index of a hunk's first old line: "131,3 +131,4 @@" gives 130.
fn hunk_start(header: &str) -> Result<usize, String> {
    let digits: String = header.chars().take_while(char::is_ascii_digit).collect();
    let line: usize = digits.parse().map_err(|_| format!("bad hunk: {header}"))?;
    line.checked_sub(1).ok_or_else(|| format!("bad hunk: {header}"))
}

fn expect_line(old: &[&str], at: usize, wanted: &str) -> Result<(), String> {
    match old.get(at) {
        Some(line) if *line == wanted => Ok(()),
        other => Err(format!("line {} of flows.rs is {other:?}, the patch wants {wanted:?}", at + 1)),
    }
}

/// Replaces a text that must stand there exactly once.
pub fn substitute(text: &str, from: &str, to: &str) -> Result<String, String> {
    match text.matches(from).count() {
        1 => Ok(text.replacen(from, to, 1)),
        n => Err(format!("{from:?} stands {n} times in flows.rs, not once")),
    }
}

/// Adds the round number: a field, a zero at the start of a filling, one more in each round.
pub fn count_rounds(text: &str) -> Result<String, String> {
    let field = "pub struct Flows {\n";
    let start = "let n = ts.len();\n";
    let round = "while unfrozen > 0 {\n";
    let text = substitute(text, field, &format!("{field}    rounds: u64,\n"))?;
    let text = substitute(&text, start, &format!("{start}        self.rounds = 0;\n"))?;
    substitute(&text, round, &format!("{round}            self.rounds += 1;\n"))
}

/// Adds the time of the last drain: a field, 0 at first, that every drain sets, with somebody in flight or nobody.
pub fn record_drains(text: &str) -> Result<String, String> {
    let field = "pub struct Flows {\n";
    let drain = "        if now < self.now {\n            return;\n        }\n";
    let text = substitute(text, field, &format!("{field}    last_drain: f64,\n"))?;
    substitute(&text, drain, &format!("{drain}        self.last_drain = now;\n"))
}

/// Adds who froze each transfer: a field, nobody in a submission and at the start of a filling, written where the round of a cap or of an edge freezes.
pub fn record_bottlenecks(text: &str) -> Result<String, String> {
    let inserted = [
        ("struct Transfer {\n", "    frozen_by: Bottleneck,\n"),
        ("            Transfer {\n                owner,\n", "                frozen_by: Bottleneck::Outside,\n"),
        ("fn recompute_rates(&mut self) {\n", "        self.in_flight.values_mut().for_each(|t| t.frozen_by = Bottleneck::Outside);\n"),
        ("ts[i].rate = cap.max(0.0);\n", "                    ts[i].frozen_by = Bottleneck::Cap;\n"),
        ("                t.rate = share.max(0.0);\n", "                t.frozen_by = Bottleneck::Edge(edge);\n"),
    ];
    inserted.iter().try_fold(text.to_string(), |text, (context, line)| substitute(&text, context, &format!("{context}{line}")))
}

/// Makes the floor of eps a setting: a field, in a fresh simulator the Rust's constant, that is read where the constant was. Elsewhere nothing may read the constant.
pub fn set_floor(text: &str) -> Result<String, String> {
    let field = "pub struct Flows {\n";
    let fresh = "    pub fn new() -> Self {\n        Self::default()\n";
    let text = substitute(text, field, &format!("{field}    floor: f64,\n"))?;
    let text = substitute(&text, ".max(DONE_EPSILON_SECONDS)", ".max(self.floor)")?;
    let code: String = text.lines().map(|line| line.split("//").next().unwrap_or(line)).collect();
    substitute(&code, "DONE_EPSILON_SECONDS", "")?;
    substitute(&text, fresh, &fresh.replace("Self::default()", "Self { floor: DONE_EPSILON_SECONDS, ..Self::default() }"))
}

/// Ends the program with a message where the recorded time is read and some transfer in flight was last drained at another. Stands among the accessors.
pub fn mark_drains(accessors: &str) -> Result<String, String> {
    let read = "fn last_drain_of(flows: &Flows) -> Option<Double> {\n";
    let told = "\"somebody in flight was not drained when the others were\"";
    let alike = format!("    assert!(flows.in_flight.values().all(|t| t.last_update == flows.last_drain), {told});\n");
    substitute(accessors, read, &format!("{read}{alike}"))
}

/// Ends the program with a message where a branch would be taken that the port has left out: a round in which no edge has load, a load table
/// of another length than the edge table while rates are not stale.
pub fn mark_unreachable(text: &str) -> Result<String, String> {
    let round = "let capped = cap_order.get(cap_cursor).copied();\n";
    let quiet = "        if !self.rates_dirty\n            && now >= self.now\n";
    let loaded = "            assert!(best.is_some(), \"somebody is unfrozen, and no edge has load\");\n";
    let matched = "        assert!(self.rates_dirty || self.edge_load.len() == self.edges.len(), \"loads and edges differ in number\");\n";
    let text = substitute(text, round, &format!("{round}{loaded}"))?;
    substitute(&text, quiet, &format!("{matched}{quiet}"))
}

/// Swaps the number type: `f64` becomes a type of the same name that notes inexact operations.
/// Casts to f64 become a method, float literals are wrapped; not another letter changes.
pub fn swap_numbers(text: &str) -> String {
    let text = text.replace(" as f64", ".as_f64()");
    let mut swapped = String::new();
    for line in text.lines() {
        let (code, remark) = line.split_at(line.find("//").unwrap_or(line.len()));
        swapped += &wrap_literals(code);
        swapped += remark;
        swapped.push('\n');
    }
    swapped + "use crate::checked::{AsF64, Checked as f64};\n"
}

/// `0.0`, `4.0`, `1e-6`, `1e-12` become `f64::literal(..)`; tuple fields like `a.1` and ranges are left alone.
fn wrap_literals(code: &str) -> String {
    let chars: Vec<char> = code.chars().collect();
    let mut out = String::new();
    let mut i = 0;
    while i < chars.len() {
        let starts = chars[i].is_ascii_digit() && (i == 0 || !is_part_of_name(chars[i - 1]));
        if !starts {
            out.push(chars[i]);
            i += 1;
            continue;
        }
        let length = literal_length(&chars[i..]);
        let literal: String = chars[i..i + length].iter().collect();
        let float = literal.contains('.') || literal.contains('e');
        out += &if float { format!("f64::literal({literal})") } else { literal };
        i += length;
    }
    out
}

fn is_part_of_name(c: char) -> bool {
    c.is_ascii_alphanumeric() || c == '_' || c == '.'
}

/// Length of the number that starts here: digits, a point followed by a digit, an exponent.
fn literal_length(chars: &[char]) -> usize {
    let digits = |from: usize| chars[from..].iter().take_while(|c| c.is_ascii_digit()).count();
    let mut length = digits(0);
    if chars.get(length) == Some(&'.') && chars.get(length + 1).is_some_and(char::is_ascii_digit) {
        length += 1 + digits(length + 1);
    }
    if chars.get(length) == Some(&'e') && chars.get(length + 1) == Some(&'-') {
        length += 2 + digits(length + 2);
    }
    length
}

/// Writes a generated file, leaving it untouched where it already says the same.
pub fn write(file: &Path, text: &str) -> Result<(), String> {
    if fs::read_to_string(file).is_ok_and(|now| now == text) {
        return Ok(());
    }
    fs::write(file, text).map_err(|e| format!("cannot write {}: {e}", file.display()))
}

/// Declares each generated file as a module, for `include!` at the root of a crate.
pub fn modules(folder: &Path, names: &[String]) -> String {
    let declare = |name: &String| {
        let file = folder.join(format!("{name}.rs"));
        format!("#[allow(dead_code, clippy::all)]\n#[path = {file:?}]\npub mod {name};\n")
    };
    names.iter().map(declare).collect()
}

/// Ends a build script. Cargo turns the line into its one error; a status of our own would print everything twice.
pub fn finish(made: Result<(), String>) {
    if let Err(why) = made {
        println!("cargo::error={why}");
    }
}

#[cfg(test)]
mod tests {
    use super::*;

    #[test]
    fn a_patch_applies_where_its_lines_stand() {
        let patch = "--- a\n+++ b\n@@ -2,2 +2,3 @@\n two\n+new\n three\n";
        assert_eq!(apply_patch("one\ntwo\nthree\nfour\n", patch).unwrap(), "one\ntwo\nnew\nthree\nfour\n");
        assert!(apply_patch("one\n2\nthree\n", patch).is_err());
    }

    #[test]
    fn marks_stand_before_what_they_watch() {
        let text = "let capped = cap_order.get(cap_cursor).copied();\nif\n        if !self.rates_dirty\n            && now >= self.now\n";
        let marked = mark_unreachable(text).unwrap();
        let lines: Vec<&str> = marked.lines().map(str::trim).collect();
        assert!(lines[1].starts_with("assert!(best.is_some()") && lines[3].starts_with("assert!(self.rates_dirty ||"));
        assert!(mark_unreachable("another flows.rs").is_err());
    }

    #[test]
    fn a_drain_is_recorded_behind_its_early_return() {
        let text = "pub struct Flows {\n    now: f64,\n}\n        if now < self.now {\n            return;\n        }\n        if now > self.now {\n";
        let recorded = record_drains(text).unwrap();
        let lines: Vec<&str> = recorded.lines().map(str::trim).collect();
        assert_eq!(lines[..3], ["pub struct Flows {", "last_drain: f64,", "now: f64,"]);
        assert_eq!(lines[5..], ["return;", "}", "self.last_drain = now;", "if now > self.now {"]);
        assert!(record_drains("another flows.rs").is_err());
    }

    #[test]
    fn who_froze_a_transfer_is_recorded_where_it_is_frozen() {
        let text = "struct Transfer {\n    rate: f64,\n}\n            Transfer {\n                owner,\n            }\nfn recompute_rates(&mut self) {\n    let n;\n\
                    ts[i].rate = cap.max(0.0);\nfor &e\n                t.rate = share.max(0.0);\nfor &e\n";
        let recorded = record_bottlenecks(text).unwrap();
        let lines: Vec<&str> = recorded.lines().map(str::trim).collect();
        assert_eq!(lines[..3], ["struct Transfer {", "frozen_by: Bottleneck,", "rate: f64,"]);
        assert_eq!(lines[4..7], ["Transfer {", "owner,", "frozen_by: Bottleneck::Outside,"]);
        assert_eq!(lines[9..11], ["self.in_flight.values_mut().for_each(|t| t.frozen_by = Bottleneck::Outside);", "let n;"]);
        assert_eq!(lines[11..13], ["ts[i].rate = cap.max(0.0);", "ts[i].frozen_by = Bottleneck::Cap;"]);
        assert_eq!(lines[14..16], ["t.rate = share.max(0.0);", "t.frozen_by = Bottleneck::Edge(edge);"]);
        for (gone, other) in [("cap.max", "cap.min"), ("= share", "= shares"), ("recompute", "compute"), ("owner", "owners"), ("struct", "enum")] {
            assert!(record_bottlenecks(&text.replace(gone, other)).is_err(), "{gone}");
        }
    }

    #[test]
    fn the_floor_is_read_where_the_constant_was() {
        let text = "const DONE_EPSILON_SECONDS: f64 = 1e-12;\npub struct Flows {\n    now: f64,\n}\n    pub fn new() -> Self {\n        Self::default()\n    }\n\
                    /// `DONE_EPSILON_SECONDS` at least\n(self.now * 4.0).max(DONE_EPSILON_SECONDS)\n";
        let set = set_floor(text).unwrap();
        let lines: Vec<&str> = set.lines().map(str::trim).collect();
        assert_eq!(lines[1..4], ["pub struct Flows {", "floor: f64,", "now: f64,"]);
        assert_eq!(lines[6], "Self { floor: DONE_EPSILON_SECONDS, ..Self::default() }");
        assert_eq!(lines[9], "(self.now * 4.0).max(self.floor)");
        assert!(set_floor(&format!("{text}left <= DONE_EPSILON_SECONDS\n")).is_err());
        assert!(set_floor(&format!("{text}(2.0).max(DONE_EPSILON_SECONDS)\n")).is_err());
        assert!(set_floor("another flows.rs").is_err());
    }

    #[test]
    fn the_recorded_time_is_held_against_the_transfers_where_it_is_read() {
        let marked = mark_drains("fn last_drain_of(flows: &Flows) -> Option<Double> {\n    Some(outward(flows.last_drain))\n").unwrap();
        let lines: Vec<&str> = marked.lines().map(str::trim).collect();
        assert!(lines[1].starts_with("assert!(flows.in_flight.values().all(") && lines[2].starts_with("Some("));
        assert!(mark_drains("fn last_drain_of(_: &Flows)").is_err());
    }

    #[test]
    fn only_float_literals_are_wrapped() {
        assert_eq!(wrap_literals("a.1 > 0.0 && x == 0"), "a.1 > f64::literal(0.0) && x == 0");
        assert_eq!(wrap_literals("= 1e-12; v[0]"), "= f64::literal(1e-12); v[0]");
    }

    #[test]
    fn a_text_is_exchanged_only_where_it_stands_once() {
        assert_eq!(substitute("a b", "b", "c").unwrap(), "a c");
        assert!(substitute("b b", "b", "c").is_err());
    }
}

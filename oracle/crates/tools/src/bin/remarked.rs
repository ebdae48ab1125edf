//! remarked: adds to answers on standard input the remarks that the session program makes for people, a value in decimal.

use std::io::BufRead;

/// Beyond this a double has no places to show.
const READABLE: f64 = 9007199254740992.0;

/// Six places, the last one rounded to the nearest.
fn fixed(x: f64) -> String {
    let size = x.abs();
    let whole = size as u64;
    let millionths = ((size - whole as f64) * 1000000.0 + 0.5) as u64;
    let sign = if x < 0.0 { "-" } else { "" };
    format!("{sign}{}.{:06}", whole + millionths / 1000000, millionths % 1000000)
}

/// The doubles of an answer that get a remark: a value, a delay, an edge by its number's question, the time of a step.
fn doubles(line: &str) -> Option<Vec<f64>> {
    let words: Vec<&str> = line.split(' ').collect();
    let wanted = match (words[0], words.len()) {
        ("value" | "after", 2) => &words[1..],
        // A time left, which says how fresh it is.
        ("value", 3) if matches!(words[2], "current" | "behind") => &words[1..2],
        ("edge", 4) => &words[1..],
        ("at", 2..) => &words[1..2],
        _ => return None,
    };
    let bits = |word: &&str| if word.len() == 16 { u64::from_str_radix(word, 16).ok() } else { None };
    let values: Vec<f64> = wanted.iter().map(|word| bits(word).map(f64::from_bits)).collect::<Option<_>>()?;
    values.iter().all(|x| x.abs() < READABLE).then_some(values)
}

#[cfg(test)]
mod tests {
    use super::*;

    #[test]
    fn what_gets_a_remark() {
        assert_eq!(doubles("after 4014000000000000"), Some(vec![5.0]));
        assert_eq!(doubles("at 3ff0000000000000 list 1 0 0 1"), Some(vec![1.0]));
        assert_eq!(doubles("value 4014000000000000 current"), Some(vec![5.0]));
        assert_eq!(doubles("value 4014000000000000 behind"), Some(vec![5.0]));
        assert_eq!(doubles("edge 4024000000000000 0000000000000000 3ff0000000000000"), Some(vec![10.0, 0.0, 1.0]));
        for other in ["edge 0", "edge 0 4024000000000000 0000000000000000 3ff0000000000000", "value 7ff0000000000000", "done", "list 0 tail-kept",
            "value 7ff0000000000000 behind", "unknown current", "cannot_finish behind", "value 4014000000000000 other"] {
            assert_eq!(doubles(other), None, "{other}");
        }
    }
}

fn main() {
    for line in std::io::stdin().lock().lines() {
        let line = line.unwrap_or_else(|e| tools::give_up(&e.to_string()));
        match doubles(&line) {
            Some(values) => println!("{line} # {}", values.into_iter().map(fixed).collect::<Vec<_>>().join(" ")),
            None => println!("{line}"),
        }
    }
}

//! double_table: on standard input the table of bit patterns that the crate test_doubles_table runs on, on standard output the Rust's answers.
//! A line of the table is a letter and sixteen hexadecimal digits: b a pattern, p a member of the pairs, w a count.

use std::io::Read;

// Rust leaves the bits of a NaN open, so the table has one pattern for them all.
fn bits(x: f64) -> u64 {
    if x.is_nan() { 0x7ff8_0000_0000_0000 } else { x.to_bits() }
}

fn main() {
    let mut text = String::new();
    std::io::stdin().read_to_string(&mut text).expect("the table is readable text");
    let rows: Vec<(&str, u64)> = text
        .lines()
        .map(|line| (&line[..1], u64::from_str_radix(&line[2..], 16).expect("sixteen digits")))
        .collect();
    let marked = |mark: &str| -> Vec<u64> { rows.iter().filter(|row| row.0 == mark).map(|row| row.1).collect() };
    for pattern in marked("b") {
        let x = f64::from_bits(pattern);
        // Adding zero turns a negative zero into zero and changes no other number.
        println!("bits {:016x} finite {} zero_read {:016x}", bits(x), x.is_finite() as u8, bits(x + 0.0));
    }
    let members = marked("p");
    for &first in &members {
        for &second in &members {
            let (x, y) = (f64::from_bits(first), f64::from_bits(second));
            println!("pair {:016x} {:016x} min {:016x} max {:016x}", first, second, bits(x.min(y)), bits(x.max(y)));
        }
    }
    for count in marked("w") {
        println!("whole {} {:016x}", count, bits(count as f64));
    }
}

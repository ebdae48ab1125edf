//! The session script over flows.rs with slot order and the three drains.
//! `patched --common` leaves slots and rounds out, for a comparison with `given`.

fn main() {
    let common = std::env::args().any(|word| word == "--common");
    tools::drive(copies::patched, common, "patched: flows.rs with slot order and three drains");
}

//! Makes the four copies of flows.rs: as given, patched, and each of them with the checked number type.

use std::path::PathBuf;

fn main() {
    making::finish(make());
}

fn make() -> Result<(), String> {
    for input in ["../../slots.patch", "src/accessors.txt", "src/without_slots.txt", "src/with_slots.txt"] {
        println!("cargo::rerun-if-changed={input}");
    }
    let flows = making::flows_text()?;
    let patch = include_str!("../../slots.patch");
    let patched = making::record_drains(&making::count_rounds(&making::apply_patch(&flows, patch)?)?)?;
    let patched = making::mark_unreachable(&making::set_floor(&making::record_bottlenecks(&patched)?)?)?;
    let given_ends = [include_str!("src/accessors.txt"), include_str!("src/without_slots.txt")].concat();
    let patched_ends = making::mark_drains(&[include_str!("src/accessors.txt"), include_str!("src/with_slots.txt")].concat())?;
    let plain = "use crate::plain::{inward, outward};\n";
    let checked = "use crate::checked::{inward, outward};\n";
    let copies = [
        ("given", flows.clone() + plain + &given_ends),
        ("patched", patched.clone() + plain + &patched_ends),
        ("checked_given", making::swap_numbers(&flows) + checked + &given_ends),
        ("checked_patched", making::swap_numbers(&patched) + checked + &patched_ends),
    ];
    if !copies[0].1.starts_with(&flows) {
        return Err("the copy of flows.rs as given does not begin with the file itself".into());
    }
    let folder = PathBuf::from(std::env::var_os("OUT_DIR").expect("run by cargo"));
    for (name, text) in &copies {
        making::write(&folder.join(format!("{name}.rs")), text)?;
    }
    let names: Vec<String> = copies.iter().map(|(name, _)| name.to_string()).collect();
    making::write(&folder.join("modules.rs"), &making::modules(&folder, &names))
}

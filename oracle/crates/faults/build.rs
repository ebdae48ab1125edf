//! Makes a copy of the patched file for each seeded fault.

use std::path::PathBuf;

include!("list.rs");

fn main() {
    making::finish(make());
}

fn make() -> Result<(), String> {
    for input in ["../../slots.patch", "../copies/src/accessors.txt", "../copies/src/with_slots.txt", "list.rs", "build.rs"] {
        println!("cargo::rerun-if-changed={input}");
    }
    let patch = include_str!("../../slots.patch");
    let patched = making::record_drains(&making::count_rounds(&making::apply_patch(&making::flows_text()?, patch)?)?)?;
    let patched = making::set_floor(&making::record_bottlenecks(&patched)?)?;
    let ends = [
        "use crate::plain::{inward, outward};\n",
        include_str!("../copies/src/accessors.txt"),
        include_str!("../copies/src/with_slots.txt"),
    ];
    let folder = PathBuf::from(std::env::var_os("OUT_DIR").expect("run by cargo"));
    for fault in all() {
        let mut text = patched.clone() + &ends.concat();
        for (from, to) in fault.edits {
            text = making::substitute(&text, from, to).map_err(|why| format!("fault {}: {why}", fault.name))?;
        }
        making::write(&folder.join(format!("{}.rs", fault.name)), &text)?;
    }
    let names: Vec<String> = all().map(|fault| fault.name.to_string()).collect();
    let modules = making::modules(&folder, &names).replace("dead_code", "dead_code, unused");
    making::write(&folder.join("modules.rs"), &(modules + &makers()))
}

fn all() -> impl Iterator<Item = &'static Fault> {
    FAULTS.iter().chain(HARMLESS)
}

/// The list of functions that make a fresh simulator of each copy.
fn makers() -> String {
    let each = |fault: &Fault| format!("    || Box::new({}::Flows::new()),\n", fault.name);
    let makers: String = all().map(each).collect();
    format!("pub const MAKERS: [fn() -> Box<dyn copies::Simulator>; {}] = [\n{makers}];\n", all().count())
}

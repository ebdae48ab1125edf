//! The session script over flows.rs as given. It has no slots and counts no rounds: `dump` goes by id.

fn main() {
    tools::drive(copies::given, true, &format!("given: flows.rs unchanged, with {}", copies::HASH_MAP));
}

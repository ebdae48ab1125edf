//! The copies that are compared work on plain doubles: nothing to translate.

use crate::simulator::Double;

pub fn inward(value: Double) -> Double {
    value
}

pub fn outward(value: Double) -> Double {
    value
}

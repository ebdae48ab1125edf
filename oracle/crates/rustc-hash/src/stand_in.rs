//! Stands in for rustc-hash where Debian's package is not to be had: the same type, another hash, so another order.

use std::collections::hash_map::DefaultHasher;
use std::collections::HashMap;
use std::hash::BuildHasherDefault;

pub type FxHashMap<K, V> = HashMap<K, V, BuildHasherDefault<DefaultHasher>>;

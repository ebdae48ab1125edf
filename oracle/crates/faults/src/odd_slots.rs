//! Tables that keep their slots wrongly, for the faults of slot order.

use std::borrow::Borrow;

pub type Backwards<K, V> = Odd<K, V, 0>;
pub type HighestFree<K, V> = Odd<K, V, 1>;
pub type NeverAgain<K, V> = Odd<K, V, 2>;

/// What is wrong is said by `WRONG`: 0 the direction of walks, 1 the choice among free slots, 2 their use again.
#[derive(Clone, Debug)]
pub struct Odd<K, V, const WRONG: u8> {
    slots: Vec<Option<(K, V)>>,
}

impl<K, V, const WRONG: u8> Default for Odd<K, V, WRONG> {
    fn default() -> Self {
        Self { slots: Vec::new() }
    }
}

impl<K: PartialEq, V, const WRONG: u8> Odd<K, V, WRONG> {
    pub fn insert(&mut self, key: K, value: V) {
        let free = match WRONG {
            0 => self.slots.iter().position(Option::is_none),
            1 => self.slots.iter().rposition(Option::is_none),
            _ => None,
        };
        match free {
            Some(free) => self.slots[free] = Some((key, value)),
            None => self.slots.push(Some((key, value))),
        }
    }

    pub fn remove<Q: ?Sized + PartialEq>(&mut self, key: &Q) -> Option<V>
    where
        K: Borrow<Q>,
    {
        let slot = self.slot(key)?;
        self.slots[slot].take().map(|(_, value)| value)
    }

    pub fn get<Q: ?Sized + PartialEq>(&self, key: &Q) -> Option<&V>
    where
        K: Borrow<Q>,
    {
        self.iter().find(|(k, _)| (*k).borrow() == key).map(|(_, value)| value)
    }

    pub fn contains_key<Q: ?Sized + PartialEq>(&self, key: &Q) -> bool
    where
        K: Borrow<Q>,
    {
        self.slot(key).is_some()
    }

    pub fn len(&self) -> usize {
        self.slots.iter().flatten().count()
    }

    pub fn iter(&self) -> impl Iterator<Item = (&K, &V)> {
        directed::<WRONG, _>(self.slots.iter().flatten().map(|(key, value)| (key, value)))
    }

    pub fn values(&self) -> impl Iterator<Item = &V> {
        self.iter().map(|(_, value)| value)
    }

    pub fn values_mut(&mut self) -> impl Iterator<Item = &mut V> {
        directed::<WRONG, _>(self.slots.iter_mut().flatten().map(|(_, value)| value))
    }

    pub fn slot<Q: ?Sized + PartialEq>(&self, key: &Q) -> Option<usize>
    where
        K: Borrow<Q>,
    {
        self.slots.iter().position(|place| place.as_ref().is_some_and(|(k, _)| k.borrow() == key))
    }
}

fn directed<const WRONG: u8, T>(items: impl Iterator<Item = T>) -> impl Iterator<Item = T> {
    let mut items: Vec<T> = items.collect();
    if WRONG == 0 {
        items.reverse();
    }
    items.into_iter()
}

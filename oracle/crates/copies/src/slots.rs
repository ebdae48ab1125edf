//! A table in slot order with the methods of the hash map that it replaces.

/// A new entry takes the lowest free slot; every walk goes by slot.
#[derive(Clone, Debug)]
pub struct SlotMap<K, V> {
    slots: Vec<Option<(K, V)>>,
}

impl<K, V> Default for SlotMap<K, V> {
    fn default() -> Self {
        Self { slots: Vec::new() }
    }
}

impl<K: PartialEq, V> SlotMap<K, V> {
    pub fn insert(&mut self, key: K, value: V) {
        match self.slots.iter().position(Option::is_none) {
            Some(free) => self.slots[free] = Some((key, value)),
            None => self.slots.push(Some((key, value))),
        }
    }

    pub fn remove<Q: ?Sized + PartialEq>(&mut self, key: &Q) -> Option<V>
    where
        K: std::borrow::Borrow<Q>,
    {
        let slot = self.slot(key)?;
        self.slots[slot].take().map(|(_, value)| value)
    }

    pub fn get<Q: ?Sized + PartialEq>(&self, key: &Q) -> Option<&V>
    where
        K: std::borrow::Borrow<Q>,
    {
        self.slot(key).and_then(|slot| self.slots[slot].as_ref()).map(|(_, value)| value)
    }

    pub fn contains_key<Q: ?Sized + PartialEq>(&self, key: &Q) -> bool
    where
        K: std::borrow::Borrow<Q>,
    {
        self.slot(key).is_some()
    }

    pub fn len(&self) -> usize {
        self.slots.iter().flatten().count()
    }

    pub fn is_empty(&self) -> bool {
        self.len() == 0
    }

    pub fn iter(&self) -> impl Iterator<Item = (&K, &V)> {
        self.slots.iter().flatten().map(|(key, value)| (key, value))
    }

    pub fn values(&self) -> impl Iterator<Item = &V> {
        self.slots.iter().flatten().map(|(_, value)| value)
    }

    pub fn values_mut(&mut self) -> impl Iterator<Item = &mut V> {
        self.slots.iter_mut().flatten().map(|(_, value)| value)
    }

    /// The slot that holds a key.
    pub fn slot<Q: ?Sized + PartialEq>(&self, key: &Q) -> Option<usize>
    where
        K: std::borrow::Borrow<Q>,
    {
        self.slots.iter().position(|place| place.as_ref().is_some_and(|(k, _)| k.borrow() == key))
    }
}

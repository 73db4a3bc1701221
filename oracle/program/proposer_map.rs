//! What round_state uses of `HashMap`, walked in an order that the oracle sets. A `HashMap` may show any order, so none of these is new to
//! the engine.
use std::cell::Cell;
use std::collections::BTreeMap;

#[derive(Clone, Copy, PartialEq, Eq, Debug)]
pub enum Order {
    LowestFirst,
    HighestFirst,
    /// Lowest first, begun at that place.
    Rotated(usize),
}

thread_local! {
    pub static ORDER: Cell<Order> = const { Cell::new(Order::LowestFirst) };
}

pub struct HashMap<K: Ord, V>(BTreeMap<K, V>);

impl<K: Ord, V> HashMap<K, V> {
    pub fn with_capacity(_: usize) -> Self {
        HashMap(BTreeMap::new())
    }

    pub fn insert(&mut self, key: K, value: V) -> Option<V> {
        self.0.insert(key, value)
    }

    pub fn get(&self, key: &K) -> Option<&V> {
        self.0.get(key)
    }

    pub fn clear(&mut self) {
        self.0.clear()
    }

    pub fn is_empty(&self) -> bool {
        self.0.is_empty()
    }

    pub fn len(&self) -> usize {
        self.0.len()
    }

    pub fn contains_key(&self, key: &K) -> bool {
        self.0.contains_key(key)
    }

    pub fn keys(&self) -> impl Iterator<Item = &K> {
        self.0.keys()
    }

    pub fn iter(&self) -> std::vec::IntoIter<(&K, &V)> {
        let mut entries: Vec<(&K, &V)> = self.0.iter().collect();
        match ORDER.get() {
            Order::LowestFirst => {}
            Order::HighestFirst => entries.reverse(),
            Order::Rotated(places) if !entries.is_empty() => {
                let count = entries.len();
                entries.rotate_left(places % count)
            }
            Order::Rotated(_) => {}
        }
        entries.into_iter()
    }
}

//! Stand-in for the crate indexmap: maps and sets that keep insertion order.
//! Data only, searched linearly or through std's HashMap for positions.
use std::collections::HashMap;
use std::collections::hash_map::RandomState;
use std::hash::{BuildHasher, Hash};

#[derive(Debug, Clone)]
pub struct IndexMap<K, V, S = RandomState> {
    items: Vec<(K, V)>,
    places: HashMap<K, usize, S>,
}

impl<K, V, S> IndexMap<K, V, S> {
    pub fn with_hasher(hasher: S) -> Self {
        IndexMap { items: Vec::new(), places: HashMap::with_hasher(hasher) }
    }

    pub fn iter(&self) -> impl Iterator<Item = (&K, &V)> {
        self.items.iter().map(|(k, v)| (k, v))
    }

    pub fn len(&self) -> usize {
        self.items.len()
    }

    pub fn is_empty(&self) -> bool {
        self.items.is_empty()
    }
}

pub struct Entry<'a, K, V, S> {
    map: &'a mut IndexMap<K, V, S>,
    key: K,
}

impl<'a, K: Hash + Eq + Clone, V, S: BuildHasher> Entry<'a, K, V, S> {
    pub fn or_insert_with(self, f: impl FnOnce() -> V) -> &'a mut V {
        let place = match self.map.places.get(&self.key) {
            Some(&place) => place,
            None => {
                let place = self.map.items.len();
                self.map.items.push((self.key.clone(), f()));
                self.map.places.insert(self.key, place);
                place
            }
        };
        &mut self.map.items[place].1
    }
}

impl<K: Hash + Eq + Clone, V, S: BuildHasher> IndexMap<K, V, S> {
    pub fn entry(&mut self, key: K) -> Entry<'_, K, V, S> {
        Entry { map: self, key }
    }

    pub fn get(&self, key: &K) -> Option<&V> {
        self.places.get(key).map(|&place| &self.items[place].1)
    }
}

#[derive(Debug, Clone)]
pub struct IndexSet<T, S = RandomState> {
    map: IndexMap<T, (), S>,
}

impl<T, S> IndexSet<T, S> {
    pub fn with_hasher(hasher: S) -> Self {
        IndexSet { map: IndexMap::with_hasher(hasher) }
    }

    pub fn iter(&self) -> impl Iterator<Item = &T> {
        self.map.items.iter().map(|(k, _)| k)
    }

    pub fn len(&self) -> usize {
        self.map.len()
    }

    pub fn is_empty(&self) -> bool {
        self.map.is_empty()
    }
}

impl<T: Hash + Eq + Clone, S: BuildHasher> IndexSet<T, S> {
    pub fn insert(&mut self, value: T) -> bool {
        let before = self.map.len();
        self.map.entry(value).or_insert_with(|| ());
        self.map.len() > before
    }

    pub fn swap_remove(&mut self, value: &T) -> bool {
        match self.map.places.remove(value) {
            Some(place) => {
                self.map.items.swap_remove(place);
                if let Some((moved, _)) = self.map.items.get(place) {
                    self.map.places.insert(moved.clone(), place);
                }
                true
            }
            None => false,
        }
    }
}

impl<T: Hash + Eq + Clone, S: BuildHasher> Extend<T> for IndexSet<T, S> {
    fn extend<I: IntoIterator<Item = T>>(&mut self, iter: I) {
        for value in iter {
            self.insert(value);
        }
    }
}

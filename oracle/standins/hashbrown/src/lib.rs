//! Stand-in for the crate hashbrown: the part of `hash_table` that the
//! original files use. A list of (hash, value) pairs. The real crate promises
//! no order of iteration; `set_order` chooses one here (insertion, reverse or by
//! hash), so that the driver's renumbering is tested against all of them.

pub mod hash_table {
    use std::sync::atomic::{AtomicU64, Ordering};

    static ORDER: AtomicU64 = AtomicU64::new(0);

    /// The order of iteration of tables filled from now on: 0 insertion, 1 reverse, 2 by hash (numbers modulo 3).
    pub fn set_order(order: u64) {
        ORDER.store(order % 3, Ordering::Relaxed);
    }

    #[derive(Debug, Clone)]
    pub struct HashTable<T> {
        items: Vec<(u64, T)>, // kept in the order of iteration
    }

    impl<T> HashTable<T> {
        pub const fn new() -> Self {
            HashTable { items: Vec::new() }
        }

        pub fn len(&self) -> usize {
            self.items.len()
        }

        pub fn is_empty(&self) -> bool {
            self.items.is_empty()
        }

        fn put(&mut self, hash: u64, value: T) -> usize {
            let place = match ORDER.load(Ordering::Relaxed) {
                0 => self.items.len(),
                1 => 0,
                _ => self.items.partition_point(|(other, _)| *other <= hash),
            };
            self.items.insert(place, (hash, value));
            place
        }

        fn place(&self, hash: u64, mut eq: impl FnMut(&T) -> bool) -> Option<usize> {
            self.items.iter().position(|(other, value)| *other == hash && eq(value))
        }

        pub fn find(&self, hash: u64, eq: impl FnMut(&T) -> bool) -> Option<&T> {
            self.place(hash, eq).map(|place| &self.items[place].1)
        }

        pub fn insert_unique(&mut self, hash: u64, value: T, hasher: impl Fn(&T) -> u64) -> OccupiedEntry<'_, T> {
            assert_eq!(hash, hasher(&value), "a value put under another's hash");
            let place = self.put(hash, value);
            OccupiedEntry { table: self, place }
        }

        pub fn entry(&mut self, hash: u64, eq: impl FnMut(&T) -> bool, _hasher: impl Fn(&T) -> u64) -> Entry<'_, T> {
            match self.place(hash, eq) {
                Some(place) => Entry::Occupied(OccupiedEntry { table: self, place }),
                None => Entry::Vacant(VacantEntry { table: self, hash }),
            }
        }

        pub fn iter(&self) -> impl Iterator<Item = &T> {
            self.items.iter().map(|(_, value)| value)
        }

        pub fn iter_mut(&mut self) -> impl Iterator<Item = &mut T> {
            self.items.iter_mut().map(|(_, value)| value)
        }

        pub fn drain(&mut self) -> impl Iterator<Item = T> + '_ {
            self.items.drain(..).map(|(_, value)| value)
        }
    }

    impl<T> IntoIterator for HashTable<T> {
        type Item = T;
        type IntoIter = std::iter::Map<std::vec::IntoIter<(u64, T)>, fn((u64, T)) -> T>;

        fn into_iter(self) -> Self::IntoIter {
            self.items.into_iter().map(|(_, value)| value)
        }
    }

    pub enum Entry<'a, T> {
        Occupied(OccupiedEntry<'a, T>),
        Vacant(VacantEntry<'a, T>),
    }

    impl<'a, T> Entry<'a, T> {
        pub fn or_insert_with(self, default: impl FnOnce() -> T) -> OccupiedEntry<'a, T> {
            match self {
                Entry::Occupied(entry) => entry,
                Entry::Vacant(entry) => entry.insert(default()),
            }
        }
    }

    pub struct OccupiedEntry<'a, T> {
        table: &'a mut HashTable<T>,
        place: usize,
    }

    impl<'a, T> OccupiedEntry<'a, T> {
        pub fn get(&self) -> &T {
            &self.table.items[self.place].1
        }

        pub fn get_mut(&mut self) -> &mut T {
            &mut self.table.items[self.place].1
        }

        pub fn remove(self) -> (T, VacantEntry<'a, T>) {
            let (hash, value) = self.table.items.remove(self.place);
            let table = self.table;
            (value, VacantEntry { table, hash })
        }
    }

    pub struct VacantEntry<'a, T> {
        table: &'a mut HashTable<T>,
        hash: u64,
    }

    impl<'a, T> VacantEntry<'a, T> {
        pub fn insert(self, value: T) -> OccupiedEntry<'a, T> {
            let place = self.table.put(self.hash, value);
            let table = self.table;
            OccupiedEntry { table, place }
        }
    }
}

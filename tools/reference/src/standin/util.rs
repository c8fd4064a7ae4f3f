//! Stand-in for util.rs. Of several update statuses the worst counts (document 01).
use std::marker::PhantomData;
use std::ops::{BitOr, BitOrAssign, Index, IndexMut};

#[derive(Clone, Copy, Debug, PartialEq, Eq, PartialOrd, Ord)]
pub enum UpdateStatus {
    NotUpdated,
    Updated,
    Unsatisfiable,
}

impl BitOr for UpdateStatus {
    type Output = UpdateStatus;

    fn bitor(self, other: UpdateStatus) -> UpdateStatus {
        self.max(other)
    }
}

impl BitOrAssign for UpdateStatus {
    fn bitor_assign(&mut self, other: UpdateStatus) {
        *self = *self | other;
    }
}

pub trait ConvertMapIndex {
    fn to_index(&self) -> usize;
}

/// A map from variables to values, the default where nothing was stored.
pub struct ConvertMap<K, V> {
    values: Vec<V>,
    default: V,
    key: PhantomData<K>,
}

impl<K: ConvertMapIndex, V: Clone + Default> ConvertMap<K, V> {
    pub fn new() -> ConvertMap<K, V> {
        ConvertMap { values: vec![], default: V::default(), key: PhantomData }
    }
}

impl<K: ConvertMapIndex, V> Index<K> for ConvertMap<K, V> {
    type Output = V;

    fn index(&self, key: K) -> &V {
        self.values.get(key.to_index()).unwrap_or(&self.default)
    }
}

impl<K: ConvertMapIndex, V: Clone> IndexMut<K> for ConvertMap<K, V> {
    fn index_mut(&mut self, key: K) -> &mut V {
        let at = key.to_index();
        if at >= self.values.len() {
            self.values.resize(at + 1, self.default.clone());
        }
        &mut self.values[at]
    }
}

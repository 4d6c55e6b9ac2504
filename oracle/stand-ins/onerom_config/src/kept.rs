//! Lists kept for the life of the program, equal ones once.

use std::collections::HashSet;
use std::hash::Hash;
use std::sync::Mutex;

pub type Kept<T> = Mutex<Option<HashSet<&'static [T]>>>;

pub fn keep<T: Clone + Eq + Hash>(kept: &Kept<T>, list: &[T]) -> &'static [T] {
    let mut guard = kept.lock().unwrap_or_else(|poisoned| poisoned.into_inner());
    let lists = guard.get_or_insert_with(HashSet::new);
    if let Some(known) = lists.get(list) {
        return known;
    }
    let fresh: &'static [T] = Box::leak(list.to_vec().into_boxed_slice());
    lists.insert(fresh);
    fresh
}

static BYTES: Kept<u8> = Mutex::new(None);

pub fn bytes(list: &[u8]) -> &'static [u8] {
    keep(&BYTES, list)
}

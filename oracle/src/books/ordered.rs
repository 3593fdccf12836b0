//! The standard library with another `HashSet`: it goes by the order in which its members came in, and members that come in together
//! (`extend`) come in the order in which they were first met. The standard library's promises no order, so that this is one of those
//! that the Rust may show.

pub use std::*;

use std::cell::RefCell;
use std::collections::HashMap;
use std::hash::{BuildHasher, BuildHasherDefault, DefaultHasher, Hash};

thread_local! {
    static MET: RefCell<HashMap<u64, usize>> = RefCell::default();
}

fn mark<T: Hash>(thing: &T) -> u64 {
    BuildHasherDefault::<DefaultHasher>::default().hash_one(thing)
}

/// Nothing was met, on this thread.
pub fn forget() {
    MET.with_borrow_mut(HashMap::clear);
}

/// Met, on this thread: after all that were met before, unless it is one of them.
pub fn meet<T: Hash>(thing: &T) {
    MET.with_borrow_mut(|met| {
        let last = met.len();
        met.entry(mark(thing)).or_insert(last);
    });
}

fn rank<T: Hash>(thing: &T) -> usize {
    MET.with_borrow(|met| met.get(&mark(thing)).copied().unwrap_or(usize::MAX))
}

pub mod collections {
    pub use std::collections::*;

    use std::hash::Hash;

    #[derive(Debug, Clone)]
    pub struct HashSet<T> {
        members: std::collections::HashSet<T>,
        order: Vec<T>,
    }

    impl<T> Default for HashSet<T> {
        fn default() -> Self {
            Self { members: std::collections::HashSet::default(), order: Vec::new() }
        }
    }

    impl<T: Eq + Hash + Clone> HashSet<T> {
        pub fn insert(&mut self, member: T) -> bool {
            let new = self.members.insert(member.clone());
            if new {
                self.order.push(member);
            }
            new
        }

        pub fn remove(&mut self, member: &T) -> bool {
            let gone = self.members.remove(member);
            if gone {
                self.order.retain(|other| other != member);
            }
            gone
        }

        pub fn contains(&self, member: &T) -> bool {
            self.members.contains(member)
        }

        pub fn is_empty(&self) -> bool {
            self.order.is_empty()
        }

        pub fn iter(&self) -> std::slice::Iter<'_, T> {
            self.order.iter()
        }

        pub fn extend(&mut self, members: impl IntoIterator<Item = T>) {
            let mut members: Vec<T> = members.into_iter().collect();
            members.sort_by_key(|member| crate::rank(member));
            for member in members {
                self.insert(member);
            }
        }
    }
}

//! The messages that were ever sent; each may arrive anywhere, at any time, any number of times.

use crate::name::Name;
use std::collections::{BTreeMap, BTreeSet};

#[derive(Clone, Debug, Default)]
pub struct Post {
    /// The hold messages: the bytes of the order, by its name.
    pub holds: BTreeMap<Name, Vec<u8>>,
    /// The yes of a house to a name.
    pub yes: BTreeSet<(u32, Name)>,
    /// What homes told of names.
    pub told: BTreeSet<(bool, Name)>,
}

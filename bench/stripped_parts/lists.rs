//! The lists of a hierarchy, read from its file without a look at its rules; witnesses are left out.
use crate::hierarchy::entry::Entry;
use crate::hierarchy::hierarchy::Hierarchy;
use crate::hierarchy::witnesses::Witnesses;
use crate::shim::{Global, Vec};

pub struct Lists {
    order: Vec<u32>,
    entries: Vec<Entry>,
    witnesses: Witnesses,
}

impl Lists {
    pub fn known(&self) {}

    pub fn order(&self) -> &[u32] {
        &self.order
    }

    pub fn entries(&self) -> &[Entry] {
        &self.entries
    }

    pub fn witnesses(&self) -> &Witnesses {
        &self.witnesses
    }
}

/// The hierarchy of a file: a head of 32 bytes, the order, and entries of 20 bytes each.
pub fn read(data: &[u8]) -> Hierarchy {
    let long = |at: usize| u64::from_be_bytes(data[at..at + 8].try_into().unwrap());
    let short = |at: usize| u32::from_be_bytes(data[at..at + 4].try_into().unwrap());
    let (order, entries) = (long(8) as usize, long(16) as usize);
    let entry = |k: usize| {
        let at = 32 + 4 * order + 20 * k;
        let via = Some(short(at + 16)).filter(|middle| *middle != u32::MAX);
        Entry { from: short(at), to: short(at + 4), weight: long(at + 8), via }
    };
    let order = Vec((0..order).map(|k| short(32 + 4 * k)).collect());
    let lists = Lists { order, entries: Vec((0..entries).map(entry).collect()), witnesses: Witnesses };
    lists.into_hierarchy(Global).unwrap_or_else(|_| panic!("memory"))
}

//! The calls of a store with its registry of leases, and their refusals (docs/STORE.md).

use crate::kind::Kind;

#[derive(Clone, Copy, Debug, PartialEq)]
pub enum Layer {
    Registry = 1,
    Store = 2,
    Script = 3,
}

impl Layer {
    pub fn letter(self) -> u8 {
        match self {
            Layer::Registry => b'R',
            Layer::Store => b'B',
            Layer::Script => b'S',
        }
    }
}

#[derive(Clone, Copy, Debug, PartialEq)]
pub struct Fault {
    pub number: u8,
    pub layer: Layer,
    pub place: u64,
}

impl Fault {
    const fn store(number: u8, place: u64) -> Fault {
        Fault { number, layer: Layer::Store, place }
    }

    pub fn table_size(size: u64) -> Fault {
        Fault::store(1, size)
    }

    pub fn start_high(start: u64) -> Fault {
        Fault::store(2, start)
    }

    pub fn no_record(record: u64) -> Fault {
        Fault::store(3, record)
    }

    pub fn none_open(time: u32) -> Fault {
        Fault { number: 4, layer: Layer::Registry, place: u64::from(time) }
    }

    pub fn held_by_other(record: u64) -> Fault {
        Fault::store(5, record)
    }

    pub fn row_newer(record: u64) -> Fault {
        Fault::store(6, record)
    }

    pub fn versions_used(record: u64) -> Fault {
        Fault::store(7, record)
    }

    pub fn full(capacity: usize) -> Fault {
        Fault { number: 8, layer: Layer::Registry, place: capacity as u64 }
    }

    pub fn clock_limit() -> Fault {
        Fault::store(9, u64::from(u32::MAX))
    }

    pub fn list_short(needed: usize) -> Fault {
        Fault::store(10, needed as u64)
    }
}

pub const MOST_RECORDS: u64 = 4096;
pub const MOST_VERSIONS: u64 = 16384;

/// Sizes and a start that a store can be made with.
#[derive(Clone, Copy)]
pub struct Sizes {
    pub records: usize,
    pub versions: usize,
    pub start: u32,
}

impl Sizes {
    pub fn check(records: u64, versions: u64, start: u64) -> Result<Sizes, Fault> {
        if !(1..=MOST_RECORDS).contains(&records) {
            return Err(Fault::table_size(records));
        }
        if !(1..=MOST_VERSIONS).contains(&versions) {
            return Err(Fault::table_size(versions));
        }
        let start = u32::try_from(start).map_err(|_| Fault::start_high(start))?;
        Ok(Sizes { records: records as usize, versions: versions as usize, start })
    }
}

/// A store together with its registry; a lease and a writer are written down as their times.
pub trait Store<K: Kind> {
    /// Whether Kept writes times; a history has none to write.
    const KNOWS_TIMES: bool;

    fn make(sizes: Sizes) -> Self;

    fn open(&mut self) -> Result<u32, Fault>;
    fn read(&self, time: u32, record: u64, row: &mut K::Row) -> Result<(), Fault>;
    fn close(&mut self, time: u32) -> Result<(), Fault>;
    fn begin(&mut self) -> Result<u32, Fault>;
    fn look(&self, writer: u32, record: u64, row: &mut K::Row) -> Result<(), Fault>;
    fn change(&mut self, writer: u32, record: u64, edit: &K::Edit) -> Result<(), Fault>;

    /// The clock, and how many records were finished.
    fn commit(&mut self, writer: u32) -> Result<(u32, u64), Fault>;

    /// How many records were freed.
    fn abandon(&mut self, writer: u32) -> u64;

    fn held(&self, writer: u32, list: &mut [u64]) -> Result<usize, Fault>;
    fn kept(&self, record: u64, list: &mut [u32]) -> Result<usize, Fault>;
    fn in_use(&self) -> u64;

    /// How many leases are open in all: a question to the registry, not a call.
    fn leases(&self) -> u64;

    /// The sizes of an entry of the record table and of the version table.
    fn entry_bytes() -> (usize, usize);
}

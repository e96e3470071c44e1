//! The hand-written store that prunes: fixed tables, allocated once, laid out for the passes over all records.

use crate::kind::Kind;
use crate::registry::Registry;
use crate::store::{Fault, Sizes, Store};
use crate::versions::{Versions, NONE};

/// This bit of a head says that the record is held and that its first version is the holder's change.
const HELD: u16 = 0x8000;

pub struct PruningStore<K: Kind, const CAP: usize> {
    clock: u32,
    leases: Registry<CAP>,
    versions: Versions<K>,
    /// Heads stand by themselves, so that a pass skips records without versions at two bytes each.
    heads: Box<[u16]>,
    /// Holders stand by themselves for the pass of Held; of a free record the entry means nothing.
    holders: Box<[u32]>,
    rows: Box<[K::Row]>,
    lasts: Box<[u32]>,
}

impl<K: Kind, const CAP: usize> PruningStore<K, CAP> {
    #[inline]
    fn find(&self, record: u64) -> Result<usize, Fault> {
        if record < self.heads.len() as u64 {
            Ok(record as usize)
        } else {
            Err(Fault::no_record(record))
        }
    }

    #[inline]
    fn holds(&self, writer: u32, at: usize) -> bool {
        self.heads[at] & HELD != 0 && self.holders[at] == writer
    }

    fn holds_any(&self, writer: u32) -> bool {
        (0..self.heads.len()).any(|at| self.holds(writer, at))
    }

    /// Visits the records that the writer holds, rising; holders are compared sixteen at once.
    #[inline]
    fn each_held(&self, writer: u32, mut take: impl FnMut(usize)) {
        let (blocks, rest) = self.holders.as_chunks::<16>();
        let mut look_at = |places: std::ops::Range<usize>| {
            places.filter(|&at| self.holds(writer, at)).for_each(&mut take);
        };
        for (block, holders) in blocks.iter().enumerate() {
            if holders.iter().fold(false, |any, &holder| any | (holder == writer)) {
                look_at(block * 16..block * 16 + 16);
            }
        }
        look_at(self.holders.len() - rest.len()..self.holders.len());
    }

    /// The finished row of a record as it was at the time.
    #[inline]
    fn reading(&self, at: usize, time: u32, row: &mut K::Row) {
        *row = self.rows[at];
        let mut first = self.heads[at];
        if first & HELD != 0 {
            first &= !HELD;
            K::undo(row, self.versions.change(first));
            first = self.versions.next(first);
        }
        self.versions.undo_above(first, time, row);
    }

    fn hold(&mut self, writer: u32, at: usize, edit: &K::Edit) {
        let change = K::edit(&mut self.rows[at], edit);
        self.heads[at] = HELD | self.versions.push(self.heads[at], change);
        self.holders[at] = writer;
    }
}

/// Prunes one chain; behind a holder's change it starts from the row that this change leads back to.
#[inline]
fn prune_one<K: Kind, const CAP: usize>(
    versions: &mut Versions<K>,
    leases: &Registry<CAP>,
    head: &mut u16,
    row: &K::Row,
) {
    if *head & HELD == 0 {
        *head = versions.prune(*head, *row, leases);
        return;
    }
    let holding = *head & !HELD;
    let behind = versions.next(holding);
    if behind != NONE {
        let mut row = *row;
        K::undo(&mut row, versions.change(holding));
        let pruned = versions.prune(behind, row, leases);
        versions.set_next(holding, pruned);
    }
}

impl<K: Kind, const CAP: usize> Store<K> for PruningStore<K, CAP> {
    const KNOWS_TIMES: bool = true;

    fn make(sizes: Sizes) -> Self {
        PruningStore {
            clock: sizes.start,
            leases: Registry::empty(),
            versions: Versions::make(sizes.versions),
            heads: vec![NONE; sizes.records].into_boxed_slice(),
            holders: vec![0; sizes.records].into_boxed_slice(),
            rows: vec![K::blank(); sizes.records].into_boxed_slice(),
            lasts: vec![sizes.start; sizes.records].into_boxed_slice(),
        }
    }

    fn open(&mut self) -> Result<u32, Fault> {
        self.leases.check_room()?;
        self.leases.add(self.clock);
        Ok(self.clock)
    }

    #[inline]
    fn read(&self, time: u32, record: u64, row: &mut K::Row) -> Result<(), Fault> {
        let at = self.find(record)?;
        self.leases.check_open(time)?;
        self.reading(at, time, row);
        Ok(())
    }

    fn close(&mut self, time: u32) -> Result<(), Fault> {
        self.leases.remove(time)?;
        for (head, row) in self.heads.iter_mut().zip(&self.rows) {
            if *head != NONE {
                prune_one(&mut self.versions, &self.leases, head, row);
            }
        }
        Ok(())
    }

    fn begin(&mut self) -> Result<u32, Fault> {
        if self.clock == u32::MAX {
            return Err(Fault::clock_limit());
        }
        self.leases.check_room()?;
        self.clock += 1;
        self.leases.add(self.clock);
        Ok(self.clock)
    }

    #[inline]
    fn look(&self, writer: u32, record: u64, row: &mut K::Row) -> Result<(), Fault> {
        let at = self.find(record)?;
        self.leases.check_open(writer)?;
        if self.holds(writer, at) {
            *row = self.rows[at];
        } else {
            self.reading(at, writer, row);
        }
        Ok(())
    }

    #[inline]
    fn change(&mut self, writer: u32, record: u64, edit: &K::Edit) -> Result<(), Fault> {
        let at = self.find(record)?;
        self.leases.check_open(writer)?;
        let head = self.heads[at];
        if head & HELD != 0 {
            if self.holders[at] != writer {
                return Err(Fault::held_by_other(record));
            }
            let newer = K::edit(&mut self.rows[at], edit);
            let change = self.versions.change_mut(head & !HELD);
            *change = K::join(&newer, change);
            return Ok(());
        }
        if self.lasts[at] > writer {
            return Err(Fault::row_newer(record));
        }
        if self.versions.is_full() {
            return Err(Fault::versions_used(record));
        }
        self.hold(writer, at, edit);
        Ok(())
    }

    /// One pass finishes what the writer holds and prunes every chain, with the writer's lease gone.
    fn commit(&mut self, writer: u32) -> Result<(u32, u64), Fault> {
        self.leases.check_open(writer)?;
        if self.clock == u32::MAX && self.holds_any(writer) {
            return Err(Fault::clock_limit());
        }
        self.leases.remove(writer)?;
        let stamp = self.clock.wrapping_add(1);
        let mut finished = 0;
        for (at, (head, row)) in self.heads.iter_mut().zip(&self.rows).enumerate() {
            if *head == NONE {
                continue;
            }
            if *head & HELD != 0 && self.holders[at] == writer {
                *head &= !HELD;
                self.versions.stamp(*head, stamp);
                self.lasts[at] = stamp;
                finished += 1;
            }
            prune_one(&mut self.versions, &self.leases, head, row);
        }
        if finished > 0 {
            self.clock = stamp;
        }
        Ok((self.clock, finished))
    }

    fn abandon(&mut self, writer: u32) -> u64 {
        // Without a lease the records are freed all the same.
        let _ = self.leases.remove(writer);
        let mut freed = 0;
        for (at, (head, row)) in self.heads.iter_mut().zip(&mut self.rows).enumerate() {
            if *head & HELD != 0 && self.holders[at] == writer {
                let holding = *head & !HELD;
                K::undo(row, self.versions.change(holding));
                *head = self.versions.next(holding);
                self.versions.release(holding);
                freed += 1;
            }
            if *head != NONE {
                prune_one(&mut self.versions, &self.leases, head, row);
            }
        }
        freed
    }

    fn held(&self, writer: u32, list: &mut [u64]) -> Result<usize, Fault> {
        let mut count = 0;
        self.each_held(writer, |_| count += 1);
        if count > list.len() {
            return Err(Fault::list_short(count));
        }
        let mut places = list.iter_mut();
        self.each_held(writer, |at| {
            if let Some(place) = places.next() {
                *place = at as u64;
            }
        });
        Ok(count)
    }

    fn kept(&self, record: u64, list: &mut [u32]) -> Result<usize, Fault> {
        let at = self.find(record)?;
        let mut first = self.heads[at];
        if first & HELD != 0 {
            first = self.versions.next(first & !HELD);
        }
        let count = self.versions.length(first);
        let list = list.get_mut(..count).ok_or(Fault::list_short(count))?;
        self.versions.write_times(first, list);
        Ok(count)
    }

    fn in_use(&self) -> u64 {
        self.versions.used() as u64
    }

    fn leases(&self) -> u64 {
        self.leases.total()
    }

    fn entry_bytes() -> (usize, usize) {
        let record = size_of::<u16>() + 2 * size_of::<u32>() + size_of::<K::Row>();
        (record, Versions::<K>::entry_bytes())
    }
}

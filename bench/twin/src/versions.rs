//! The version table of the pruning store: all chains in fixed arrays, and the pruning of one chain.

use crate::kind::Kind;
use crate::registry::Registry;

/// A link to a version is its index; this one leads nowhere and is no index of the largest table.
pub const NONE: u16 = 0x7fff;

/// What a walk along a chain needs of each version, apart from the change itself.
#[derive(Clone, Copy)]
struct Mark {
    time: u32,
    next: u16,
}

pub struct Versions<K: Kind> {
    marks: Box<[Mark]>,
    changes: Box<[K::Change]>,
    /// The first unused version; the others follow through the same links as the chains.
    free: u16,
    used: usize,
}

impl<K: Kind> Versions<K> {
    pub fn make(size: usize) -> Self {
        let link = |next: usize| if next < size { next as u16 } else { NONE };
        Versions {
            marks: (0..size).map(|i| Mark { time: 0, next: link(i + 1) }).collect(),
            changes: vec![K::no_change(); size].into_boxed_slice(),
            free: 0,
            used: 0,
        }
    }

    pub fn entry_bytes() -> usize {
        size_of::<Mark>() + size_of::<K::Change>()
    }

    #[inline]
    pub fn used(&self) -> usize {
        self.used
    }

    #[inline]
    pub fn is_full(&self) -> bool {
        self.free == NONE
    }

    #[inline]
    pub fn next(&self, at: u16) -> u16 {
        self.marks[usize::from(at)].next
    }

    #[inline]
    pub fn set_next(&mut self, at: u16, next: u16) {
        self.marks[usize::from(at)].next = next;
    }

    #[inline]
    pub fn change(&self, at: u16) -> &K::Change {
        &self.changes[usize::from(at)]
    }

    #[inline]
    pub fn change_mut(&mut self, at: u16) -> &mut K::Change {
        &mut self.changes[usize::from(at)]
    }

    #[inline]
    pub fn stamp(&mut self, at: u16, time: u32) {
        self.marks[usize::from(at)].time = time;
    }

    /// Takes an unused version and puts it before `first`; the caller has made sure that there is one.
    #[inline]
    pub fn push(&mut self, first: u16, change: K::Change) -> u16 {
        let at = self.free;
        let mark = &mut self.marks[usize::from(at)];
        self.free = mark.next;
        mark.next = first;
        self.changes[usize::from(at)] = change;
        self.used += 1;
        at
    }

    #[inline]
    pub fn release(&mut self, at: u16) {
        self.marks[usize::from(at)].next = self.free;
        self.free = at;
        self.used -= 1;
    }

    /// Undoes from `first` on every version above the time; times fall, so the first other one ends it.
    #[inline]
    pub fn undo_above(&self, first: u16, time: u32, row: &mut K::Row) {
        let mut at = first;
        while at != NONE {
            let mark = self.marks[usize::from(at)];
            if mark.time <= time {
                return;
            }
            K::undo(row, self.change(at));
            at = mark.next;
        }
    }

    pub fn length(&self, first: u16) -> usize {
        let (mut at, mut count) = (first, 0);
        while at != NONE {
            at = self.next(at);
            count += 1;
        }
        count
    }

    /// Writes the times of the chain, newest first, as far as the list has places.
    pub fn write_times(&self, first: u16, list: &mut [u32]) {
        let mut at = first;
        for place in list {
            let mark = self.marks[usize::from(at)];
            *place = mark.time;
            at = mark.next;
        }
    }

    /// Prunes the chain that begins at `first`, from the row before it, and answers its new beginning.
    #[inline]
    pub fn prune<const CAP: usize>(&mut self, first: u16, mut row: K::Row, leases: &Registry<CAP>) -> u16 {
        let (mut first, mut before, mut at) = (first, NONE, first);
        let mut open = self.open_below(at, leases);
        while at != NONE {
            let next = self.next(at);
            let open_next = self.open_below(next, leases);
            // More times are open below this version than below the next: one of them lies in its gap.
            if open > open_next && K::undo_tells(&mut row, self.change(at)) {
                before = at;
            } else {
                if open == open_next && next != NONE {
                    self.join_into(next, at);
                }
                self.relink(&mut first, before, next);
                self.release(at);
            }
            at = next;
            open = open_next;
        }
        first
    }

    #[inline(always)]
    fn open_below<const CAP: usize>(&self, at: u16, leases: &Registry<CAP>) -> usize {
        if at == NONE {
            0
        } else {
            leases.below(self.marks[usize::from(at)].time)
        }
    }

    #[inline]
    fn join_into(&mut self, next: u16, at: u16) {
        self.changes[usize::from(next)] = K::join(self.change(at), self.change(next));
        self.marks[usize::from(next)].time = self.marks[usize::from(at)].time;
    }

    #[inline]
    fn relink(&mut self, first: &mut u16, before: u16, next: u16) {
        if before == NONE {
            *first = next;
        } else {
            self.marks[usize::from(before)].next = next;
        }
    }
}

//! The registry of the pruning store: each open time once, rising, with its number of leases.

use crate::store::Fault;

pub struct Registry<const CAP: usize> {
    /// Unused places hold the greatest time: no time lies above it, so they never count as below one.
    times: [u32; CAP],
    counts: [u8; CAP],
    len: usize,
    total: usize,
}

impl<const CAP: usize> Registry<CAP> {
    pub fn empty() -> Self {
        Registry { times: [u32::MAX; CAP], counts: [0; CAP], len: 0, total: 0 }
    }

    /// How many distinct open times lie below this one; a fixed pass that the compiler turns into vectors.
    #[inline(always)]
    pub fn below(&self, time: u32) -> usize {
        let mut place = 0;
        let mut step = CAP / 2;
        while step > 0 {
            if self.times[place + step - 1] < time {
                place += step;
            }
            step /= 2;
        }
        place + usize::from(self.times[place] < time)
    }

    #[inline]
    fn place(&self, time: u32) -> Option<usize> {
        let place = self.below(time);
        (place < self.len && self.times[place] == time).then_some(place)
    }

    #[inline]
    pub fn check_open(&self, time: u32) -> Result<(), Fault> {
        match self.place(time) {
            Some(_) => Ok(()),
            None => Err(Fault::none_open(time)),
        }
    }

    pub fn check_room(&self) -> Result<(), Fault> {
        if self.total == CAP {
            return Err(Fault::full(CAP));
        }
        Ok(())
    }

    /// Opens a lease; the caller has made sure that there is room.
    pub fn add(&mut self, time: u32) {
        self.total += 1;
        if let Some(place) = self.place(time) {
            self.counts[place] += 1;
            return;
        }
        let place = self.below(time);
        self.times.copy_within(place..self.len, place + 1);
        self.counts.copy_within(place..self.len, place + 1);
        self.times[place] = time;
        self.counts[place] = 1;
        self.len += 1;
    }

    pub fn remove(&mut self, time: u32) -> Result<(), Fault> {
        let place = self.place(time).ok_or(Fault::none_open(time))?;
        self.total -= 1;
        self.counts[place] -= 1;
        if self.counts[place] == 0 {
            self.times.copy_within(place + 1..self.len, place);
            self.counts.copy_within(place + 1..self.len, place);
            self.len -= 1;
            self.times[self.len] = u32::MAX;
        }
        Ok(())
    }

    pub fn total(&self) -> u64 {
        self.total as u64
    }
}

//! One run of a phase on one store: its own lists, and the calls in timed batches.

use std::marker::PhantomData;

use super::draw::{Draw, Style};
use super::meter::{Meter, Sort};
use crate::random::Random;
use crate::store::{Fault, Sizes, Store};

/// The most calls in one timed batch, and the places of each buffer of answers.
pub const BATCH: usize = 64;

#[derive(Clone, Copy)]
pub struct Change<E> {
    pub writer: u32,
    pub record: u64,
    pub edit: E,
}

pub struct Run<K: Draw, S: Store<K>> {
    pub store: S,
    pub random: Random,
    pub meter: Meter,
    pub records: u64,
    /// The times of the open reports, in the order in which they were opened.
    pub reports: Vec<u32>,
    /// The writers that go on into the next round.
    pub carried: Vec<u32>,
    kind: PhantomData<K>,
}

impl<K: Draw, S: Store<K>> Run<K, S> {
    pub fn new(sizes: Sizes, seed: u64, timing: bool) -> Self {
        Run {
            store: S::make(sizes),
            random: Random(seed),
            meter: Meter::new(timing),
            records: sizes.records as u64,
            reports: Vec::with_capacity(32),
            carried: Vec::with_capacity(2),
            kind: PhantomData,
        }
    }

    /// A report's time, or 0 if there is none.
    pub fn draw_report(&mut self) -> u32 {
        if self.reports.is_empty() {
            return 0;
        }
        self.reports[self.random.place(self.reports.len())]
    }

    pub fn draw_change(&mut self, writer: u32, record: u64, style: Style) -> Change<K::Edit> {
        Change { writer, record, edit: K::draw(&mut self.random, style) }
    }

    fn take_time(&mut self, sort: Sort, outcome: &Result<u32, Fault>) {
        match outcome {
            Ok(time) => self.meter.accepted(sort, &[u64::from(*time)]),
            Err(fault) => self.meter.refused(sort, fault),
        }
    }

    /// Opens a report, and notes its time if it is accepted.
    pub fn open(&mut self) {
        let start = self.meter.start();
        let mut outcome = self.store.open();
        self.meter.stop(Sort::Open, start, &mut outcome);
        self.take_time(Sort::Open, &outcome);
        self.reports.extend(outcome);
    }

    /// Begins so many writers, at most four, and notes the accepted ones.
    pub fn begin(&mut self, count: usize, writers: &mut Vec<u32>) {
        let mut outcomes = [Ok(0); 4];
        let outcomes = &mut outcomes[..count];
        let start = self.meter.start();
        for outcome in outcomes.iter_mut() {
            *outcome = self.store.begin();
        }
        self.meter.stop(Sort::Begin, start, &mut &mut *outcomes);
        for outcome in outcomes.iter() {
            self.take_time(Sort::Begin, outcome);
            writers.extend(*outcome);
        }
    }

    pub fn change(&mut self, changes: &[Change<K::Edit>]) {
        let mut outcomes = [Ok(()); BATCH];
        let start = self.meter.start();
        for (outcome, change) in outcomes.iter_mut().zip(changes) {
            *outcome = self.store.change(change.writer, change.record, &change.edit);
        }
        self.meter.stop(Sort::Change, start, &mut outcomes);
        for outcome in &outcomes[..changes.len()] {
            self.meter.done(Sort::Change, outcome);
        }
    }

    pub fn look(&mut self, changes: &[Change<K::Edit>]) {
        let mut places = [(Ok(()), K::blank()); BATCH];
        let start = self.meter.start();
        for ((outcome, row), change) in places.iter_mut().zip(changes) {
            *outcome = self.store.look(change.writer, change.record, row);
        }
        self.meter.stop(Sort::Look, start, &mut places);
        for (outcome, row) in &places[..changes.len()] {
            self.meter.row::<K>(Sort::Look, outcome, row);
        }
    }

    /// Reads each record at the time beside it.
    pub fn read(&mut self, asked: &[(u32, u64)]) {
        let mut places = [(Ok(()), K::blank()); BATCH];
        let start = self.meter.start();
        for ((outcome, row), &(time, record)) in places.iter_mut().zip(asked) {
            *outcome = self.store.read(time, record, row);
        }
        self.meter.stop(Sort::Read, start, &mut places);
        for (outcome, row) in &places[..asked.len()] {
            self.meter.row::<K>(Sort::Read, outcome, row);
        }
    }

    pub fn close(&mut self, time: u32) {
        let start = self.meter.start();
        let mut outcome = self.store.close(time);
        self.meter.stop(Sort::Close, start, &mut outcome);
        self.meter.done(Sort::Close, &outcome);
    }

    pub fn commit(&mut self, writer: u32) {
        let start = self.meter.start();
        let mut outcome = self.store.commit(writer);
        self.meter.stop(Sort::Commit, start, &mut outcome);
        match outcome {
            Ok((clock, finished)) => self.meter.accepted(Sort::Commit, &[u64::from(clock), finished]),
            Err(fault) => self.meter.refused(Sort::Commit, &fault),
        }
    }

    pub fn abandon(&mut self, writer: u32) {
        let start = self.meter.start();
        let mut freed = self.store.abandon(writer);
        self.meter.stop(Sort::Abandon, start, &mut freed);
        self.meter.accepted(Sort::Abandon, &[freed]);
    }

    /// Asks what each writer holds, with a list of the length beside it.
    pub fn held(&mut self, asked: &[(u32, usize)]) {
        let mut places = [(Ok(0), [0; BATCH]); 8];
        let start = self.meter.start();
        for ((outcome, list), &(writer, length)) in places.iter_mut().zip(asked) {
            *outcome = self.store.held(writer, &mut list[..length]);
        }
        self.meter.stop(Sort::Held, start, &mut places);
        for (outcome, list) in &mut places[..asked.len()] {
            match outcome {
                Ok(count) => {
                    let mut numbers = [0; BATCH + 1];
                    numbers[0] = *count as u64;
                    numbers[1..].copy_from_slice(list);
                    self.meter.accepted(Sort::Held, &numbers[..=*count]);
                }
                Err(fault) => self.meter.refused(Sort::Held, fault),
            }
        }
    }

    /// Asks for the versions of each record, with a list of the length beside it.
    pub fn kept(&mut self, asked: &[(u64, usize)]) {
        let mut places = [(Ok(0), [0; BATCH]); 4];
        let start = self.meter.start();
        for ((outcome, list), &(record, length)) in places.iter_mut().zip(asked) {
            *outcome = self.store.kept(record, &mut list[..length]);
        }
        self.meter.stop(Sort::Kept, start, &mut places);
        for (outcome, list) in &places[..asked.len()] {
            self.meter.kept(outcome, list);
        }
    }

    pub fn in_use(&mut self) {
        let start = self.meter.start();
        let mut answer = self.store.in_use();
        self.meter.stop(Sort::InUse, start, &mut answer);
        self.meter.in_use(answer);
    }

    /// The end of a run: every report reads every record, and then all leases go.
    pub fn end(&mut self) {
        for i in 0..self.reports.len() {
            self.read_all(self.reports[i]);
        }
        for time in std::mem::take(&mut self.reports) {
            self.close(time);
        }
        for writer in std::mem::take(&mut self.carried) {
            self.abandon(writer);
        }
        self.in_use();
    }

    fn read_all(&mut self, time: u32) {
        let mut asked = [(time, 0); BATCH];
        for first in (0..self.records).step_by(BATCH) {
            let count = (self.records - first).min(BATCH as u64) as usize;
            for (record, ask) in (first..).zip(&mut asked[..count]) {
                ask.1 = record;
            }
            self.read(&asked[..count]);
        }
    }
}

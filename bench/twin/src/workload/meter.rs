//! What a run counts: calls, refusals, the peak, both checksums, and the time that calls took.

use std::hint::black_box;
use std::io::{self, Write};
use std::time::Instant;

use crate::kind::Kind;
use crate::random::Checksum;
use crate::store::Fault;

#[derive(Clone, Copy)]
pub enum Sort {
    Open,
    Read,
    Close,
    Begin,
    Look,
    Change,
    Commit,
    Abandon,
    Held,
    Kept,
    InUse,
}

const NAMES: [&str; 11] =
    ["open", "read", "close", "begin", "look", "change", "commit", "abandon", "held", "kept", "in-use"];

pub struct Meter {
    calls: [u64; 11],
    refused: [u64; 11],
    peak: u64,
    answers: Checksum,
    times: Checksum,
    nanos: [u64; 11],
    timing: bool,
}

impl Meter {
    pub fn new(timing: bool) -> Meter {
        Meter {
            calls: [0; 11],
            refused: [0; 11],
            peak: 0,
            answers: Checksum::default(),
            times: Checksum::default(),
            nanos: [0; 11],
            timing,
        }
    }

    #[inline]
    pub fn start(&self) -> Option<Instant> {
        self.timing.then(Instant::now)
    }

    /// Ends a timed step; its answers must be there by now, so the compiler may not put them off.
    #[inline]
    pub fn stop<A>(&mut self, sort: Sort, start: Option<Instant>, answers: &mut A) {
        black_box(answers);
        if let Some(start) = start {
            self.nanos[sort as usize] += start.elapsed().as_nanos() as u64;
        }
    }

    pub fn accepted(&mut self, sort: Sort, numbers: &[u64]) {
        self.calls[sort as usize] += 1;
        self.answers.take(sort as u64);
        for &number in numbers {
            self.answers.take(number);
        }
    }

    pub fn refused(&mut self, sort: Sort, fault: &Fault) {
        self.calls[sort as usize] += 1;
        self.refused[usize::from(fault.number)] += 1;
        self.answers.take(100 + u64::from(fault.number));
        self.answers.take(fault.layer as u64);
        self.answers.take(fault.place);
    }

    /// A call that answers nothing but its acceptance.
    pub fn done(&mut self, sort: Sort, outcome: &Result<(), Fault>) {
        match outcome {
            Ok(()) => self.accepted(sort, &[]),
            Err(fault) => self.refused(sort, fault),
        }
    }

    pub fn row<K: Kind>(&mut self, sort: Sort, outcome: &Result<(), Fault>, row: &K::Row) {
        self.done(sort, outcome);
        K::tells(row, |number| self.answers.take(number));
    }

    pub fn kept(&mut self, outcome: &Result<usize, Fault>, list: &[u32]) {
        match outcome {
            Ok(count) => {
                self.accepted(Sort::Kept, &[*count as u64]);
                for &time in &list[..*count] {
                    self.times.take(u64::from(time));
                }
            }
            Err(fault) => self.refused(Sort::Kept, fault),
        }
    }

    pub fn in_use(&mut self, answer: u64) {
        self.accepted(Sort::InUse, &[answer]);
        self.peak = self.peak.max(answer);
    }

    pub fn print(&self, out: &mut impl Write, knows_times: bool) -> io::Result<()> {
        write!(out, "calls")?;
        for (name, calls) in NAMES.iter().zip(self.calls) {
            write!(out, " {name} {calls}")?;
        }
        write!(out, "\nrefused")?;
        for number in 1..=10 {
            write!(out, " {number}:{}", self.refused[number])?;
        }
        writeln!(out, "\npeak {}", self.peak)?;
        if knows_times {
            writeln!(out, "answers {} times {}", self.answers.0, self.times.0)
        } else {
            writeln!(out, "answers {} times -", self.answers.0)
        }
    }

    pub fn print_times(&self, out: &mut impl Write) -> io::Result<()> {
        for (sort, name) in NAMES.iter().enumerate() {
            let (calls, nanos) = (self.calls[sort], self.nanos[sort]);
            if calls > 0 {
                let rate = u128::from(calls) * 1_000_000_000 / u128::from(nanos.max(1));
                writeln!(out, "time {name} calls {calls} ns {nanos} per-second {rate}")?;
            }
        }
        Ok(())
    }
}

//! The phases that consist of rounds (docs/BENCH.md, "Rounds").

use super::draw::{Draw, Style};
use super::run::{Change, Run, BATCH};
use crate::store::Store;

const MOST_REPORTS: usize = 30;

/// A row of the table of phases.
pub struct Mix {
    open: u64,
    close: u64,
    writers: u64,
    /// None where any style may be drawn.
    style: Option<Style>,
    hot: u64,
    abandon: u64,
    carry: u64,
}

impl Mix {
    pub fn new(name: &str, records: u64) -> Mix {
        let hot = |divisor: u64| (records / divisor + 1).min(records);
        let mixed = Mix { open: 8, close: 10, writers: 2, style: None, hot: hot(16), abandon: 2, carry: 2 };
        match name {
            "whole" => Mix { style: Some(Style::Whole), abandon: 1, carry: 1, ..mixed },
            "back" => Mix { style: Some(Style::Back), hot: hot(64), abandon: 1, carry: 1, ..mixed },
            "contend" => Mix { writers: 4, hot: hot(512), abandon: 6, carry: 4, ..mixed },
            "fill" => {
                let (open, close) = (records / 32 + 1, records / 24 + 1);
                Mix { open, close, hot: hot(1), abandon: 1, carry: 1, ..mixed }
            }
            _ => mixed,
        }
    }
}

impl<K: Draw, S: Store<K>> Run<K, S> {
    pub fn rounds(&mut self, mix: &Mix, rounds: u64) {
        for _ in 0..rounds {
            self.round(mix);
        }
        self.end();
    }

    fn round(&mut self, mix: &Mix) {
        if self.random.below(mix.open) == 0 && self.reports.len() < MOST_REPORTS {
            self.open();
        }
        let mut writers = std::mem::take(&mut self.carried);
        let new = 1 + self.random.place(mix.writers as usize);
        self.begin(new, &mut writers);
        let changes = self.draw_changes(mix, &writers);
        self.change(&changes);
        self.look(&changes);
        self.held_step(&writers);
        self.end_step(mix, &writers);
        self.read_step(mix);
        self.kept_step(mix);
        self.close_step(mix);
        self.in_use();
    }

    fn draw_record(&mut self, mix: &Mix) -> u64 {
        let which = self.random.below(64);
        if which == 0 {
            self.records
        } else if which % 2 == 0 {
            self.random.below(mix.hot)
        } else {
            self.random.below(self.records)
        }
    }

    fn draw_changes(&mut self, mix: &Mix, writers: &[u32]) -> Vec<Change<K::Edit>> {
        let mut changes = Vec::with_capacity(BATCH);
        let counts: Vec<u64> = writers.iter().map(|_| 1 + self.random.below(8)).collect();
        for (&writer, count) in writers.iter().zip(counts) {
            for _ in 0..count {
                if changes.len() == BATCH {
                    return changes;
                }
                let record = self.draw_record(mix);
                let style = mix.style.unwrap_or_else(|| Style::any(&mut self.random));
                changes.push(self.draw_change(writer, record, style));
            }
        }
        changes
    }

    /// A length of a list: the short one for one draw out of eight.
    fn draw_length(&mut self, short: usize) -> usize {
        if self.random.below(8) == 0 {
            short
        } else {
            BATCH
        }
    }

    fn held_step(&mut self, writers: &[u32]) {
        let asked: Vec<_> = writers.iter().map(|&writer| (writer, self.draw_length(2))).collect();
        self.held(&asked);
    }

    fn end_step(&mut self, mix: &Mix, writers: &[u32]) {
        let draws: Vec<u64> = writers.iter().map(|_| self.random.below(16)).collect();
        for (&writer, draw) in writers.iter().zip(draws) {
            if draw < mix.abandon {
                self.abandon(writer);
            } else if draw < mix.abandon + mix.carry && self.carried.len() < 2 {
                self.carried.push(writer);
            } else {
                self.commit(writer);
            }
        }
    }

    fn read_step(&mut self, mix: &Mix) {
        let mut asked = [(0, 0); BATCH];
        for ask in &mut asked {
            let time = if self.random.below(64) == 0 { u32::MAX } else { self.draw_report() };
            *ask = (time, self.draw_record(mix));
        }
        self.read(&asked);
    }

    fn kept_step(&mut self, mix: &Mix) {
        let mut asked = [(0, 0); 4];
        for ask in &mut asked {
            *ask = (self.draw_record(mix), self.draw_length(1));
        }
        self.kept(&asked);
    }

    fn close_step(&mut self, mix: &Mix) {
        let wanted = self.random.below(mix.close) == 0;
        let count = self.reports.len();
        if (wanted || count == MOST_REPORTS) && count > 0 {
            let (one, other) = (self.random.place(count), self.random.place(count));
            let time = self.reports.remove(one.max(other));
            self.close(time);
        }
    }
}

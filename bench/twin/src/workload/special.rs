//! The phases `near`, `far` and `old` (docs/BENCH.md, "Three more phases").

use super::draw::{Draw, Style};
use super::run::{Run, BATCH};
use crate::store::Store;

impl<K: Draw, S: Store<K>> Run<K, S> {
    /// Three versions behind every record, and then reads of one record or of all.
    pub fn reads(&mut self, near: bool, rounds: u64) {
        for _ in 0..3 {
            self.open();
            self.change_all();
        }
        let mut asked = [(0, 0); BATCH];
        for _ in 0..rounds {
            for ask in &mut asked {
                let time = self.draw_report();
                *ask = (time, if near { 0 } else { self.random.below(self.records) });
            }
            self.read(&asked);
        }
        self.end();
    }

    /// One writer changes every record once.
    fn change_all(&mut self) {
        let mut writers = Vec::with_capacity(1);
        self.begin(1, &mut writers);
        let Some(&writer) = writers.first() else { return };
        let mut changes = Vec::with_capacity(BATCH);
        for record in 0..self.records {
            changes.push(self.draw_change(writer, record, Style::One));
            if changes.len() == BATCH || record + 1 == self.records {
                self.change(&changes);
                changes.clear();
            }
        }
        self.commit(writer);
    }

    /// One reader stays while one record is changed.
    pub fn old(&mut self, rounds: u64) {
        self.open();
        let mut writers = Vec::with_capacity(1);
        for _ in 0..rounds {
            writers.clear();
            self.begin(1, &mut writers);
            if let Some(&writer) = writers.first() {
                let change = self.draw_change(writer, 0, Style::One);
                self.change(&[change]);
                self.commit(writer);
            }
        }
        self.kept(&[(0, BATCH)]);
        self.in_use();
        self.end();
    }
}

//! Tallies: a row of four counters; an edit adds to them, and its change is what it added.

use crate::kind::Kind;

pub struct Tallies;

pub type Four = [u64; 4];

#[inline(always)]
fn each(left: &Four, right: &Four, combine: impl Fn(u64, u64) -> u64) -> Four {
    std::array::from_fn(|i| combine(left[i], right[i]))
}

impl Kind for Tallies {
    type Row = Four;
    type Edit = Four;
    type Change = Four;

    const NAME: &'static str = "tallies";

    fn blank() -> Four {
        [0; 4]
    }

    fn no_change() -> Four {
        [0; 4]
    }

    #[inline]
    fn edit(row: &mut Four, edit: &Four) -> Four {
        *row = each(row, edit, u64::wrapping_add);
        *edit
    }

    #[inline]
    fn undo(row: &mut Four, change: &Four) {
        *row = each(row, change, u64::wrapping_sub);
    }

    /// What is subtracted decides alone whether the row tells otherwise, so no row is compared.
    #[inline]
    fn undo_tells(row: &mut Four, change: &Four) -> bool {
        Self::undo(row, change);
        change.iter().fold(0, |all, &added| all | added) != 0
    }

    #[inline]
    fn join(newer: &Four, older: &Four) -> Four {
        each(newer, older, u64::wrapping_add)
    }

    #[inline]
    fn tells(row: &Four, mut take: impl FnMut(u64)) {
        for &counter in row {
            take(counter);
        }
    }
}

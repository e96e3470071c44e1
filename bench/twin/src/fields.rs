//! Fields: a row of eight attributes; a change is a before-image of the attributes in its mask.

use std::array;

use crate::kind::Kind;

pub struct Fields;

pub type FieldsRow = [u32; 8];

/// An edit and a change have one shape: the attributes in the mask are to be set to the values.
#[derive(Clone, Copy, Debug, PartialEq)]
pub struct Masked {
    pub values: [u32; 8],
    /// Eight bits; as wide as a value, for then the compiler compares it with all attributes at once.
    pub mask: u32,
}

const BITS: [u32; 8] = [1, 2, 4, 8, 16, 32, 64, 128];

/// All ones for each attribute in the mask, so that the functions below have no branches.
#[inline(always)]
fn lanes(mask: u32) -> [u32; 8] {
    BITS.map(|bit| if mask & bit != 0 { u32::MAX } else { 0 })
}

/// What must be flipped in each attribute of the row so that it is as the values say.
#[inline(always)]
fn flips(row: &FieldsRow, set: &Masked) -> [u32; 8] {
    let lanes = lanes(set.mask);
    array::from_fn(|i| (row[i] ^ set.values[i]) & lanes[i])
}

#[inline(always)]
fn flip(row: &mut FieldsRow, flips: &[u32; 8]) {
    for i in 0..8 {
        row[i] ^= flips[i];
    }
}

impl Kind for Fields {
    type Row = FieldsRow;
    type Edit = Masked;
    type Change = Masked;

    const NAME: &'static str = "fields";

    fn blank() -> FieldsRow {
        [0; 8]
    }

    fn no_change() -> Masked {
        Masked { values: [0; 8], mask: 0 }
    }

    #[inline]
    fn edit(row: &mut FieldsRow, edit: &Masked) -> Masked {
        let lanes = lanes(edit.mask);
        let before = array::from_fn(|i| row[i] & lanes[i]);
        let flips = flips(row, edit);
        flip(row, &flips);
        Masked { values: before, mask: edit.mask }
    }

    #[inline]
    fn undo(row: &mut FieldsRow, change: &Masked) {
        let flips = flips(row, change);
        flip(row, &flips);
    }

    #[inline]
    fn undo_tells(row: &mut FieldsRow, change: &Masked) -> bool {
        let flips = flips(row, change);
        flip(row, &flips);
        flips.iter().fold(0, |any, &bits| any | bits) != 0
    }

    /// Where both have a value the older one stands, since it is undone last.
    #[inline]
    fn join(newer: &Masked, older: &Masked) -> Masked {
        let mut values = newer.values;
        Self::undo(&mut values, older);
        Masked { values, mask: newer.mask | older.mask }
    }

    #[inline]
    fn tells(row: &FieldsRow, mut take: impl FnMut(u64)) {
        for &attribute in row {
            take(u64::from(attribute));
        }
    }
}

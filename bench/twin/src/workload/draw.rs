//! The drawing of edits (docs/BENCH.md, "An edit is drawn so").

use crate::fields::{Fields, Masked};
use crate::kind::Kind;
use crate::random::Random;
use crate::tallies::{Four, Tallies};

#[derive(Clone, Copy)]
pub enum Style {
    Whole,
    Back,
    One,
    Some,
}

impl Style {
    pub fn any(random: &mut Random) -> Style {
        [Style::Whole, Style::Back, Style::One, Style::Some][random.place(4)]
    }
}

pub trait Draw: Kind {
    fn draw(random: &mut Random, style: Style) -> Self::Edit;
}

impl Draw for Fields {
    fn draw(random: &mut Random, style: Style) -> Masked {
        let mask = match style {
            Style::Whole => 255,
            Style::Back | Style::One => 1 << random.below(8),
            Style::Some => random.below(256) as u32,
        };
        let values = std::array::from_fn(|_| match style {
            Style::Back => random.below(2) as u32,
            _ => random.wide(),
        });
        Masked { values, mask }
    }
}

impl Draw for Tallies {
    fn draw(random: &mut Random, style: Style) -> Four {
        match style {
            Style::Whole => std::array::from_fn(|_| random.next()),
            Style::Back => std::array::from_fn(|_| [0, 1, u64::MAX][random.place(3)]),
            Style::One => {
                let mut values = [0; 4];
                // The place is drawn first: an assignment would evaluate its right side before its index.
                let counter = random.place(4);
                values[counter] = random.next();
                values
            }
            Style::Some => std::array::from_fn(|_| random.below(1000)),
        }
    }
}

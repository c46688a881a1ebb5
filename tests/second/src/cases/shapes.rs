//! Sides, legal and not, with the length that a careless product would ask for.

use super::dice::Dice;

#[derive(Clone, Copy)]
pub struct Shape {
    pub width: usize,
    pub height: usize,
}

impl Shape {
    /// The wrapped product where it is short, so that only the sides are wrong; else 4.
    pub fn sites(self) -> usize {
        let product = self.width.wrapping_mul(self.height);
        if product <= 20_000 {
            product
        } else {
            4
        }
    }
}

const BAD_SIDES: &[usize] = &[
    0,
    1,
    3,
    7,
    127,
    129,
    130,
    132,
    256,
    1 << 32,
    (1 << 32) + 2,
    (1 << 32) + 4,
    1 << 63,
    (1 << 63) + 2,
    (1 << 63) - 2,
    usize::MAX - 1,
    usize::MAX,
];

/// Their products wrap to a small number, or their low halves look legal.
const BAD_PAIRS: &[(usize, usize)] = &[
    (1 << 32, 1 << 32),
    (1 << 63, 2),
    ((1 << 63) + 2, 2),
    ((1 << 62) + 2, 4),
    (usize::MAX - 1, usize::MAX - 1),
    (usize::MAX, usize::MAX),
    ((1 << 32) + 2, (1 << 32) + 2),
    (0, 0),
    (1, 1),
    (3, 3),
    (1, 4),
    (130, 130),
    (64, 256),
    (0, usize::MAX),
];

/// Every illegal side, in both places, and the pairs.
pub fn illegal() -> Vec<Shape> {
    let mut shapes = vec![];
    for &side in BAD_SIDES {
        for other in [2, 4, 128] {
            shapes.push(Shape {
                width: side,
                height: other,
            });
            shapes.push(Shape {
                width: other,
                height: side,
            });
        }
    }
    for &(width, height) in BAD_PAIRS {
        shapes.push(Shape { width, height });
        shapes.push(Shape {
            width: height,
            height: width,
        });
    }
    shapes
}

pub fn even(dice: &mut Dice, least: usize, most: usize) -> usize {
    2 * dice.between(least as u64 / 2, most as u64 / 2) as usize
}

/// Mostly small, so that rare neighbourhoods come often and a round stays short.
pub fn legal(dice: &mut Dice) -> Shape {
    let most = dice.among(&[2, 4, 8, 8, 16, 16, 32]);
    Shape {
        width: even(dice, 2, most),
        height: even(dice, 2, most),
    }
}

/// A small window whose planes have more than one site.
pub const SQUARE: Shape = Shape {
    width: 4,
    height: 4,
};

/// The greatest windows, the greatest of all first.
pub const GREAT: &[Shape] = &[
    Shape {
        width: 128,
        height: 128,
    },
    Shape {
        width: 128,
        height: 2,
    },
    Shape {
        width: 2,
        height: 128,
    },
    Shape {
        width: 126,
        height: 128,
    },
    Shape {
        width: 128,
        height: 126,
    },
];

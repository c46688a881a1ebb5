//! Figures as whole numbers.

use std::fmt;

/// A figure that is never below 0, as two whole numbers, not reduced. It prints as `4/32`.
#[derive(Debug, Clone, Copy, PartialEq, Eq, Hash)]
pub struct Fraction {
    /// What is divided.
    pub numerator: u64,
    /// What it is divided by: above 0.
    pub denominator: u64,
}

/// A figure that may be below 0, as two whole numbers, not reduced. It prints as `-4/4`.
#[derive(Debug, Clone, Copy, PartialEq, Eq, Hash)]
pub struct SignedFraction {
    /// What is divided: below 0 where the figure is.
    pub numerator: i64,
    /// What it is divided by: above 0.
    pub denominator: u64,
}

/// A variance, in grey levels squared.
#[derive(Debug, Clone, Copy, PartialEq)]
pub struct Variance {
    /// The variance itself.
    pub exact: Fraction,
    /// Numerator over denominator, rounded once.
    pub figure: f64,
}

impl fmt::Display for Fraction {
    fn fmt(&self, f: &mut fmt::Formatter<'_>) -> fmt::Result {
        write!(f, "{}/{}", self.numerator, self.denominator)
    }
}

impl fmt::Display for SignedFraction {
    fn fmt(&self, f: &mut fmt::Formatter<'_>) -> fmt::Result {
        write!(f, "{}/{}", self.numerator, self.denominator)
    }
}

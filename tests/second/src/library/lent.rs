//! A buffer lent to a call, with guard cells on both sides.

use std::fmt::{Debug, Formatter, Result};
use std::ops::{Deref, DerefMut};

const GUARDS: usize = 8;
const SHOWN: usize = 48;

#[derive(Clone, PartialEq)]
pub struct Lent<T> {
    name: &'static str,
    cells: Vec<T>,
}

impl<T: Copy + From<u8>> Lent<T> {
    pub fn new(name: &'static str, values: Vec<T>) -> Self {
        let guards = [T::from(0xA5); GUARDS];
        let mut cells = guards.to_vec();
        cells.extend(values);
        cells.extend(guards);
        Lent { name, cells }
    }

    /// Makes the buffer `length` long, new cells holding `fill`.
    pub fn resize(&mut self, length: usize, fill: T) {
        let mut values = self.to_vec();
        values.resize(length, fill);
        *self = Lent::new(self.name, values);
    }

    /// Never null and always aligned, also where the buffer is empty.
    pub fn address(&mut self) -> *mut T {
        self.as_mut_ptr()
    }
}

impl<T> Deref for Lent<T> {
    type Target = [T];

    fn deref(&self) -> &[T] {
        &self.cells[GUARDS..self.cells.len() - GUARDS]
    }
}

impl<T> DerefMut for Lent<T> {
    fn deref_mut(&mut self) -> &mut [T] {
        let end = self.cells.len() - GUARDS;
        &mut self.cells[GUARDS..end]
    }
}

/// `{:?}` is brief; `{:#?}` has one line a cell, guards included, for finding a difference.
impl<T: Debug> Debug for Lent<T> {
    fn fmt(&self, to: &mut Formatter) -> Result {
        if to.alternate() {
            for (at, cell) in self.cells.iter().enumerate() {
                write!(
                    to,
                    "\n{}[{}] = {cell:?}",
                    self.name,
                    at as i64 - GUARDS as i64
                )?;
            }
            return Ok(());
        }
        let rest = if self.len() > SHOWN { ", .." } else { "" };
        let start: Vec<String> = self
            .iter()
            .take(SHOWN)
            .map(|cell| format!("{cell:?}"))
            .collect();
        write!(to, "{} long [{}{rest}]", self.len(), start.join(" "))
    }
}

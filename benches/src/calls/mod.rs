//! One file for each call: how the library is called, and the same work in plain Rust.

mod colour;
mod dark;
mod gain;
mod job;
mod lines;
mod pair;
mod pattern;
mod shading;
mod sites;
mod stack;
mod unpack_raw10;
mod window;

use crate::contest::Contested;

pub fn all() -> Vec<Box<dyn Contested>> {
    vec![
        Box::new(unpack_raw10::contest()),
        Box::new(pair::contest()),
        Box::new(dark::contest()),
        Box::new(stack::add()),
        Box::new(stack::variance()),
        Box::new(stack::blinking()),
        Box::new(pattern::vertical()),
        Box::new(pattern::horizontal()),
        Box::new(sites::find_defects()),
        Box::new(sites::repair()),
        Box::new(lines::rows()),
        Box::new(lines::columns()),
        Box::new(colour::contest()),
        Box::new(shading::table()),
        Box::new(shading::recode()),
        Box::new(shading::judge()),
        Box::new(gain::contest()),
        Box::new(job::contest()),
    ]
}

//! The library against the reference, over random and edge inputs. Each comparison takes in the answer and everything
//! that was lent, guards included, so a refused call that changed something, or an accepted one that changed too much,
//! fails here.

#[path = "../common/mod.rs"]
mod common;
#[path = "../reference/mod.rs"]
mod reference;

mod inputs;

mod blocks;
mod checksum;
mod conversions;
mod long_lists;
mod maker;
mod pages;
mod remainder;
mod repair;
mod simulation;
mod tables;
mod wrapper;

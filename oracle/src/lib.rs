//! The crate `fixed` 1.31.0 as an oracle.
//!
//! Five of the crate's files are compiled unchanged from the folder named by
//! `FIXED_SRC` (see `build.rs`). They give every answer. The other modules
//! hold up these files (`stand_ins`), call them (`drive`), read questions and
//! write lines (`line`, `answer`) and choose the lines of the list (`list`).

include!(concat!(env!("OUT_DIR"), "/crate_files.rs"));

mod answer;
mod drive;
mod float;
mod form;
pub mod line;
pub mod list;
mod stand_ins;

// The names by which the crate's files ask for what they lean on.
use stand_ins::{F128, F128Bits, types};
use stand_ins::{FixedI8, FixedI16, FixedI32, FixedI64, FixedI128};
use stand_ins::{FixedU8, FixedU16, FixedU32, FixedU64, FixedU128};

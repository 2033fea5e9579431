//! The archive of documents 01 and 02 written naively, to compare the library with: general matrices with
//! pivoting, a solve for each place, vectors everywhere. It shares no code with the library. A call
//! takes what it reads as slices and the lengths of the buffers it would fill; it returns what would
//! stand in them, or the refusal number.
#![allow(dead_code, unused_imports)] // each test program uses a part of it

pub mod arrival;
pub mod card;
pub mod code;
pub mod correct;
pub mod field;
pub mod judge;
pub mod layers;
pub mod lent;
pub mod order;
pub mod plan;
pub mod random;
pub mod random_arrival;
pub mod repair;
pub mod stretches;

pub use arrival::{finish, hear, Arrival, Finished, Heard, Kept};
pub use card::{pack, pack_before, unpack, unpack_before, Header};
pub use code::{check, open, restore, write, Fault};
pub use correct::{correct, Correction};
pub use judge::{Lists, Number, Shape};
pub use layers::layers;
pub use order::may_run;
pub use plan::plan;
pub use repair::{first_step, helper_message, repair, second_step};
pub use stretches::{open_stretches, open_stretches_anew, Opened, Wanted};

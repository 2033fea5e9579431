//! An archive of a transcript, spread over 3 to 14 nodes (drives) of which any k give it back, and whose lost nodes
//! are refilled together by small messages.
//!
//! Every call here hands its arguments to a static library of proved functions and gives back what they answer: it
//! does its work, or refuses with the one [`Refusal`] that the rules lay down and leaves every buffer as it was.
//! No call demands anything of its caller, whatever the numbers in a [`Shape`] are.
//!
//! Symbols are whole numbers from 0 to 256. A node has N = layers × 2^nodes symbols; the nodes of an archive stand one
//! behind the other in a buffer of nodes × N.
//!
//! ```
//! use hmsr::{Repair, Shape};
//!
//! let shape = Shape::new(4, 1, 3)?;
//! let mut nodes = shape.write_to_nodes(b"the witness was sworn")?;
//! let n = shape.node_symbols()?;
//! nodes[..2 * n].fill(0); // nodes 0 and 1 are lost
//! let repair = Repair { shape, dead: &[0, 1], helpers: &[2, 3] }; // nodes 2 and 3 help
//! repair.repair_nodes(&mut nodes)?;
//! let transcript = shape.open_to_vec(&[0], &nodes[..n], 21)?; // from node 0 alone
//! assert_eq!(transcript, b"the witness was sworn");
//! # Ok::<(), hmsr::Refusal>(())
//! ```
#![warn(missing_docs, clippy::missing_errors_doc)]
#![deny(unsafe_code, unsafe_op_in_unsafe_fn)]

mod card;
mod code;
#[allow(unsafe_code)]
mod ffi;
mod hearing;
mod plan;
mod refusal;
mod repair;
mod shape;
mod stretches;

pub use card::{unpack, unpack_into, unpack_to_vec, Header};
pub use code::Checked;
pub use hearing::Hearing;
pub use plan::{plan, plan_text, PLAN_TEXT};
pub use refusal::Refusal;
pub use repair::{FirstStep, Repair};
pub use shape::Shape;
pub use stretches::{Stretches, MOST_STRETCHES};

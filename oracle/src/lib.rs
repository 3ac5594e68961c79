//! A second implementation of the sheet, its verdict and the run of slots. It follows the rules
//! as they are written, with the whole history kept, and another program is compared with it.

pub mod convolution;
pub mod curve;
pub mod damage;
pub mod draft;
pub mod examples;
pub mod gen;
pub mod inputs;
pub mod offers;
pub mod rng;
pub mod run;
pub mod script;
pub mod scripts;
pub mod sheet;
pub mod stream;
pub mod tally;
pub mod verdict;
pub mod words;

/// A number of slots, or the number of a slot.
pub type Slots = u64;

/// A number of packets, or the number of a packet in its session.
pub type Packets = u64;

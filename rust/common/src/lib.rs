//! What the comparisons, the checks of programs, the benchmark and the tests share. It needs
//! neither the port nor the original.

pub mod calls;
pub mod containers;
pub mod damage;
pub mod files;
pub mod flv;
pub mod g711;
pub mod layers;
pub mod memory;
pub mod naming;
pub mod nanoseconds;
pub mod output;
pub mod progress;
pub mod recordings;
pub mod requirement;
pub mod rng;
pub mod sets;
pub mod shapes;
pub mod store_frames;
pub mod strings;
pub mod words;
pub mod writing;

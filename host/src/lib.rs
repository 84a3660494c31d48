//! The host's side of the tank gauge recorder.
//!
//! * [`types`] and [`calls`]: the values of documents 01 and 02 and the traits through which
//!   everything below reaches a recorder core: [`Core`] for document 01, and one for each request
//!   that adds calls, of document 02 or our own.
//! * [`library`]: the proved library, wrapped so that it is called with these types. It is there
//!   on x86-64 alone, which is all that the library is compiled for.
//! * [`reading`]: an independent reading of both documents, written from the paper alone. It is the
//!   other opinion in the comparisons and the baseline of the benchmarks.
//! * [`random`] and [`generate`]: repeatable inputs, good, damaged and hostile.
//! * [`compare`]: the comparisons of two cores, and the sweep that cuts the power after every store.
//! * [`stopwatch`] and [`benchmarks`]: two cores timed side by side in one run.

pub mod benchmarks;
pub mod calls;
pub mod compare;
#[cfg(test)]
mod desk;
pub mod generate;
#[cfg(target_arch = "x86_64")]
pub mod library;
pub mod random;
pub mod reading;
pub mod stopwatch;
pub mod types;
#[cfg(test)]
mod vectors;

pub use calls::Core;
pub use types::{
    Answer, Entry, Fault, Last, Poll, Reading, Record, Row, Slot, Standing, Temperature,
};

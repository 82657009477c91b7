//! An independent reference model of the placement service, in the specification's own order and words.
//!
//! It shares no code with the service. Everything here is written the plainest way: the next step is found by
//! nested loops over kind, m, n, i and j. It serves to make the stored trials and to be compared with the program.

pub mod calls;
pub mod convert;
pub mod counts;
pub mod damage;
pub mod gen;
pub mod histories;
pub mod listing;
pub mod lists;
pub mod placement;
pub mod plan;
pub mod reads;
pub mod samples;
pub mod steps;
pub mod stream;
pub mod trials;

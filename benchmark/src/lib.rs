//! Times the proved library against the plain reference and an optimised version, on the same plans in one process.
//! Every comparison also checks that all sides answer the same.

pub mod comparison;
pub mod growth;
pub mod machine;
pub mod memory;
pub mod optimised;
pub mod plans;
pub mod reads;
pub mod sides;
pub mod table;
pub mod timing;

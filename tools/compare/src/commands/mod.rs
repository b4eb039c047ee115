//! What the tool can be asked to do.

pub mod bench;
pub mod exhaust;
pub mod folder;
pub mod fuzz;
pub mod mutants;
pub mod record;
pub mod scalars;

//! Stands for src/atlas_c/mod.rs: the modules of the compiler that are at hand.
pub mod atlas_frontend;
pub mod atlas_hir;
pub mod utils;

//! Stands for thiserror: the published files derive `Error` for their error structs.
pub use derives::Error;

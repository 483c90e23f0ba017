//! Stands for serde: the published files derive `Serialize` and never serialize here.
pub use derives::Serialize;

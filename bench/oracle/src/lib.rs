//! The published `ownership_pass/mod.rs` and the files it leans on, built unchanged from the folder that ATLAS77_SRC names, among
//! stand-ins for the files that are missing (`standins/`). `ownership_probe` is the same mod.rs with notes for `probe`.
#![allow(unused, deprecated, clippy::all)]

include!(concat!(env!("OUT_DIR"), "/root.rs"));

pub mod probe;

use atlas_c::utils::Span;

/// Stands for lib.rs: what error.rs and warning.rs convert to.
#[derive(Debug)]
pub struct CompilerError {
    pub message: String,
    pub span: Span,
    pub kind: CompilerErrorKind,
}

#[derive(Debug, Clone, PartialEq, Eq)]
pub enum CompilerErrorKind {
    Error,
    Note,
    Warning,
}

/// Stands for the macros by which error.rs and warning.rs declare their enums.
#[macro_export]
macro_rules! declare_error_type {
    ($(#[$note:meta])* pub enum $name:ident { $($case:ident($of:ty)),* $(,)? }) => {
        #[derive(Debug)]
        pub enum $name { $($case($of)),* }
    };
}

#[macro_export]
macro_rules! declare_warning_type {
    ($(#[$note:meta])* pub enum $name:ident { $($case:ident($of:ty)),* $(,)? }) => {
        #[derive(Debug, Clone)]
        pub enum $name { $($case($of)),* }
    };
}

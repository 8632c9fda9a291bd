//! Calls of the published Rust, each as one function. Floats go in and out as bits where that matters.

pub mod calls;
pub mod draw;
pub mod index;
pub mod text;

//! The Rattle source of the library `capi` and of all it rests on, compiled as Rust: a module for each crate inside the
//! module `capi`. What the proved library does is held against it.

include!(concat!(env!("OUT_DIR"), "/same.rs"));

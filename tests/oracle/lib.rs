//! The root of the patched copy of the Rust core: its folder of sources has none.
#![allow(dead_code)]
pub mod format;
pub mod lloyd;
pub mod rhdh;
pub mod store;
pub mod view;

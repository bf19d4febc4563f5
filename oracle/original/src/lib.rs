//! The original Rust, compiled unchanged from its own files, with its omitted items written out:
//! `tables` lends the caller's numbers, `cpu` turns the Arm kernels off, the crate `wide` is a stand-in.

include!(concat!(env!("OUT_DIR"), "/modules.rs"));

pub mod cpu;
#[cfg(not(feature = "real"))]
pub mod tables;
#[cfg(feature = "real")]
pub use real_tables as tables;

//! Declarations of libdeltat-udp, Delta-t nodes and services over a UDP socket, for Linux.
//!
//! The names, types and numbers are those of the C header `include/deltat_udp.h`, which says what each
//! call does, what its caller must do, and when each status is returned. Programs use the crate
//! `deltat-udp`, which is safe. `build.rs` links the library that is beside libdeltat.

// as it was made, so that it can be compared with what the header gives
#[rustfmt::skip]
mod sys;

pub use sys::*;

//! Declarations of libdeltat, a library of Delta-t nodes without sockets, clocks or threads.
//!
//! The names, types and numbers are those of the C header `include/deltat.h`, which says what each
//! call does, what its caller must do, and when each status is returned. Programs use the crate
//! `deltat`, which is safe. `build.rs` finds the library: in `DELTAT_LIB_DIR`, else in `lib/` of the
//! clone, else where a `deltat.pc` says.

// as it was made, so that it can be compared with what the header gives
#[rustfmt::skip]
mod sys;

pub use sys::*;

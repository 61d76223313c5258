//! The published instruction set of Delta Null, unchanged: lib.rs, reg.rs, ins/mod.rs and
//! ins/encoding.rs. What those four lean on and is not published with them stands in ../standins.

extern crate standins as bitmatch;
extern crate standins as delta_null_core_macros;
extern crate standins as strum;

include!(concat!(env!("OUT_DIR"), "/root.rs"));

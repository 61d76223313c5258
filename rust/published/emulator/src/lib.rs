//! The published emulator of Delta Null, unchanged: core.rs, memory/mod.rs and memory/simple.rs.
//! Its own lib.rs is not published with them; standins/root.rs names the modules.

include!(concat!(env!("OUT_DIR"), "/root.rs"));

pub mod core;
pub mod memory;

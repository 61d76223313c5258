// The #![feature] lines have no effect below a crate's root, and the derives that make nothing
// leave imports unused.
#[allow(unused_attributes, unused_imports)]
mod published;
pub use published::*;

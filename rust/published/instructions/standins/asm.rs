//! Stand-in for asm.rs: the trait that reg.rs implements.
pub trait ToAssembly {
    /// The text of an instruction or a register.
    fn to_assembly(&self) -> String;
}

//! Stand-in for ins/assembly.rs: core.rs prints this where it traces, which is never switched on
//! here.
impl crate::ToAssembly for crate::Instruction {
    fn to_assembly(&self) -> String {
        format!("{self:?}")
    }
}

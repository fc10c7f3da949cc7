//! Stand-ins for the modules of wasmi_core that simd.rs leans on and that were not supplied. None of them is the original; each has
//! the least that simd.rs needs to compile and, for the operations that are compared, to run.

pub mod memory;
pub mod trap;
pub mod v128;
pub mod value;
pub mod wasm;

//! The parts of rhai's lowering that document 01 names, under the names of
//! their source. `stand_in.rs` is ours; it has the types that the files lack.

pub mod ast;
pub mod bytecode;
pub mod compile;
pub mod eval;
pub mod stand_in;

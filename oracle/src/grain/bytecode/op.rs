// Taken from rhai (rhaiscript/rhai c7d67b9c20), src/grain/bytecode/op.rs; MIT OR Apache-2.0.
// What differs from that file, and why, stands in docs/DIFFERENCES.md.

/// Where [`Op::CallRef`] finds the variable it calls through.
#[derive(Debug, Clone, Copy, PartialEq, Eq)]
pub enum Receiver {
    /// A local, addressed by slot. Nothing was pushed for it.
    Local(u16),

    /// A variable no slot addresses: the caller's, a module's, or nothing.
    Named(u32),

    /// The frame's receiver, for `f(this, ..)`.
    This,
}

/// One VM instruction, as the compiler emits it and a disassembly shows it.
/// Only those that the borrowed functions emit.
#[derive(Debug, Clone, PartialEq, Eq)]
pub enum Op {
    /// Push constant `.0` from the pool.
    Const(u32),
    /// Push unit.
    Unit,
    /// Push a boolean.
    Bool(bool),

    /// Push the value in local slot `.0`.
    LoadLocal(u16),

    /// Push the value of the variable named `.0`, found by name.
    LoadNamed(u32),

    /// Discard the top of the operand stack.
    Pop,

    /// Jump to `.0`.
    Jump(u32),
    /// Pop a condition and jump to `.0` if it is `true`.
    JumpIfTrue {
        /// Where to jump to
        target: u32,
    },
    /// Pop a condition and jump to `.0` if it is `false`.
    JumpIfFalse {
        /// Where to jump to
        target: u32,
    },
    /// Inspects a condition and jump to `.0` if it is not `()`.
    SkipIfNotUnit {
        /// Where to skip to
        target: u32,
    },

    /// Pop `argc` arguments and call the function named by `name`, pushing the
    /// result.
    Call {
        /// The name of the function
        name: u32,
        /// How many arguments to pop
        argc: u8,
        /// Index into the operator pool; absent unless the call is an operator.
        op: Option<u32>,
        /// This call captures the parent's `Scope`.
        capture_parent_scope: bool,
    },

    /// Pop `argc` arguments and call the function named by `name` with a variable
    /// as its first argument, taken by reference, pushing the result.
    CallRef {
        /// The name of the function
        name: u32,
        /// How many arguments, the receiver included.
        argc: u8,
        /// Where the first argument is found.
        receiver: Receiver,
        /// This call captures the parent's `Scope`.
        capture_parent_scope: bool,
    },

    /// Move the top of the operand stack down past `.0` values.
    Rotate(u8),

    /// Inspect the subject on the top of the operand stack and jump to wherever
    /// switch table `.0` sends it.
    Switch(u32),

    /// Push the receiver bound to the running frame's `this`.
    LoadThis,

    /// Pop a name and push a function pointer to it.
    MakeFnPtr,

    /// Pop `argc` arguments and a target, and call a function pointer.
    CallFnPtr {
        /// How many arguments to pop
        argc: u8,
        /// Whether the call is in method position (`f.call(x)`).
        is_method: bool,
        /// This call captures the parent's `Scope`.
        capture_parent_scope: bool,
        /// Where the receiver came from, when there is anywhere to put it back.
        receiver: Option<Receiver>,
    },

    /// Push an empty buffer for an interpolated string to be built in.
    InterpolateStart,

    /// Pop an interpolated string segment and append it to the buffer beneath it.
    InterpolateAppend,

    /// Replace the buffer with the interpolated string it built.
    InterpolateEnd,

    /// Pop `.0` values and push them as an array.
    MakeArray(u16),

    /// Measure the value on top of the operand stack into the array or map
    /// literal being built.
    CheckSize {
        /// The computed element's index within its literal.
        index: u16,
        /// Whether the element counts towards the map limit rather than the
        /// array one.
        is_map: bool,
    },

    /// Walk `a.b[i].c`, indexing the chain pool.
    Chain(u32),

    /// Evaluate residual `AST` fragment `residual` through
    /// Rhai's interpreter, pushing its value.
    EvalAst {
        /// Index into the residual pool
        residual: u32,
        /// Whether locals the fragment declares are discarded afterwards.
        rewind_scope: bool,
    },
}

// Taken from rhai (rhaiscript/rhai c7d67b9c20), src/grain/bytecode/chain.rs; MIT OR Apache-2.0.
// What differs from that file, and why, stands in docs/DIFFERENCES.md.

use crate::grain::stand_in::Position;

/// Per-step flags for a chain.
#[derive(Debug, Default, Clone, Copy, PartialEq, Eq, PartialOrd, Ord, Hash)]
pub struct StepFlags(u8);

impl StepFlags {
    /// The step short-circuits when the receiver is `()`.
    pub const SKIP_IF_UNIT: Self = StepFlags(0b_0000_0001);

    pub fn insert(&mut self, other: Self) {
        self.0 |= other.0;
    }

    pub const fn bits(self) -> u8 {
        self.0
    }
}

/// One step along `a.b[i].c(x)`.
#[derive(Debug, Clone, PartialEq, Eq, Hash)]
pub enum Step {
    /// `[i]`, where the index was evaluated onto the operand stack before the
    /// chain instruction ran, at `operand` from the first of them.
    Index {
        /// Where the index sits on the operand stack.
        operand: u16,
        /// Per-step flags, such as null-conditional chaining.
        flags: StepFlags,
        /// Where the index expression starts.
        pos: Position,
        /// The `[` in front of it.
        bracket: Position,
    },

    /// `.name`, which is a key lookup on a map and a getter call on anything
    /// else — the distinction Rhai makes at runtime, not at parse time.
    Property {
        /// The bare name, for a map key and for error messages.
        name: u32,
        /// `get$name`.
        getter: u32,
        /// `set$name`, for the write-back.
        setter: u32,
        /// Per-step flags, such as null-conditional chaining.
        flags: StepFlags,
        /// Where the property is in the source.
        pos: Position,
    },

    /// `.name(args)`, with the receiver as the first argument by reference.
    Method {
        /// The name of the method
        name: u32,
        /// How many arguments, not counting the receiver.
        argc: u8,
        /// Where the first of them sits on the operand stack.
        operand: u16,
        /// Per-step flags, such as null-conditional chaining.
        flags: StepFlags,
        /// Where the call is in the source.
        pos: Position,
    },
}

/// What a chain does when it gets to the end.
#[derive(Debug, Clone, PartialEq, Eq, Hash)]
pub enum Tail {
    /// Push the value the chain arrived at.
    Read,
    /// Assign the top of the operand stack to it, optionally through an
    /// operator, and push unit.
    #[allow(dead_code)]
    Assign {
        /// Index into the op-assignment pool; absent for a plain `=`.
        op: Option<u32>,
    },
}

/// Where a chain starts.
///
/// The distinction is whether the root has an identity to write back into.
#[derive(Debug, Clone, PartialEq, Eq, Hash)]
pub enum Root {
    /// A local, by slot.
    Local {
        /// The slot index
        slot: u16,
        /// Names it in `ErrorAssignmentToConstant`.
        name: u32,
    },

    /// A variable no slot addresses.
    Named {
        /// The name of the variable
        name: u32,
        /// Where the variable is in the source.
        pos: Position,
    },

    /// The frame's receiver.
    This {
        /// Where the `this` is in the source.
        pos: Position,
    },

    /// A value the instruction takes off the operand stack, pushed above the
    /// step operands.
    Temporary,
}

/// A whole `a.b[i].c` chain.
#[derive(Debug, Clone, PartialEq, Eq, Hash)]
pub struct Chain {
    /// Where the chain starts.
    pub root: Root,
    /// The steps, in source order.
    pub steps: Vec<Step>,
    /// What happens at the end.
    pub tail: Tail,
    /// How many operand-stack values the *steps* consume, so the VM knows
    /// where they start.
    pub operands: u16,
}

//! The records that lowering writes.

mod chain;
pub(crate) mod names;
mod op;
mod switch;

pub use chain::{Chain, Root, Step, StepFlags, Tail};
pub use op::{Op, Receiver};
pub use switch::{Switch, SwitchRange};

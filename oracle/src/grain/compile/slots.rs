// Taken from rhai (rhaiscript/rhai c7d67b9c20), src/grain/compile/slots.rs; MIT OR Apache-2.0.
// What differs from that file, and why, stands in docs/DIFFERENCES.md.

use crate::grain::stand_in::ImmutableString;
use std::collections::HashMap;

/// Assigns a slot to every local, mirroring how Rhai's own `Scope` grows.
///
/// Locals live in the caller's `Scope`, and Rhai pushes an entry per
/// declaration and truncates back on block exit. So a slot is just the entry's
/// index, and a block boundary is a mark-and-truncate on this side too.
///
/// Shadowing needs no special handling: a second `let x` pushes a second entry,
/// and resolution scans backwards, so the newer slot wins while the older one
/// stays addressable by anything compiled before it — which is exactly Rhai's
/// behaviour.
#[derive(Debug, Default)]
pub struct Slots<'a> {
    names: Vec<ImmutableString<'a>>,
    /// The newest slot of each name, so that nothing has to be scanned.
    newest: HashMap<ImmutableString<'a>, u16>,
}

impl<'a> Slots<'a> {
    /// Declare a local and return its slot.
    pub fn declare(&mut self, name: ImmutableString<'a>) -> u16 {
        let slot = self.names.len();
        self.names.push(name);
        let slot = u16::try_from(slot).expect("slot count is bounded by the compiler's own limit");
        self.newest.insert(name, slot);
        slot
    }

    /// Resolve a name to the most recent slot holding it.
    pub fn resolve(&self, name: &ImmutableString<'a>) -> Option<u16> {
        self.newest.get(name).copied()
    }

    /// The Rust's own way: a scan from the end.
    pub fn resolve_by_scan(&self, name: &ImmutableString<'a>) -> Option<u16> {
        self.names
            .iter()
            .rposition(|candidate| candidate == name)
            .map(|slot| u16::try_from(slot).expect("slot count is bounded"))
    }
}

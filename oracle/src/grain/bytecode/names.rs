// Taken from rhai (rhaiscript/rhai c7d67b9c20), src/grain/bytecode/names.rs; MIT OR Apache-2.0.
// What differs from that file, and why, stands in docs/DIFFERENCES.md.

//! Encoding of namespace-qualified names in the name pool.
//!
//! A qualified variable or function is stored as one entry, written the way a
//! script writes it: `ns::name`, or `a::b::name` for a nested namespace. A call
//! that captures the parent scope additionally carries a trailing `!`, which is
//! stripped before the name is split.

use crate::grain::stand_in::{ImmutableString, Name, Namespace};

/// Separator between a namespace and a name.
pub const SEPARATOR: &str = "::";

/// Encode `name` qualified by `namespace`.
#[inline]
pub(crate) fn qualify<'a>(namespace: &Namespace<'a>, name: &ImmutableString<'a>) -> Name<'a> {
    Name::qualified(namespace, *name)
}

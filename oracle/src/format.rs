//! Every number of document 01 that a later request may change, each in one
//! place.

// ---- the sheet ----

/// Words of the sheet's sizes: N, X, B, L.
pub const SHEET_SIZES: usize = 4;
/// Words of a node: kind, span, count, a, b, c, namespace text plus 1 (0
/// none), position of the namespace.
pub const NODE_WORDS: usize = 8;

pub const MAX_NODES: u32 = 131_072;
pub const MAX_TEXTS: u32 = 65_536;
pub const MAX_TEXT_BYTES: u32 = 1_048_576;
pub const MAX_LOCALS: u32 = 65_535;

/// Greatest depth of the tree; node 0 has depth 1.
pub const MAX_DEPTH: usize = 64;
/// Most blocks, cases, ranges, and Refs in one case.
pub const MAX_ARMS: u64 = 64;
/// Most arguments of a call or method that still lowers.
pub const MAX_ARGUMENTS: u32 = 255;
/// Most arguments of the FnCall `call` that still lowers.
pub const MAX_CALL_ARGUMENTS: u32 = 256;
/// Most elements of an array that still lowers.
pub const MAX_ELEMENTS: u32 = 65_535;
/// Largest operator of an FnCall.
pub const MAX_OPERATOR: u32 = 65_535;

// ---- node kinds ----

pub const BOOL: u32 = 1;
pub const UNIT: u32 = 2;
pub const INT: u32 = 3;
pub const FLOAT: u32 = 4;
pub const CHAR: u32 = 5;
pub const STRING: u32 = 6;
pub const INTERPOLATED: u32 = 7;
pub const ARRAY: u32 = 8;
pub const VARIABLE: u32 = 9;
pub const THIS: u32 = 10;
pub const PROPERTY: u32 = 11;
pub const METHOD_CALL: u32 = 12;
pub const FN_CALL: u32 = 13;
pub const DOT: u32 = 14;
pub const INDEX: u32 = 15;
pub const AND: u32 = 16;
pub const OR: u32 = 17;
pub const COALESCE: u32 = 18;
pub const SWITCH: u32 = 19;
pub const CASE: u32 = 20;
pub const RANGE: u32 = 21;
pub const REF: u32 = 22;
pub const MAP: u32 = 23;
pub const BLOCK: u32 = 24;
pub const DYNAMIC: u32 = 25;

/// Flags of Dot and Index.
pub const NEGATED: u32 = 1;
pub const BREAK: u32 = 2;

// ---- the keywords ----

pub const KEYWORD_EVAL: &[u8] = b"eval";
pub const KEYWORD_FN_PTR: &[u8] = b"Fn";
pub const KEYWORD_FN_PTR_CALL: &[u8] = b"call";
pub const KEYWORD_FN_PTR_CURRY: &[u8] = b"curry";

// ---- the refusals ----
//
// The first that fits in the order 1 to 4, 14, 5 to 13 is the answer. "1 to 8",
// "1 to 10" and the like take 14 in.

pub const REFUSED_SIZE: u32 = 1;
pub const REFUSED_NODE: u32 = 2;
pub const REFUSED_TEXT: u32 = 3;
pub const REFUSED_NUMBER: u32 = 4;
pub const REFUSED_NAME: u32 = 14;
pub const REFUSED_DEPTH: u32 = 5;
pub const REFUSED_ARMS: u32 = 6;
pub const REFUSED_EQUAL_CASES: u32 = 7;
pub const REFUSED_KIND: u32 = 8;
pub const REFUSED_EVAL: u32 = 9;
pub const REFUSED_EMITTED: u32 = 10;
pub const REFUSED_SCRATCH: u32 = 11;
pub const REFUSED_IMAGE: u32 = 12;
pub const NOT_WELL_MADE: u32 = 13;

/// 0 and all refusals, in their order.
pub const ANSWERS: [u32; 15] = [0, 1, 2, 3, 4, 14, 5, 6, 7, 8, 9, 10, 11, 12, 13];
/// The sheet's own refusals, in their order.
pub const SHEET_REFUSALS: [u32; 9] = [1, 2, 3, 4, 14, 5, 6, 7, 8];
/// Counts by answer have so many places.
pub const COUNTS: usize = ANSWERS.len();

// ---- lowering ----

/// Most instructions emitted, those taken back included.
pub const MAX_EMITTED: u64 = 262_143;

pub const SCRATCH_PER_EMITTED: u64 = 16;
pub const SCRATCH_PER_NODE: u64 = 16;
pub const SCRATCH_BASE: u64 = 4_096;

/// The scratch words that lowering asks for.
pub fn scratch_needed(emitted: u64, nodes: u64) -> u64 {
    SCRATCH_PER_EMITTED * emitted + SCRATCH_PER_NODE * nodes + SCRATCH_BASE
}

// ---- the image ----

/// Words of the image's sizes.
pub const IMAGE_SIZES: usize = 12;
pub const CODE_WORDS: usize = 4;
pub const CONSTANT_WORDS: usize = 3;
/// Words of a name: text, mark, namespace text plus 1 or 0.
pub const NAME_WORDS: usize = 3;
pub const CHAIN_WORDS: usize = 6;
pub const STEP_WORDS: usize = 6;
pub const SWITCH_WORDS: usize = 4;
pub const CASE_WORDS: usize = 2;
pub const RANGE_WORDS: usize = 6;

/// Greatest counts that the Rust keeps in 8 and in 16 bits.
pub const MAX_U8: u32 = 255;
pub const MAX_U16: u32 = 65_535;

// ---- the program `lower` ----

pub const PROGRAM_SHEET_BYTES: usize = 65_536;
pub const PROGRAM_IMAGE_WORDS: usize = 16_384;
pub const PROGRAM_SCRATCH_WORDS: usize = 16_384;

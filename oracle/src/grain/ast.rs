// Taken from rhai (rhaiscript/rhai c7d67b9c20), src/ast/expr.rs; MIT OR Apache-2.0.
// What differs from that file, and why, stands in docs/DIFFERENCES.md.

use crate::format::{BREAK, NEGATED};
use crate::grain::stand_in::{ImmutableString, Namespace, Position, Token, INT};

/// The flags of Dot and Index, in the sheet's bits.
#[derive(Debug, Clone, Copy, PartialEq, Eq)]
pub struct ASTFlags(pub u32);

impl ASTFlags {
    pub const NEGATED: Self = ASTFlags(NEGATED);
    pub const BREAK: Self = ASTFlags(BREAK);

    pub const fn contains(&self, other: Self) -> bool {
        self.0 & other.0 == other.0
    }
}

/// _(internals)_ A binary expression.
#[derive(Debug, Clone)]
pub struct BinaryExpr<'a> {
    /// LHS expression.
    pub lhs: Expr<'a>,
    /// RHS expression.
    pub rhs: Expr<'a>,
}

/// _(internals)_ A function call.
#[derive(Debug, Clone)]
pub struct FnCallExpr<'a> {
    /// Namespace of the function, if any.
    pub namespace: Namespace<'a>,
    /// Function name.
    pub name: ImmutableString<'a>,
    /// List of function call argument expressions.
    pub args: Vec<Expr<'a>>,
    /// Does this function call capture the parent scope?
    pub capture_parent_scope: bool,
    /// Is this function call a native operator?
    pub op_token: Option<Token>,
}

/// Getter, setter and name of a property.
pub type PropertyNames<'a> = (
    ImmutableString<'a>,
    ImmutableString<'a>,
    ImmutableString<'a>,
);

/// _(internals)_ An expression sub-tree.
#[derive(Debug, Clone)]
pub enum Expr<'a> {
    /// Boolean constant.
    BoolConstant(bool, Position),
    /// Integer constant.
    IntegerConstant(INT, Position),
    /// Floating-point constant, as its bits.
    FloatConstant(u64, Position),
    /// Character constant.
    CharConstant(char, Position),
    /// [String][ImmutableString] constant.
    StringConstant(ImmutableString<'a>, Position),
    /// An interpolated [string][ImmutableString].
    InterpolatedString(Vec<Self>, Position),
    /// [ expr, ... ]
    Array(Vec<Self>, Position),
    /// ()
    Unit(Position),
    /// Variable access - (optional long index, variable name, namespace), position
    Variable(
        Box<(Option<()>, ImmutableString<'a>, Namespace<'a>)>,
        Position,
    ),
    /// `this`.
    ThisPtr(Position),
    /// Property access - (getter, setter, prop)
    Property(Box<PropertyNames<'a>>, Position),
    /// xxx `.` method `(` expr `,` ... `)`
    MethodCall(Box<FnCallExpr<'a>>, Position),
    /// func `(` expr `,` ... `)`
    FnCall(Box<FnCallExpr<'a>>, Position),
    /// lhs `.` rhs | lhs `?.` rhs
    ///
    /// ### Flags
    ///
    /// * [`NEGATED`][ASTFlags::NEGATED] = `?.` (`.` if unset)
    /// * [`BREAK`][ASTFlags::BREAK] = terminate the chain (recurse into the chain if unset)
    Dot(Box<BinaryExpr<'a>>, ASTFlags, Position),
    /// lhs `[` rhs `]`
    ///
    /// ### Flags
    ///
    /// * [`NEGATED`][ASTFlags::NEGATED] = `?[` ... `]` (`[` ... `]` if unset)
    /// * [`BREAK`][ASTFlags::BREAK] = terminate the chain (recurse into the chain if unset)
    Index(Box<BinaryExpr<'a>>, ASTFlags, Position),
    /// lhs `&&` rhs
    And(Vec<Self>, Position),
    /// lhs `||` rhs
    Or(Vec<Self>, Position),
    /// lhs `??` rhs
    Coalesce(Vec<Self>, Position),
}

impl Expr<'_> {
    /// Not in the Rust: the node's number in the sheet.
    pub const fn node(&self) -> u32 {
        self.position().node
    }

    /// Get the [position][Position] of the expression.
    #[inline]
    #[must_use]
    pub const fn position(&self) -> Position {
        match self {
            Self::FloatConstant(.., pos) => *pos,

            Self::BoolConstant(.., pos)
            | Self::IntegerConstant(.., pos)
            | Self::CharConstant(.., pos)
            | Self::Unit(pos)
            | Self::StringConstant(.., pos)
            | Self::Array(.., pos)
            | Self::Variable(.., pos)
            | Self::ThisPtr(pos)
            | Self::And(.., pos)
            | Self::Or(.., pos)
            | Self::Coalesce(.., pos)
            | Self::FnCall(.., pos)
            | Self::MethodCall(.., pos)
            | Self::Index(.., pos)
            | Self::Dot(.., pos)
            | Self::InterpolatedString(.., pos)
            | Self::Property(.., pos) => *pos,
        }
    }
    /// Get the starting [position][Position] of the expression.
    /// For a binary expression, this will be the left-most LHS instead of the operator.
    #[inline]
    #[must_use]
    pub fn start_position(&self) -> Position {
        match self {
            Self::Variable(x, ..) => {
                if x.2.is_empty() {
                    self.position()
                } else {
                    x.2.position()
                }
            }

            Self::And(x, ..) | Self::Or(x, ..) | Self::Coalesce(x, ..) => x[0].start_position(),

            Self::Index(x, ..) | Self::Dot(x, ..) => x.lhs.start_position(),

            Self::FnCall(.., pos) => *pos,

            _ => self.position(),
        }
    }
}

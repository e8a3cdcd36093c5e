//! From an accepted sheet to the trees that the borrowed lowering takes.
//! Recurses by the tree's depth, which number 5 keeps at 64.

use crate::format::*;
use crate::grain::ast::{ASTFlags, BinaryExpr, Expr, FnCallExpr};
use crate::grain::eval::RangeCase;
use crate::grain::stand_in::{
    CaseBlocksList, Dynamic, ImmutableString, Namespace, Position, SwitchCasesCollection, Token,
};
use crate::sheet::{Node, Sheet};

/// What stands at node 0.
pub enum Whole<'a> {
    Expression(Expr<'a>),
    Switch(Expr<'a>, SwitchCasesCollection<'a>),
}

pub fn name<'a>(sheet: &Sheet<'a>, text: u32) -> ImmutableString<'a> {
    ImmutableString::new(text, sheet.text(text))
}

pub fn whole<'a>(sheet: &Sheet<'a>) -> Whole<'a> {
    let node = sheet.node(0);
    if node.kind != SWITCH {
        return Whole::Expression(expression(sheet, 0));
    }
    let mut children = sheet.children(0);
    let mut next = || children.next().expect("number 2 counted the children");
    let subject = expression(sheet, next());
    let expressions = (0..node.a)
        .map(|_| {
            let lhs = expression(sheet, next());
            let rhs = expression(sheet, next());
            BinaryExpr { lhs, rhs }
        })
        .collect();
    let cases = (0..node.b)
        .map(|_| {
            let mut parts = sheet.children(next());
            let value = parts.next().expect("number 2 saw a value");
            CaseBlocksList {
                value: constant(sheet, &sheet.node(value)),
                blocks: parts.map(|part| sheet.node(part).a as usize).collect(),
            }
        })
        .collect();
    let ranges = children
        .map(|range| {
            let node = sheet.node(range);
            let mut ends = sheet.children(range).map(|end| integer(&sheet.node(end)));
            let (start, end) = (ends.next().unwrap(), ends.next().unwrap());
            if node.a == 1 {
                RangeCase::InclusiveInt(start..=end, node.b as usize)
            } else {
                RangeCase::ExclusiveInt(start..end, node.b as usize)
            }
        })
        .collect();
    let def_case = node.c.checked_sub(1).map(|block| block as usize);
    Whole::Switch(
        subject,
        SwitchCasesCollection {
            expressions,
            cases,
            ranges,
            def_case,
        },
    )
}

/// The 64 bits of an Int or Float.
fn bits(node: &Node) -> u64 {
    u64::from(node.a) | u64::from(node.b) << 32
}

pub fn integer(node: &Node) -> i64 {
    bits(node) as i64
}

fn constant<'a>(sheet: &Sheet<'a>, node: &Node) -> Dynamic<'a> {
    match node.kind {
        INT => Dynamic::from_int(integer(node)),
        CHAR => Dynamic::from_char(char::from_u32(node.a).expect("number 2 checked it")),
        STRING => Dynamic::from_string(name(sheet, node.a)),
        kind => unreachable!("kind {kind} is no case value"),
    }
}

fn expression<'a>(sheet: &Sheet<'a>, index: usize) -> Expr<'a> {
    let node = sheet.node(index);
    let pos = Position {
        word: sheet.position(index),
        node: index as u32,
    };
    let all = || -> Vec<Expr<'a>> {
        let mut all = Vec::with_capacity(node.count as usize);
        all.extend(sheet.children(index).map(|child| expression(sheet, child)));
        all
    };
    let namespace = || match sheet.namespace(&node) {
        None => Namespace::NONE,
        Some(text) => {
            let pos = Position {
                word: node.space_position,
                node: index as u32,
            };
            Namespace::new(text, sheet.text(text), pos)
        }
    };
    let call = |capture: u32, operator: u32| {
        Box::new(FnCallExpr {
            namespace: namespace(),
            name: name(sheet, node.a),
            args: all(),
            capture_parent_scope: capture == 1,
            op_token: (operator != 0).then_some(Token(operator)),
        })
    };
    let binary = || {
        let mut both = sheet.children(index);
        let lhs = expression(sheet, both.next().unwrap());
        let rhs = expression(sheet, both.next().unwrap());
        Box::new(BinaryExpr { lhs, rhs })
    };
    match node.kind {
        BOOL => Expr::BoolConstant(node.a == 1, pos),
        UNIT => Expr::Unit(pos),
        INT => Expr::IntegerConstant(integer(&node), pos),
        FLOAT => Expr::FloatConstant(bits(&node), pos),
        CHAR => Expr::CharConstant(char::from_u32(node.a).expect("number 2 checked it"), pos),
        STRING => Expr::StringConstant(name(sheet, node.a), pos),
        INTERPOLATED => Expr::InterpolatedString(all(), pos),
        ARRAY => Expr::Array(all(), pos),
        VARIABLE => Expr::Variable(Box::new((None, name(sheet, node.a), namespace())), pos),
        THIS => Expr::ThisPtr(pos),
        PROPERTY => {
            let names = (
                name(sheet, node.b),
                name(sheet, node.c),
                name(sheet, node.a),
            );
            Expr::Property(Box::new(names), pos)
        }
        METHOD_CALL => Expr::MethodCall(call(0, 0), pos),
        FN_CALL => Expr::FnCall(call(node.b, node.c), pos),
        DOT => Expr::Dot(binary(), ASTFlags(node.a), pos),
        INDEX => Expr::Index(binary(), ASTFlags(node.a), pos),
        AND => Expr::And(all(), pos),
        OR => Expr::Or(all(), pos),
        COALESCE => Expr::Coalesce(all(), pos),
        kind => unreachable!("kind {kind} is no expression here"),
    }
}

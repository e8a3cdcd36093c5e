//! The words of an image, from what the lowering left. Written from
//! document 01.

use crate::depth;
use crate::format::*;
use crate::grain::bytecode::{Op, Receiver, Root, Step};
use crate::grain::compile::Lowering;

pub const CONST: u32 = 1;
pub const OP_UNIT: u32 = 2;
pub const OP_BOOL: u32 = 3;
pub const LOAD_LOCAL: u32 = 4;
pub const LOAD_NAMED: u32 = 5;
pub const LOAD_THIS: u32 = 6;
pub const POP: u32 = 7;
pub const JUMP: u32 = 8;
pub const JUMP_IF_TRUE: u32 = 9;
pub const JUMP_IF_FALSE: u32 = 10;
pub const SKIP_IF_NOT_UNIT: u32 = 11;
pub const CALL: u32 = 12;
pub const CALL_REF: u32 = 13;
pub const ROTATE: u32 = 14;
pub const OP_SWITCH: u32 = 15;
pub const MAKE_FN_PTR: u32 = 16;
pub const CALL_FN_PTR: u32 = 17;
pub const INTERPOLATE_START: u32 = 18;
pub const INTERPOLATE_APPEND: u32 = 19;
pub const INTERPOLATE_END: u32 = 20;
pub const MAKE_ARRAY: u32 = 21;
pub const CHECK_SIZE: u32 = 22;
pub const OP_CHAIN: u32 = 23;
pub const EVAL_AST: u32 = 24;

fn instruction(op: &Op) -> [u32; CODE_WORDS] {
    let truth = |flag: bool| u32::from(flag);
    match *op {
        Op::Const(index) => [CONST, index, 0, 0],
        Op::Unit => [OP_UNIT, 0, 0, 0],
        Op::Bool(value) => [OP_BOOL, truth(value), 0, 0],
        Op::LoadLocal(slot) => [LOAD_LOCAL, u32::from(slot), 0, 0],
        Op::LoadNamed(name) => [LOAD_NAMED, name, 0, 0],
        Op::LoadThis => [LOAD_THIS, 0, 0, 0],
        Op::Pop => [POP, 0, 0, 0],
        Op::Jump(target) => [JUMP, target, 0, 0],
        Op::JumpIfTrue { target } => [JUMP_IF_TRUE, target, 0, 0],
        Op::JumpIfFalse { target } => [JUMP_IF_FALSE, target, 0, 0],
        Op::SkipIfNotUnit { target } => [SKIP_IF_NOT_UNIT, target, 0, 0],
        Op::Call {
            name,
            argc,
            op,
            capture_parent_scope,
        } => [
            CALL,
            name,
            u32::from(argc) + 256 * truth(capture_parent_scope),
            op.map_or(0, |token| token + 1),
        ],
        Op::CallRef {
            name,
            argc,
            receiver,
            ..
        } => {
            let (kind, c) = match receiver {
                Receiver::Local(slot) => (0, u32::from(slot)),
                Receiver::Named(name) => (1, name),
                Receiver::This => (2, 0),
            };
            [CALL_REF, name, u32::from(argc) + 256 * kind, c]
        }
        Op::Rotate(count) => [ROTATE, u32::from(count), 0, 0],
        Op::Switch(table) => [OP_SWITCH, table, 0, 0],
        Op::MakeFnPtr => [MAKE_FN_PTR, 0, 0, 0],
        Op::CallFnPtr {
            argc,
            capture_parent_scope,
            ..
        } => [CALL_FN_PTR, u32::from(argc), truth(capture_parent_scope), 0],
        Op::InterpolateStart => [INTERPOLATE_START, 0, 0, 0],
        Op::InterpolateAppend => [INTERPOLATE_APPEND, 0, 0, 0],
        Op::InterpolateEnd => [INTERPOLATE_END, 0, 0, 0],
        Op::MakeArray(count) => [MAKE_ARRAY, u32::from(count), 0, 0],
        Op::CheckSize { index, .. } => [CHECK_SIZE, u32::from(index), 0, 0],
        Op::Chain(index) => [OP_CHAIN, index, 0, 0],
        Op::EvalAst { residual, .. } => [EVAL_AST, residual, 0, 0],
    }
}

/// All words of the image.
pub fn words(lowering: &Lowering<'_>) -> Vec<u32> {
    let steps: usize = lowering.chains.iter().map(|chain| chain.steps.len()).sum();
    let cases: usize = lowering
        .switches
        .iter()
        .filter_map(|table| table.cases.as_ref())
        .map(Vec::len)
        .sum();
    let ranges: usize = lowering
        .switches
        .iter()
        .map(|table| table.ranges.len())
        .sum();
    let sizes = [
        lowering.code.len(),
        lowering.consts.len(),
        lowering.names.len(),
        lowering.tokens.len(),
        lowering.residuals.len(),
        lowering.chains.len(),
        steps,
        lowering.switches.len(),
        cases,
        ranges,
        usize::from(lowering.max_stack),
        // The greatest depth, set below.
        0,
    ];
    assert_eq!(sizes.len(), IMAGE_SIZES);
    let total = IMAGE_SIZES
        + (CODE_WORDS + 1) * sizes[0]
        + CONSTANT_WORDS * sizes[1]
        + NAME_WORDS * sizes[2]
        + sizes[3]
        + sizes[4]
        + CHAIN_WORDS * sizes[5]
        + STEP_WORDS * sizes[6]
        + SWITCH_WORDS * sizes[7]
        + CASE_WORDS * sizes[8]
        + RANGE_WORDS * sizes[9];
    let mut out: Vec<u32> = Vec::with_capacity(total);
    out.extend(sizes.iter().map(|size| *size as u32));
    for op in &lowering.code {
        out.extend_from_slice(&instruction(op));
    }
    out.extend(lowering.positions.iter().map(|position| position.word));
    for constant in &lowering.consts {
        out.extend_from_slice(&[constant.kind, constant.a, constant.b]);
    }
    for name in &lowering.names {
        out.extend_from_slice(&[name.own.text, u32::from(name.own.mark), name.namespace]);
    }
    out.extend(lowering.tokens.iter().map(|token| token.0));
    out.extend_from_slice(&lowering.residuals);

    let mut first = 0;
    for chain in &lowering.chains {
        let (kind, one, two) = match chain.root {
            Root::Local { slot, name } => (0, u32::from(slot), name),
            Root::Named { name, pos } => (1, name, pos.word),
            Root::This { pos } => (2, 0, pos.word),
            Root::Temporary => (3, 0, 0),
        };
        let count = chain.steps.len() as u32;
        out.extend_from_slice(&[kind, one, two, first, count, u32::from(chain.operands)]);
        first += count;
    }
    for step in lowering.chains.iter().flat_map(|chain| &chain.steps) {
        out.extend_from_slice(&match *step {
            Step::Index {
                operand,
                flags,
                pos,
                bracket,
            } => [
                0,
                u32::from(operand),
                u32::from(flags.bits()),
                pos.word,
                bracket.word,
                0,
            ],
            Step::Property {
                name,
                getter,
                setter,
                flags,
                pos,
            } => [1, name, getter, setter, u32::from(flags.bits()), pos.word],
            Step::Method {
                name,
                argc,
                operand,
                flags,
                pos,
            } => {
                let (argc, operand) = (u32::from(argc), u32::from(operand));
                [2, name, argc, operand, u32::from(flags.bits()), pos.word]
            }
        });
    }

    let (mut first_case, mut first_range) = (0, 0);
    for table in &lowering.switches {
        match &table.cases {
            Some(cases) => {
                out.extend_from_slice(&[0, first_case, cases.len() as u32, table.default]);
                first_case += cases.len() as u32;
            }
            None => {
                let count = table.ranges.len() as u32;
                out.extend_from_slice(&[1, first_range, count, table.default]);
                first_range += count;
            }
        }
    }
    for (target, constant) in lowering
        .switches
        .iter()
        .filter_map(|table| table.cases.as_ref())
        .flatten()
    {
        out.extend_from_slice(&[*target, *constant]);
    }
    for range in lowering.switches.iter().flat_map(|table| &table.ranges) {
        out.extend_from_slice(&[
            range.from as u32,
            (range.from >> 32) as u32,
            range.to as u32,
            (range.to >> 32) as u32,
            u32::from(range.inclusive),
            range.target,
        ]);
    }
    assert_eq!(out.len(), total);
    out[IMAGE_SIZES - 1] = depth::greatest(&out);
    out
}

// Taken from rhai (rhaiscript/rhai c7d67b9c20), src/grain/compile/mod.rs; MIT OR Apache-2.0.
// What differs from that file, and why, stands in docs/DIFFERENCES.md.

mod cases;
mod slots;

use std::collections::HashMap;

use crate::format::{KEYWORD_EVAL, KEYWORD_FN_PTR, KEYWORD_FN_PTR_CALL, KEYWORD_FN_PTR_CURRY};
use crate::grain::ast::{ASTFlags, Expr, FnCallExpr, PropertyNames};
use crate::grain::bytecode::{
    Chain, Op, Receiver, Root, Step, StepFlags, Switch, SwitchRange, Tail,
};
use crate::grain::compile::slots::Slots;
use crate::grain::stand_in::{
    Dynamic, GuardMark, Marks, Name, Position, SwitchCasesCollection, Token,
};

pub use cases::split;

/// Whether a variable reference is module-qualified, as in `foo::bar`.
macro_rules! has_namespace {
    ($payload:expr) => {
        !$payload.2.is_empty()
    };
}

/// Where a `switch` table entry sends control, before the arms have
/// addresses.
#[derive(Debug, Clone, Copy)]
enum Entry {
    /// Straight to an arm's body: the group has no guard to try first.
    Body(usize),
    /// The head of a guard chain, which is already emitted.
    At(u32),
    /// Nothing in the group can run.
    Default,
}

#[derive(Default)]
pub struct Lowering<'a> {
    pub code: Vec<Op>,
    /// One per instruction, parallel to `code`. Most are `NONE`; the dense
    /// shape is what makes a lookup an index, and it compacts on the way out.
    pub positions: Vec<Position>,
    pub residuals: Vec<u32>,
    pub consts: Vec<Dynamic<'a>>,
    /// Index into `consts` by the constant, to find a duplicate
    /// without comparing with every constant already pooled.
    const_index: HashMap<Dynamic<'a>, u32>,
    pub names: Vec<Name<'a>>,
    name_index: HashMap<Name<'a>, u32>,
    pub tokens: Vec<Token>,
    pub chains: Vec<Chain>,
    chain_index: HashMap<Chain, u32>,
    pub switches: Vec<Switch>,
    pub slots: Slots<'a>,
    pub max_stack: u16,
    /// Set when something nested inside an expression defeated the slot model.
    ///
    /// [`Lowering::expression`] has no way to say so: it is called from the
    /// middle of building other expressions, and every one of those callers
    /// would have to thread the answer back.
    ///
    /// A sticky flag is enough because failure is all or nothing.
    pub defeated: bool,
    /// Not in the Rust: what the self-test and the count are compared with.
    pub marks: Marks,
}

impl<'a> Lowering<'a> {
    /// Lower `a.b[i].c`, either reading it or assigning to it.
    ///
    /// Returns false if the chain is not one this can express, in which case
    /// the caller keeps it as a fragment.
    ///
    /// The shape is the awkward part. Rhai does not store a chain as a list:
    /// `a.b[i]` is `Dot { lhs: a, rhs: Index { lhs: b, rhs: i } }`, where each
    /// nested node's `lhs` is the *current* step's operand and its `rhs` is the
    /// continuation. [`flatten_chain`] unpicks that into steps.
    fn chain(&mut self, expr: &Expr<'a>, tail: Tail, value: Option<&Expr<'a>>) -> bool {
        let Some((root, steps)) = flatten_chain(expr) else {
            return false;
        };

        // A variable root is one the chain can write back into, by slot or by
        // name; anything else has to be both a read and a value Rhai would
        // itself have evaluated into a temporary.
        //
        // `this` is deliberately not in the second class. Rhai reaches it
        // through the caller's `&mut`, so a method step that mutates lands in
        // the caller's value — walking a copy would drop the write silently.
        // It gets a root of its own instead.
        let root_spec = match root {
            Expr::Variable(v, ..) if !has_namespace!(v) => match self.slots.resolve(&v.1) {
                Some(slot) => Root::Local {
                    slot,
                    name: self.push_name(v.1),
                },
                // The caller's, or a module's, or nothing — decided at run
                // time, because which of the three it is decides whether the
                // chain can write through it.
                //
                // The guard is load-bearing: a bare script-function name is a
                // function pointer rather than a variable, and turning one
                // into a name lookup would report it missing where Rhai hands
                // back a pointer.
                None if self.is_variable_name(false) => Root::Named {
                    name: self.push_name(v.1),
                    pos: root.position(),
                },
                None => unreachable!("case above is always taken"),
            },
            Expr::ThisPtr(pos) => Root::This { pos: *pos },
            _ if matches!(tail, Tail::Read) => Root::Temporary,
            // Unreachable through the parser, which refuses `f().x = 1` outright.
            _ => return false,
        };

        // Evaluate the assignment value first, so the chain can read it back
        // after the lvalue steps have been resolved.

        // The chain is a single expression, so the value is evaluated before
        // the root and steps.

        let rewind_mark = self.mark();

        if let Some(value) = value {
            // First evaluate the assigned value first, stash it so the chain
            // can read it back after the lvalue steps have been resolved.
            self.expression(value);
        }

        // Index values and method arguments are evaluated first, in step
        // order, exactly as Rhai collects them before walking.
        // Evaluating one partway down would need the operand stack while
        // a borrow of the container is live.
        let mut lowered = Vec::with_capacity(steps.len());
        let mut operands = 0u16;

        for step in &steps {
            match step {
                ChainStep::Index(index, bracket, flags) => {
                    self.expression(index);
                    lowered.push(Step::Index {
                        operand: operands,
                        flags: *flags,
                        pos: index.start_position(),
                        bracket: *bracket,
                    });
                    operands += 1;
                }
                ChainStep::Property(prop, pos, flags) => {
                    let (getter, setter, name) = &**prop;
                    lowered.push(Step::Property {
                        name: self.push_name(*name),
                        getter: self.push_name(*getter),
                        setter: self.push_name(*setter),
                        flags: *flags,
                        pos: *pos,
                    });
                }
                ChainStep::Method(call, pos, flags) => {
                    match call.name.as_bytes() {
                        KEYWORD_FN_PTR_CALL => (),
                        KEYWORD_FN_PTR_CURRY => (),
                        _ if !self.is_lowerable_call(call) => {
                            if value.is_some() {
                                self.rewind(rewind_mark);
                            }
                            return false;
                        }
                        _ => (),
                    }
                    let Ok(argc) = u8::try_from(call.args.len()) else {
                        if value.is_some() {
                            self.rewind(rewind_mark);
                        }
                        return false;
                    };
                    let first = operands;
                    for arg in call.args.iter() {
                        self.expression(arg);
                        operands += 1;
                    }
                    lowered.push(Step::Method {
                        name: self.push_name(call.name),
                        argc,
                        operand: first,
                        flags: *flags,
                        pos: *pos,
                    });
                }
            }
        }

        // Then the root, if it is one that has to be evaluated. After the
        // operands rather than before, which is Rhai's order and not the
        // reading order: `[f()][g()]` calls `g` first.
        if matches!(root_spec, Root::Temporary) {
            self.expression(root);
        }

        let index = self.push_chain(Chain {
            root: root_spec,
            steps: lowered,
            tail,
            operands,
        });
        self.emit_at(Op::Chain(index), expr.position());
        true
    }

    /// Lower a `switch` into dispatch tables plus the arms they name.
    ///
    /// The layout is: evaluate and keep the subject, [`Op::Switch`] over
    /// hashed cases, a second [`Op::Switch`] over ranges for case misses and
    /// declined guards, then the arm bodies and default.
    ///
    /// Every arm leaves one value and jumps to the end, so the statement's
    /// value is the matched arm's — or unit, which is what an absent `_`
    /// compiles to.
    ///
    /// Guards are why the table does not simply hold bodies. Rhai tries the
    /// arms sharing a case value in source order and, when they all decline,
    /// continues with ranges before the default.
    ///
    /// Nearly every arm anyone writes has no guard, and those cost no chain at
    /// all.
    pub fn switch(&mut self, subject: &Expr<'a>, sw: &SwitchCasesCollection<'a>) -> bool {
        // Overlapping range arms have no single answer at runtime, so they are
        // cut into disjoint pieces here instead. See [`cases::split`].
        let ranges = cases::split(&sw.ranges);

        self.expression(subject);

        // The first table is for the hashed case values.
        let cases_table = self.push_switch();
        self.emit(Op::Switch(cases_table));

        // One chain per distinct list of arms, shared by every table entry
        // naming it: `1 | 2 => ..` is two case values and one chain.
        let mut case_chains: Vec<(&[usize], Entry)> = Vec::new();
        let mut to_body: Vec<(usize, usize)> = Vec::new();
        let mut to_ranges: Vec<usize> = Vec::new();

        for blocks in sw.cases.iter().map(|case| case.blocks.as_slice()) {
            if case_chains.iter().any(|(ex, ..)| *ex == blocks) {
                continue;
            }
            let entry = self.arm_chain(sw, blocks, &mut to_body, &mut to_ranges);
            case_chains.push((blocks, entry));
        }

        // Dispatch to the ranges table if no case value matches or all the guards decline.
        // The default arm is only reached when all ranges fail.
        //
        // The last chain to decline arrives here by falling off its own end, so
        // it needs no jump to say so.
        if !ranges.is_empty() {
            self.drop_idle_jump(&mut to_ranges);
        }

        let ranges_dispatch = self.here();
        let mut to_default: Vec<usize> = Vec::new();

        // One chain per distinct list of ranges, shared by every table entry
        let mut range_chains: Vec<(&[usize], Entry)> = Vec::new();

        let ranges_table = if !ranges.is_empty() {
            // The second table is for the ranges.
            let ranges_table = self.push_switch();
            self.emit(Op::Switch(ranges_table));

            for blocks in ranges.iter().map(|(.., blocks)| blocks.as_slice()) {
                if range_chains.iter().any(|(ex, ..)| *ex == blocks) {
                    continue;
                }
                let entry = self.arm_chain(sw, blocks, &mut to_body, &mut to_default);
                range_chains.push((blocks, entry));
            }

            ranges_table
        } else {
            0
        };

        // Bodies, one per arm something can reach. An arm behind a constant
        // false guard, or one whose range the parser dropped for being empty,
        // is reachable by nothing and is not emitted.
        let mut wanted: Vec<usize> = to_body.iter().map(|(.., block)| *block).collect();
        wanted.extend(
            case_chains
                .iter()
                .chain(range_chains.iter())
                .filter_map(|(.., entry)| match entry {
                    Entry::Body(block) => Some(*block),
                    _ => None,
                }),
        );
        wanted.extend(sw.def_case);
        wanted.sort_unstable();
        wanted.dedup();

        let mut body_at: Vec<(usize, u32)> = Vec::with_capacity(wanted.len());
        let mut to_end: Vec<usize> = Vec::with_capacity(wanted.len());

        for block in wanted {
            body_at.push((block, self.here()));
            self.marks.bodies.push((block, self.here()));
            // An arm body is an ordinary expression, and a block one goes
            // through the same path as `let y = { .. }`.
            self.expression(&sw.expressions[block].rhs);
            if self.defeated {
                return false;
            }
            to_end.push(self.emit_jump());
        }

        let at = |block: usize| {
            body_at
                .iter()
                .find(|(candidate, ..)| *candidate == block)
                .map(|(.., at)| *at)
                .expect("every reachable arm was emitted above")
        };

        let default_at = match sw.def_case {
            Some(block) => at(block),
            None => {
                let target = self.here();
                self.marks.missing_default = Some(target);
                self.emit(Op::Unit);
                target
            }
        };

        // The last body emitted falls into it when there is nothing between the
        // two — which is every `switch` with a `_` arm, because then the default
        // is a body already emitted rather than a unit put here.
        self.drop_idle_jump(&mut to_end);
        let unwind_at = self.here();

        // At the end of the switch, surface and drop the switch subject value
        // that was kept on the stack.
        self.emit(Op::Rotate(1));
        self.emit(Op::Pop);

        for site in to_end {
            self.patch_to(site, unwind_at);
        }
        if ranges.is_empty() {
            for site in to_ranges {
                self.patch_to(site, default_at);
            }
        } else {
            for site in to_ranges {
                self.patch_to(site, ranges_dispatch);
            }
        }
        for site in to_default {
            self.patch_to(site, default_at);
        }
        for (site, block) in to_body {
            self.patch_to(site, at(block));
        }

        let case_target = |blocks: &[usize]| {
            let entry = case_chains
                .iter()
                .find(|(ex, ..)| *ex == blocks)
                .map(|(.., entry)| *entry)
                .expect("every list got a chain above");

            match entry {
                Entry::Body(block) => at(block),
                Entry::At(target) => target,
                Entry::Default => {
                    if ranges.is_empty() {
                        default_at
                    } else {
                        ranges_dispatch
                    }
                }
            }
        };

        self.switches[cases_table as usize] = Switch {
            cases: Some(
                sw.cases
                    .iter()
                    .map(|case| (case_target(&case.blocks), self.push_const(case.value)))
                    .collect(),
            ),
            ranges: Vec::new(),
            default: if ranges.is_empty() {
                default_at
            } else {
                ranges_dispatch
            },
        };

        if !ranges.is_empty() {
            let range_target = |blocks: &[usize]| {
                let entry = range_chains
                    .iter()
                    .find(|(ex, ..)| *ex == blocks)
                    .map(|(.., entry)| *entry)
                    .expect("every list got a chain above");

                match entry {
                    Entry::Body(block) => at(block),
                    Entry::At(target) => target,
                    Entry::Default => default_at,
                }
            };

            self.switches[ranges_table as usize] = Switch {
                cases: None,
                ranges: ranges
                    .iter()
                    .map(|(range, blocks)| SwitchRange {
                        target: range_target(blocks),
                        ..*range
                    })
                    .collect(),
                default: default_at,
            };
        }

        true
    }

    /// Emit the guard chain for one group of arms, and say where the table
    /// entries naming that group should point.
    fn arm_chain(
        &mut self,
        sw: &SwitchCasesCollection<'a>,
        blocks: &[usize],
        to_body: &mut Vec<(usize, usize)>,
        to_fallback: &mut Vec<usize>,
    ) -> Entry {
        let mut entry: Option<Entry> = None;

        for block in blocks {
            match &sw.expressions[*block].lhs {
                // An arm without an `if` is a literal `true` in the tree,
                // so it always runs and everything after it in the group
                // is unreachable.
                Expr::BoolConstant(true, ..) => {
                    return match entry {
                        None => Entry::Body(*block),
                        Some(entry) => {
                            to_body.push((self.emit_jump(), *block));
                            entry
                        }
                    };
                }
                // Nothing can reach this arm, so nothing is emitted for it.
                Expr::BoolConstant(false, ..) => continue,
                guard => {
                    if entry.is_none() {
                        entry = Some(Entry::At(self.here()));
                    }
                    let at = self.here();
                    self.expression(guard);
                    let site = self.code.len();
                    self.marks.guards.push(GuardMark {
                        block: *block,
                        at,
                        site: site as u32,
                    });
                    // Rhai reports a non-boolean guard against the guard, so
                    // the jump carries the guard's position.
                    self.emit_at(Op::JumpIfTrue { target: u32::MAX }, guard.position());
                    to_body.push((site, *block));
                }
            }
        }

        match entry {
            Some(entry) => {
                to_fallback.push(self.emit_jump());
                entry
            }
            // Every arm in the group is behind a constant false guard, so the
            // group is the default with extra steps.
            None => Entry::Default,
        }
    }

    /// Reserve a table, to be filled in once its arms have addresses.
    fn push_switch(&mut self) -> u32 {
        self.switches.push(Switch {
            cases: None,
            ranges: Vec::new(),
            default: 0,
        });
        (self.switches.len() - 1) as u32
    }

    fn push_chain(&mut self, chain: Chain) -> u32 {
        if let Some(index) = self.chain_index.get(&chain) {
            return *index;
        }
        self.chain_index
            .insert(chain.clone(), self.chains.len() as u32);
        self.chains.push(chain);
        (self.chains.len() - 1) as u32
    }

    /// Lower one expression, leaving its value on the stack.
    pub fn expression(&mut self, expr: &Expr<'a>) {
        match expr {
            Expr::BoolConstant(value, ..) => self.emit(Op::Bool(*value)),
            Expr::Unit(..) => self.emit(Op::Unit),

            Expr::IntegerConstant(value, ..) => self.constant(Dynamic::from_int(*value)),
            Expr::CharConstant(value, ..) => self.constant(Dynamic::from_char(*value)),
            Expr::StringConstant(value, ..) => self.constant(Dynamic::from_string(*value)),
            Expr::FloatConstant(value, ..) => self.constant(Dynamic::from_float_bits(*value)),

            Expr::Variable(payload, ..) => {
                // A qualified name resolves against imported modules, not the
                // scope, so it is not a slot.
                let is_qualified = has_namespace!(payload);

                match self.slots.resolve(&payload.1) {
                    Some(slot) if !is_qualified => self.emit(Op::LoadLocal(slot)),
                    // Not a local this compiler declared, so no slot can name
                    // it: it is the caller's, a module's, or nothing. Looked
                    // up by name at run time, at the cost of a scope scan.
                    _ if !is_qualified => {
                        let name = self.push_name(payload.1);
                        self.emit_at(Op::LoadNamed(name), expr.position());
                    }
                    _ => {
                        let name = self.push_name(crate::grain::bytecode::names::qualify(
                            &payload.2, &payload.1,
                        ));
                        self.emit_at(Op::LoadNamed(name), payload.2.position());
                    }
                }
            }

            Expr::And(operands, ..) => self.short_circuit(operands, false),
            Expr::Or(operands, ..) => self.short_circuit(operands, true),
            Expr::Coalesce(operands, ..) => self.coalesce(operands),

            Expr::FnCall(call, pos) if self.fn_ptr_call(call, *pos) => {}

            Expr::FnCall(call, pos) if self.is_lowerable_call(call) => {
                self.lower_call(call, *pos);
            }

            // `eval` evaluates a script in the *caller's* scope, so what it
            // declares outlives it and the next statement can name it. The
            // slot model resolved its indices against a scope that does not
            // have those entries, so a lowered read past an `eval` looks in
            // the wrong place — `eval("let x = 40"); x + 2` found no `x` where
            // the walker found 40. Refusing the lowering hands the body to the
            // walker, which is the only thing that knows the real shape.
            Expr::FnCall(call, ..) if call.name.as_bytes() == KEYWORD_EVAL => {
                self.residual_expr(expr);
                self.defeated = true;
            }

            // A literal whose elements are all constant never reaches here —
            // Rhai's optimizer folds it into a `DynamicConstant` first — so
            // this is the one that has to be built at run time.
            Expr::Array(elements, ..) if elements.len() <= u16::MAX as usize => {
                for (index, element) in elements.iter().enumerate() {
                    self.expression(element);
                    // Positioned at the element, because that is what Rhai
                    // blames when this element is the one that tips the
                    // running total over the limit.
                    self.emit_at(
                        Op::CheckSize {
                            index: index as u16,
                            is_map: false,
                        },
                        element.position(),
                    );
                }
                self.emit_at(Op::MakeArray(elements.len() as u16), expr.position());
            }

            // The optimizer folds an all-constant interpolation away before
            // this sees it, so what arrives has at least two segments.
            Expr::InterpolatedString(segments, ..) => {
                self.emit(Op::InterpolateStart);
                for segment in segments.iter() {
                    self.expression(segment);
                    // The append carries the segment's own position, because
                    // that is what Rhai blames when the size limit goes over.
                    self.emit_at(Op::InterpolateAppend, segment.position());
                }
                self.emit(Op::InterpolateEnd);
            }

            Expr::Dot(..) | Expr::Index(..) => {
                // A chain emits its own operands, so a failed attempt has to
                // leave nothing behind.
                let mark = self.mark();
                if !self.chain(expr, Tail::Read, None) {
                    self.rewind(mark);
                    self.residual_expr(expr);
                }
            }

            // Listed rather than matched with `_`, for the reason
            // [`Lowering::statement`] gives: a wildcard is what let `eval`
            // become a fragment that answered differently from the walker.
            //
            // These are fragments because none of them can change the shape of
            // the scope the slot model resolved its indices against. The
            // guarded arms above fall through to here when their guard fails —
            // a pool-defeating constant, a literal too long for its operand, a
            // call Rhai resolves syntactically.
            // The frame's receiver, flattened as every consumer but three
            // wants it — see [`Op::LoadThis`] and `unflattened` below. Its own
            // position, because that is what `ErrorUnboundThis` carries.
            Expr::ThisPtr(pos) => self.emit_at(Op::LoadThis, *pos),

            Expr::MethodCall(..) | Expr::Property(..) | Expr::FnCall(..) | Expr::Array(..) => {
                self.residual_expr(expr)
            }
        }
    }

    /// Where Rhai's method-call rewrite would take this call's first argument
    /// from, if it applies at all.
    fn receiver(&mut self, call: &FnCallExpr<'a>) -> Option<Receiver> {
        // An operator short-circuits before the rewrite is reached, and a call
        // that captures the enclosing scope is excluded from it outright.
        if call.op_token.is_some() || call.capture_parent_scope {
            return None;
        }

        // `f(this, ..)` takes the same rewrite as a variable. Rhai also requires
        // the receiver not to be shared and nothing to be curried, and neither
        // is a question the compiler can answer: sharing is a run-time property,
        // deferred to the VM as it already is for a read-only local, and a
        // curried redirect can never reach this instruction because
        // `call`/`curry` go through `Op::CallFnPtr` and `is_lowerable_call`
        // refuses them here.
        if let Some(Expr::ThisPtr(..)) = call.args.first() {
            return Some(Receiver::This);
        }

        let Some(Expr::Variable(payload, ..)) = call.args.first() else {
            return None;
        };
        let qualified = has_namespace!(payload);

        match self.slots.resolve(&payload.1) {
            Some(slot) if !qualified => Some(Receiver::Local(slot)),
            _ if self.is_variable_name(qualified) => {
                Some(Receiver::Named(self.push_name(payload.1)))
            }
            _ => None,
        }
    }

    /// Push the arguments left to right, then dispatch.
    fn lower_call(&mut self, call: &FnCallExpr<'a>, pos: Position) {
        let capture_parent_scope = call.capture_parent_scope;
        let argc = u8::try_from(call.args.len()).expect("checked by is_lowerable_call");

        // Namespace-qualified?
        if !call.namespace.is_empty() {
            let mut name = crate::grain::bytecode::names::qualify(&call.namespace, &call.name);
            if capture_parent_scope {
                name = name.marked();
            }
            let name = self.push_name(name);

            // `ns::f(x, ..)` -> `ns::f(&mut x, ..)`
            if let Some(receiver) = self.receiver(call) {
                match receiver {
                    Receiver::This => self.emit_at(Op::LoadThis, call.args[0].position()),
                    Receiver::Named(var) => {
                        self.emit_at(Op::LoadNamed(var), call.args[0].position())
                    }
                    _ => (),
                }
                for arg in call.args.iter().skip(1) {
                    self.expression(arg);
                }

                self.emit_at(
                    Op::CallRef {
                        name,
                        argc,
                        receiver,
                        capture_parent_scope,
                    },
                    pos,
                );
            } else {
                for arg in call.args.iter() {
                    self.expression(arg);
                }
                self.emit_at(
                    Op::Call {
                        name,
                        argc,
                        op: None,
                        capture_parent_scope,
                    },
                    pos,
                );
            }
            return;
        }

        // `f(x, ..)` is `x.f(..)`, so the variable is read after the other
        // arguments and by reference. See [`Op::CallRef`].
        if let Some(receiver) = self.receiver(call) {
            // `this` goes on *first*, unlike either of the others. Rhai's two
            // arms disagree about when it is read: the by-reference one takes a
            // pointer after the arguments, but the fallback a shared or unbound
            // receiver lands in reads and flattens it before them.
            //
            // Reading first is what makes an unbound `f(this, no_such)` report
            // `ErrorUnboundThis`, and what stops an argument that writes to
            // `this` being seen by the value passed.
            if let Receiver::This = receiver {
                self.emit_at(Op::LoadThis, call.args[0].position());
            }
            for arg in call.args.iter().skip(1) {
                self.expression(arg);
            }
            // A name is resolved here, where its own position is the one an
            // `ErrorVariableNotFound` wants, and then moved under the arguments
            // it was read after.
            if let Receiver::Named(var) = receiver {
                self.emit_at(Op::LoadNamed(var), call.args[0].position());
                if argc > 1 {
                    self.emit(Op::Rotate(argc - 1));
                }
            }

            let name = if capture_parent_scope {
                self.push_name(call.name.marked())
            } else {
                self.push_name(call.name)
            };
            self.emit_at(
                Op::CallRef {
                    name,
                    argc,
                    receiver,
                    capture_parent_scope,
                },
                pos,
            );
            return;
        }

        for arg in call.args.iter() {
            self.expression(arg);
        }
        let op = (argc == 1 || argc == 2)
            .then_some(call.op_token)
            .flatten()
            .map(|token| self.push_token(token));
        let capture_parent_scope = capture_parent_scope && op.is_none();
        let name = if capture_parent_scope {
            self.push_name(call.name.marked())
        } else {
            self.push_name(call.name)
        };
        self.emit_at(
            Op::Call {
                name,
                argc,
                op,
                capture_parent_scope,
            },
            pos,
        );
    }

    /// Whether a name read is a variable read at all.
    ///
    /// Currently everything other than a namespace-qualified name
    /// is considered a valid variable name.
    ///
    /// Keeping this a separate function for future expansion purposes.
    #[inline(always)]
    const fn is_variable_name(&self, qualified: bool) -> bool {
        !qualified
    }

    /// Lower `Fn(name)`, `curry(f, ..)` or `call(f, ..)`, if this is one.
    ///
    /// Rhai resolves these three by name before dispatch, but only at the
    /// arities it recognizes; anything else is an ordinary call that will
    /// not find a function.
    ///
    /// Matching those arities exactly is what keeps the two agreeing on
    /// the failures as well as the successes.
    fn fn_ptr_call(&mut self, call: &FnCallExpr<'a>, pos: Position) -> bool {
        if !call.namespace.is_empty() {
            return false;
        }
        let argc = call.args.len();

        match (call.name.as_bytes(), argc) {
            // All of these are reported against the *argument* rather than
            // against the call: Rhai reads it, and everything it can then
            // complain about — a name that is not a string, a string that is
            // not an identifier, a first argument that is not a pointer — is
            // filled in with the argument's position.
            (KEYWORD_FN_PTR, 1) => {
                self.expression(&call.args[0]);
                self.emit_at(Op::MakeFnPtr, call.args[0].position());
            }
            (KEYWORD_FN_PTR_CALL, _) if argc >= 1 && argc <= u8::MAX as usize + 1 => {
                for arg in call.args.iter() {
                    self.expression(arg);
                }
                self.emit_at(
                    Op::CallFnPtr {
                        argc: (argc - 1) as u8,
                        is_method: false,
                        capture_parent_scope: call.capture_parent_scope,
                        // Call position binds no receiver at all.
                        receiver: None,
                    },
                    pos,
                );
            }
            _ => return false,
        }
        true
    }

    /// Whether a call can go through generic dispatch.
    ///
    /// Rhai resolves a handful of names syntactically before dispatch ever happens,
    /// so routing those through `call_fn_raw` would change what they mean.
    /// A call that captures the enclosing scope is closure construction,
    /// and a qualified name resolves against imported modules;
    /// neither is a plain call.
    fn is_lowerable_call(&self, call: &FnCallExpr<'a>) -> bool {
        // These are handled by `is_syntactic_call` above, but only at the
        // arities Rhai treats syntactically — at any other arity it falls
        // through to ordinary dispatch, and so must catch them here.
        const SYNTACTIC: &[&[u8]] = &[
            KEYWORD_EVAL,
            KEYWORD_FN_PTR,
            KEYWORD_FN_PTR_CALL,
            KEYWORD_FN_PTR_CURRY,
        ];

        call.args.len() <= u8::MAX as usize && !SYNTACTIC.contains(&call.name.as_bytes())
    }

    /// Lower `&&` or `||`: evaluate operands left to right, stopping at the
    /// first that decides the result.
    ///
    /// Each operand is coerced to bool at its own position, which is why the
    /// jumps carry one — Rhai reports a non-boolean operand against the
    /// operand, not the expression.
    fn short_circuit(&mut self, operands: &[Expr<'a>], stop_on: bool) {
        let mut decided = Vec::new();

        for operand in operands {
            self.expression(operand);
            let pos = operand.position();
            let site = self.code.len();
            self.emit_at(
                if stop_on {
                    Op::JumpIfTrue { target: u32::MAX }
                } else {
                    Op::JumpIfFalse { target: u32::MAX }
                },
                pos,
            );
            decided.push(site);
        }

        self.emit(Op::Bool(!stop_on));
        let past = self.emit_jump();
        for site in decided {
            self.patch_here(site);
        }
        self.emit(Op::Bool(stop_on));
        self.patch_here(past);
    }

    /// Lower `??`: evaluate operands left to right, stopping at the
    /// first that is not unit.
    fn coalesce(&mut self, operands: &[Expr<'a>]) {
        let mut decided = Vec::new();
        let last = operands.len();

        for operand in operands {
            self.expression(operand);

            // Leave the last operand to fall through, so it is the one that decides
            // if all the other operands are `()`
            if decided.len() < last - 1 {
                let pos = operand.position();
                let site = self.code.len();
                self.emit_at(Op::SkipIfNotUnit { target: u32::MAX }, pos);
                self.emit_at(Op::Pop, pos);
                decided.push(site);
            }
        }
        for site in decided {
            self.patch_here(site);
        }
    }

    /// Where the instruction list currently ends, for [`Lowering::rewind`].
    fn mark(&self) -> usize {
        self.code.len()
    }

    /// Drop everything emitted since `mark`.
    ///
    /// Only safe for a region no surviving jump points into or out of. A chain
    /// qualifies because it emits its operands and then one instruction, and
    /// gives up before emitting that instruction; so does the single jump
    /// [`Lowering::drop_idle_jump`] takes back, which goes with its site.
    fn rewind(&mut self, mark: usize) {
        self.code.truncate(mark);
        self.positions.truncate(mark);
    }

    /// Take back a jump that would land on the instruction after itself.
    ///
    /// Call it where the next instruction emitted *is* what `sites` is waiting
    /// for: the last of them can then fall through to that instruction instead
    /// of jumping to it, so it is dropped along with its place in the list
    /// rather than patched.
    ///
    /// Only the last entry is a candidate, because only it can still be the
    /// instruction most recently emitted — and nothing can point at it yet.
    /// These lists are patched once every body has an address, and what a switch
    /// table holds are guards and bodies, never the jumps out of them.
    fn drop_idle_jump(&mut self, sites: &mut Vec<usize>) {
        if let Some(&site) = sites.last() {
            if site + 1 == self.code.len() {
                sites.pop();
                self.rewind(site);
            }
        }
    }

    fn here(&self) -> u32 {
        u32::try_from(self.code.len()).expect("chunk length is bounded")
    }

    /// Emit a jump with a placeholder target, returning its site for patching.
    fn emit_jump(&mut self) -> usize {
        let site = self.code.len();
        self.emit(Op::Jump(u32::MAX));
        site
    }

    /// Point a previously emitted jump at the next instruction.
    fn patch_here(&mut self, site: usize) {
        let target = self.here();
        self.patch_to(site, target);
    }

    /// Point a previously emitted jump at an instruction already emitted.
    fn patch_to(&mut self, site: usize, target: u32) {
        match &mut self.code[site] {
            Op::Jump(slot)
            | Op::JumpIfFalse { target: slot, .. }
            | Op::JumpIfTrue { target: slot, .. }
            | Op::SkipIfNotUnit { target: slot, .. } => *slot = target,
            other => unreachable!("patched a {other:?}, which is not a jump"),
        }
    }

    fn residual_expr(&mut self, expr: &Expr<'a>) {
        let residual = self.push_residual(expr.node());
        self.emit(Op::EvalAst {
            residual,
            rewind_scope: true,
        });
    }

    fn constant(&mut self, value: Dynamic<'a>) {
        let index = self.push_const(value);
        self.emit(Op::Const(index));
    }

    fn push_const(&mut self, value: Dynamic<'a>) -> u32 {
        let next = self.consts.len() as u32;
        let index = *self.const_index.entry(value).or_insert(next);
        if index == next {
            self.consts.push(value);
        }
        index
    }

    fn push_name(&mut self, name: impl Into<Name<'a>>) -> u32 {
        let name = name.into();
        let next = self.names.len() as u32;
        let index = *self.name_index.entry(name).or_insert(next);
        if index == next {
            self.names.push(name);
        }
        index
    }

    /// A script uses a handful of distinct operators however many times it
    /// mentions them, so the pool stays tiny and a linear scan is right.
    fn push_token(&mut self, token: Token) -> u32 {
        if let Some(index) = self.tokens.iter().position(|existing| *existing == token) {
            return index as u32;
        }
        self.tokens.push(token);
        (self.tokens.len() - 1) as u32
    }

    fn push_residual(&mut self, expr: u32) -> u32 {
        self.residuals.push(expr);
        (self.residuals.len() - 1) as u32
    }

    fn emit(&mut self, op: Op) {
        // An upper bound, not the answer: no instruction pushes more than one
        // value, so one slot per instruction cannot be too small. The verifier
        // replaces it with the measured high water once lowering is done.
        self.max_stack = self.max_stack.saturating_add(1);
        self.marks.emitted += 1;
        self.code.push(op);
        self.positions.push(Position::NONE);
    }

    /// Emit an instruction that can fail against a place in the source.
    ///
    /// The position goes to the side table rather than into the instruction, so
    /// it can be stripped from an artifact without touching the code.
    fn emit_at(&mut self, op: Op, pos: Position) {
        self.emit(op);
        *self.positions.last_mut().expect("just emitted") = pos;
    }
}

/// One step, still as AST.
/// A step, and where Rhai would blame it.
///
/// The position travels with the step rather than being taken from the chain:
/// Rhai reports each kind against its own node, and one chain instruction has
/// only one position-table entry between all of them.
enum ChainStep<'a, 's> {
    /// The index expression, and the `[` it sits behind — see [`Step::Index`].
    Index(&'a Expr<'s>, Position, StepFlags),
    Property(&'a PropertyNames<'s>, Position, StepFlags),
    Method(&'a FnCallExpr<'s>, Position, StepFlags),
}

/// Unpick Rhai's nested chain encoding into a root and a list of steps.
///
/// `a.b[i]` is `Dot { lhs: a, rhs: Index { lhs: b, rhs: i } }`: each nested
/// node's `lhs` is the current step's operand and its `rhs` is the
/// continuation, so the list is built by walking `rhs` and taking `lhs` at each
/// level. The innermost `rhs` is the last step rather than a continuation,
/// which is what ends the walk.
///
/// [`ASTFlags::BREAK`] is what ends it, and it carries real information:
/// `a[b[0]]` and `a[b][0]` have the same shape, and the flag is the only thing
/// that says the first one's `b[0]` is an index expression rather than two
/// steps.
///
/// Returns `None` for a dot onto anything but a property or a method.
fn flatten_chain<'a, 's>(expr: &'a Expr<'s>) -> Option<(&'a Expr<'s>, Vec<ChainStep<'a, 's>>)> {
    /// A chain node's parts: operand side, continuation side, and whether the
    /// step it introduces is a property rather than an index.
    fn parts<'a, 's>(expr: &'a Expr<'s>) -> Option<(&'a Expr<'s>, &'a Expr<'s>, ASTFlags, bool)> {
        match expr {
            Expr::Dot(binary, flags, ..) => Some((&binary.lhs, &binary.rhs, *flags, true)),
            Expr::Index(binary, flags, ..) => Some((&binary.lhs, &binary.rhs, *flags, false)),
            _ => None,
        }
    }

    let (root, mut rest, mut flags, mut dotted) = parts(expr)?;
    let mut steps = Vec::new();
    // Rhai's `op_pos`, which is the position of the chain node the step is
    // being taken *inside* rather than of the step's operand, and which walks
    // down with the recursion.
    let mut bracket_pos = expr.position();

    loop {
        let mut step_flags = StepFlags::default();

        if flags.contains(ASTFlags::NEGATED) {
            step_flags.insert(StepFlags::SKIP_IF_UNIT);
        }

        // `rest` is the continuation only when it is a chain node *and* this
        // node is not marked as the last one. Otherwise it is this step's own
        // operand — the index expression, or the property being read.
        let next = (!flags.contains(ASTFlags::BREAK))
            .then(|| parts(rest))
            .flatten();

        let (operand, following) = match next {
            Some((operand, _, _, _)) => (operand, Some(rest)),
            None => (rest, None),
        };

        steps.push(match (dotted, operand) {
            (true, Expr::Property(prop, pos)) => ChainStep::Property(prop, *pos, step_flags),
            (true, Expr::MethodCall(call, pos)) => ChainStep::Method(call, *pos, step_flags),
            // `a.(expr)` is not syntax, so a dot onto anything else is a shape
            // the parser only makes for something handled elsewhere.
            (true, _) => return None,
            (false, index) => ChainStep::Index(index, bracket_pos, step_flags),
        });

        match following {
            Some(node) => {
                let (_, next_rest, next_flags, next_dotted) =
                    parts(node).expect("checked by `next`");
                rest = next_rest;
                flags = next_flags;
                dotted = next_dotted;
                bracket_pos = node.position();
            }
            None => break,
        }
    }

    Some((root, steps))
}

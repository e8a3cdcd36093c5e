//! What lowering would emit, and whether it would reach an `eval`, without
//! lowering. Written from document 01, over the nodes of the sheet.
//!
//! A guard is counted once, however many lists name it, so this ends soon even
//! where the lowering itself would not.

use std::collections::HashSet;

use crate::format::*;
use crate::grain::stand_in::ImmutableString;
use crate::sheet::Sheet;
use crate::tree::name;

#[derive(Clone, Copy, Debug, Default, PartialEq, Eq)]
pub struct Count {
    /// Instructions emitted, those taken back included.
    pub emitted: u64,
    /// Whether an FnCall `eval` is reached.
    pub eval: bool,
}

impl std::ops::AddAssign for Count {
    fn add_assign(&mut self, other: Count) {
        self.emitted += other.emitted;
        self.eval |= other.eval;
    }
}

const ONE: Count = Count {
    emitted: 1,
    eval: false,
};

fn plain(emitted: u64) -> Count {
    Count {
        emitted,
        eval: false,
    }
}

/// The count for a whole sheet that the numbers 1 to 8 let pass.
pub fn whole(sheet: &Sheet<'_>) -> Count {
    let locals = (0..sheet.locals)
        .map(|slot| name(sheet, sheet.local(slot)))
        .collect();
    let counter = Counter {
        sheet: *sheet,
        locals,
    };
    if sheet.node(0).kind == SWITCH {
        counter.switch()
    } else {
        counter.expression(0)
    }
}

struct Counter<'a> {
    sheet: Sheet<'a>,
    /// The locals' names, as a set by bytes.
    locals: HashSet<ImmutableString<'a>>,
}

impl Counter<'_> {
    fn all(&self, children: impl Iterator<Item = usize>) -> Count {
        let mut sum = Count::default();
        for child in children {
            sum += self.expression(child);
        }
        sum
    }

    fn expression(&self, index: usize) -> Count {
        let sheet = self.sheet;
        let node = sheet.node(index);
        let count = u64::from(node.count);
        let children = || self.all(sheet.children(index));
        match node.kind {
            BOOL | UNIT | INT | FLOAT | CHAR | STRING | VARIABLE | THIS => ONE,
            // Outside a chain these are residuals.
            PROPERTY | METHOD_CALL => ONE,
            INTERPOLATED => {
                // Start, an append for each, end.
                let mut sum = children();
                sum.emitted += count + 2;
                sum
            }
            ARRAY if node.count <= MAX_ELEMENTS => {
                // A CheckSize for each, MakeArray.
                let mut sum = children();
                sum.emitted += count + 1;
                sum
            }
            ARRAY => ONE,
            AND | OR => {
                // A jump for each, then Bool, Jump, Bool.
                let mut sum = children();
                sum.emitted += count + 3;
                sum
            }
            COALESCE => {
                // SkipIfNotUnit and Pop after each but the last.
                let mut sum = children();
                sum.emitted += 2 * (count - 1);
                sum
            }
            FN_CALL => self.call(index),
            DOT | INDEX => self.chain(index),
            kind => unreachable!("kind {kind} is no expression here"),
        }
    }

    fn call(&self, index: usize) -> Count {
        let sheet = self.sheet;
        let node = sheet.node(index);
        let count = node.count;
        let name = sheet.text(node.a);
        if name == KEYWORD_EVAL {
            return Count {
                emitted: 1,
                eval: true,
            };
        }
        let qualified = sheet.namespace(&node).is_some();
        let special = name == KEYWORD_FN_PTR || name == KEYWORD_FN_PTR_CALL;
        let lowers = if qualified && special {
            false
        } else if name == KEYWORD_FN_PTR {
            count == 1
        } else if name == KEYWORD_FN_PTR_CALL {
            (1..=MAX_CALL_ARGUMENTS).contains(&count)
        } else {
            name != KEYWORD_FN_PTR_CURRY && count <= MAX_ARGUMENTS
        };
        if !lowers {
            return ONE;
        }
        // The arguments, and the instruction itself.
        let mut sum = self.all(sheet.children(index));
        sum += ONE;
        if special || node.b == 1 || node.c != 0 || count == 0 {
            return sum;
        }
        // A first argument that is an unqualified variable becomes the receiver: a
        // local one is not loaded, any other gets a Rotate where it has company,
        // unless the call is qualified.
        let first = sheet.node(index + 1);
        if first.kind == VARIABLE && sheet.namespace(&first).is_none() {
            if self.is_local(first.a) {
                sum.emitted -= 1;
            } else if count > 1 && !qualified {
                sum.emitted += 1;
            }
        }
        sum
    }

    fn is_local(&self, text: u32) -> bool {
        self.locals.contains(&name(&self.sheet, text))
    }

    /// A Dot or Index: its steps' operands in order, then its root if that is
    /// neither an unqualified variable nor `this`, then the Chain. A step that fails takes back
    /// what was emitted, and a residual stands for the whole.
    fn chain(&self, index: usize) -> Count {
        let sheet = self.sheet;
        // The operands of the steps first: a chain that is none emits nothing.
        let mut steps: Vec<(bool, usize)> = Vec::new();
        let mut at = index;
        loop {
            let node = sheet.node(at);
            let right = self.right_side(at);
            let dotted = node.kind == DOT;
            let goes_on = node.a & BREAK == 0 && matches!(sheet.node(right).kind, DOT | INDEX);
            let operand = if goes_on { right + 1 } else { right };
            if dotted && !matches!(sheet.node(operand).kind, PROPERTY | METHOD_CALL) {
                return ONE;
            }
            steps.push((dotted, operand));
            if !goes_on {
                break;
            }
            at = right;
        }
        let mut sum = Count::default();
        for (dotted, operand) in steps {
            if !dotted {
                sum += self.expression(operand);
                continue;
            }
            let node = sheet.node(operand);
            if node.kind == METHOD_CALL {
                let name = sheet.text(node.a);
                if name == KEYWORD_EVAL || name == KEYWORD_FN_PTR || node.count > MAX_ARGUMENTS {
                    sum += ONE;
                    return sum;
                }
                sum += self.all(sheet.children(operand));
            }
        }
        let root = index + 1;
        let node = sheet.node(root);
        let addressed = match node.kind {
            VARIABLE => sheet.namespace(&node).is_none(),
            kind => kind == THIS,
        };
        if !addressed {
            sum += self.expression(root);
        }
        sum += ONE;
        sum
    }

    /// The second child of a Dot or Index.
    fn right_side(&self, index: usize) -> usize {
        let sheet = self.sheet;
        index + 1 + sheet.node(index + 1).span as usize
    }

    fn switch(&self) -> Count {
        let sheet = self.sheet;
        let node = sheet.node(0);
        let blocks = node.a as usize;
        let children: Vec<usize> = sheet.children(0).collect();
        let guard_of = |block: usize| children[1 + 2 * block];
        let body_of = |block: usize| children[2 + 2 * block];
        let case_nodes = &children[1 + 2 * blocks..1 + 2 * blocks + node.b as usize];
        let range_nodes = &children[1 + 2 * blocks + node.b as usize..];

        let mut guards: Vec<Option<Count>> = vec![None; blocks];
        let mut wanted = vec![false; blocks];

        // One chain for each distinct list.
        let mut lists = |lists: Vec<Vec<usize>>| {
            let mut sum = Count::default();
            for (index, list) in lists.iter().enumerate() {
                if lists[..index].contains(list) {
                    continue;
                }
                let mut tried = false;
                let mut taken = false;
                for &block in list {
                    let guard = sheet.node(guard_of(block));
                    if guard.kind == BOOL && guard.a == 1 {
                        wanted[block] = true;
                        taken = true;
                        // A jump to the body, unless the table goes there itself.
                        sum.emitted += u64::from(tried);
                        break;
                    }
                    if guard.kind == BOOL {
                        continue;
                    }
                    wanted[block] = true;
                    tried = true;
                    sum += *guards[block].get_or_insert_with(|| self.expression(guard_of(block)));
                    sum += ONE;
                }
                // The jump on after the last guard.
                sum.emitted += u64::from(tried && !taken);
            }
            sum
        };

        // The subject and the first Switch.
        let mut sum = self.expression(children[0]);
        sum += ONE;
        sum += lists(
            case_nodes
                .iter()
                .map(|case| {
                    sheet
                        .children(*case)
                        .skip(1)
                        .map(|part| sheet.node(part).a as usize)
                        .collect()
                })
                .collect(),
        );
        let ranges = range_lists(&sheet, range_nodes);
        if !ranges.is_empty() {
            sum += ONE;
            sum += lists(ranges);
        }
        if node.c > 0 {
            wanted[node.c as usize - 1] = true;
        } else {
            sum += ONE;
        }
        for (block, _) in wanted.iter().enumerate().filter(|(_, wanted)| **wanted) {
            sum += self.expression(body_of(block));
            sum += ONE;
        }
        // Rotate and Pop.
        sum += plain(2);
        sum
    }
}

/// The block lists of all integers that some range contains, and of what lies
/// between two neighbouring integers. Lists may come more than once.
fn range_lists(sheet: &Sheet<'_>, range_nodes: &[usize]) -> Vec<Vec<usize>> {
    struct Range {
        /// Twice the first and the last integer or gap; a gap is odd.
        first: i128,
        last: i128,
        block: usize,
    }
    // An integer n stands at 2n, the gap above it at 2n + 1. An exclusive range
    // ends in the gap below its end.
    let ranges: Vec<Range> = range_nodes
        .iter()
        .map(|index| {
            let node = sheet.node(*index);
            let start = i128::from(crate::tree::integer(&sheet.node(index + 1)));
            let end = i128::from(crate::tree::integer(&sheet.node(index + 2)));
            let last = if node.a == 1 { 2 * end } else { 2 * end - 1 };
            Range {
                first: 2 * start,
                last,
                block: node.b as usize,
            }
        })
        .collect();
    // The list changes only where a range begins or has just ended.
    let mut places: Vec<i128> = ranges.iter().flat_map(|r| [r.first, r.last + 1]).collect();
    places.sort_unstable();
    places.dedup();
    places
        .iter()
        .map(|place| {
            ranges
                .iter()
                .filter(|r| r.first <= *place && *place <= r.last)
                .map(|r| r.block)
                .collect::<Vec<_>>()
        })
        .filter(|list| !list.is_empty())
        .collect()
}

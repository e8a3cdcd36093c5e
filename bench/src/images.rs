//! Images to time the check on: made by hand, and hostile ones. Each maker is given a count of words, which its image does not exceed and most come
//! near to. All images stand beside the same small sheet.

use oracle::draft::Draft;
use oracle::format::*;
use oracle::image::*;
use oracle::random::Random;

/// The sheet of the images: one Unit, one text, one local.
pub fn sheet() -> Vec<u8> {
    let mut draft = Draft::new();
    let name = draft.text(b"port");
    draft.locals = vec![name];
    draft.leaf(UNIT, [0; 3], 1);
    draft.to_bytes()
}

/// A maker of images, with a name and the number that they must get.
pub struct Maker {
    pub name: String,
    pub number: u32,
    make: Box<dyn Fn(usize) -> Vec<u32>>,
}

impl Maker {
    /// The image of about so many words.
    pub fn image(&self, words: usize) -> Vec<u32> {
        (self.make)(words)
    }
}

fn accepted(name: &str, make: impl Fn(usize) -> Vec<u32> + 'static) -> Maker {
    Maker {
        name: name.into(),
        number: 0,
        make: Box::new(make),
    }
}

/// Not well made.
fn refused(name: &str, make: impl Fn(usize) -> Vec<u32> + 'static) -> Maker {
    Maker {
        number: ILL_MADE,
        ..accepted(name, make)
    }
}

/// The number of an image that is not well made.
pub const ILL_MADE: u32 = 13;

/// A run of rows in their pool, or of steps: the first, and how many.
type Run = (u32, u32);

/// The sections of an image that is being made.
#[derive(Default)]
struct Parts {
    code: Vec<[u32; CODE_WORDS]>,
    constants: Vec<[u32; CONSTANT_WORDS]>,
    names: Vec<[u32; NAME_WORDS]>,
    tokens: Vec<u32>,
    residuals: Vec<u32>,
    chains: Vec<[u32; CHAIN_WORDS]>,
    steps: Vec<[u32; STEP_WORDS]>,
    tables: Vec<[u32; SWITCH_WORDS]>,
    cases: Vec<[u32; CASE_WORDS]>,
    ranges: Vec<[u32; RANGE_WORDS]>,
}

const CASES: u32 = 0;
const RANGES: u32 = 1;
const THIS_ROOT: u32 = 2;
const TEMPORARY_ROOT: u32 = 3;
const INDEX_STEP: u32 = 0;
const PROPERTY_STEP: u32 = 1;
const METHOD_STEP: u32 = 2;

impl Parts {
    /// One Unit: the depth is 1.
    fn new() -> Self {
        let mut parts = Parts::default();
        parts.op(OP_UNIT, 0);
        parts
    }

    fn op(&mut self, kind: u32, a: u32) {
        self.code.push([kind, a, 0, 0]);
    }

    /// The place of the next instruction.
    fn place(&self) -> u32 {
        self.code.len() as u32
    }

    /// So many rows of a kind, whose targets are set by their numbers. Cases need a constant.
    fn rows(&mut self, kind: u32, count: u32, target: impl Fn(u32) -> u32) {
        for row in 0..count {
            if kind == CASES {
                self.cases.push([target(row), 0]);
            } else {
                self.ranges.push([row, 0, row, 0, 1, target(row)]);
            }
        }
        if self.constants.is_empty() {
            self.constants.push([INT, 0, 0]);
        }
    }

    /// A Switch for each of the tables, all come to at the depth of this place: each stands behind a branch that may pass over it.
    fn doors(&mut self, tables: impl Iterator<Item = u32>) {
        for table in tables {
            self.op(SKIP_IF_NOT_UNIT, self.place() + 2);
            self.op(OP_SWITCH, table);
        }
    }

    /// All words, with this greatest depth. `max_stack` may be anything.
    fn words(&self, depth: u32) -> Vec<u32> {
        let sizes = [
            self.code.len(),
            self.constants.len(),
            self.names.len(),
            self.tokens.len(),
            self.residuals.len(),
            self.chains.len(),
            self.steps.len(),
            self.tables.len(),
            self.cases.len(),
            self.ranges.len(),
        ];
        let mut words: Vec<u32> = sizes.iter().map(|size| *size as u32).collect();
        words.extend([0, depth]);
        words.extend(self.code.iter().flatten());
        words.extend(vec![7; self.code.len()]);
        words.extend(self.constants.iter().flatten());
        words.extend(self.names.iter().flatten());
        words.extend(&self.tokens);
        words.extend(&self.residuals);
        words.extend(self.chains.iter().flatten());
        words.extend(self.steps.iter().flatten());
        words.extend(self.tables.iter().flatten());
        words.extend(self.cases.iter().flatten());
        words.extend(self.ranges.iter().flatten());
        words
    }
}

/// How many items of so many words there is room for, beside a few words.
fn room(words: usize, each: usize) -> u32 {
    (words.saturating_sub(64) / each) as u32
}

/// Every instruction and every pool record in turn.
fn all_kinds(words: usize) -> Parts {
    let mut parts = Parts::new();
    for turn in 0..room(words, 190) {
        let (constant, name, chain) = (turn, 2 * turn, turn);
        parts.constants.push([INT + turn % 4, 0, 0]);
        parts.names.extend([[0, 0, 0], [0, 1, 1]]);
        parts.tokens.push(1 + turn % 65_535);
        parts.residuals.push(0);
        parts.chains.push([TEMPORARY_ROOT, 0, 0, 3 * turn, 3, 2]);
        parts.steps.extend([
            [INDEX_STEP, 1, turn % 2, 7, 7, 0],
            [PROPERTY_STEP, name, name + 1, name, 0, 7],
            [METHOD_STEP, name, 1, 0, 1, 7],
        ]);
        // The depth is 1 at the start and at the end, and at most 5.
        let start = parts.place();
        parts.op(CONST, constant);
        parts.op(OP_BOOL, turn % 2);
        parts.op(JUMP_IF_TRUE, start + 5);
        parts.op(OP_BOOL, 1);
        parts.op(JUMP_IF_FALSE, start + 5);
        parts.op(LOAD_LOCAL, 0);
        parts.op(LOAD_NAMED, name);
        parts.op(LOAD_THIS, 0);
        parts.code.push([CALL, name, 2, turn + 1]);
        parts.code.push([CALL_REF, name, 2, 0]);
        parts.op(ROTATE, 2);
        parts.op(SKIP_IF_NOT_UNIT, start + 14);
        parts.op(POP, 0);
        parts.op(OP_UNIT, 0);
        parts.op(MAKE_FN_PTR, 0);
        parts.code.push([CALL_FN_PTR, 1, 1, 0]);
        parts.op(INTERPOLATE_START, 0);
        parts.op(EVAL_AST, turn);
        parts.op(INTERPOLATE_APPEND, 0);
        parts.op(INTERPOLATE_END, 0);
        parts.op(MAKE_ARRAY, 2);
        parts.op(CHECK_SIZE, 1);
        parts.op(OP_CHAIN, chain);
        let tables = 2 * turn;
        parts.op(OP_SWITCH, tables);
        parts.op(OP_SWITCH, tables + 1);
        parts.op(JUMP, start + 26);
        parts.tables.extend([
            [CASES, 2 * turn, 2, start + 24],
            [RANGES, 2 * turn, 2, start + 25],
        ]);
        parts
            .cases
            .extend([[start + 24, constant], [start + 25, constant]]);
        parts
            .ranges
            .extend([[0, 0, 9, 0, 1, start + 25], [9, 0, 99, 0, 0, start + 26]]);
    }
    parts
}

const ALL_KINDS_DEPTH: u32 = 5;

/// Images of all kinds of records, and of one kind.
pub fn plain() -> Vec<Maker> {
    vec![
        accepted("all kinds", |w| all_kinds(w).words(ALL_KINDS_DEPTH)),
        accepted("code", |w| {
            let mut parts = Parts::new();
            for _ in 0..room(w, 10) {
                parts.op(LOAD_LOCAL, 0);
                parts.op(POP, 0);
            }
            parts.words(2)
        }),
        accepted("constants", |w| {
            let mut parts = Parts::new();
            parts.constants = vec![[STRING, 0, 0]; room(w, CONSTANT_WORDS) as usize];
            parts.words(1)
        }),
        accepted("names", |w| {
            let mut parts = Parts::new();
            parts.names = vec![[0, 1, 1]; room(w, NAME_WORDS) as usize];
            parts.words(1)
        }),
        accepted("tokens", |w| {
            let mut parts = Parts::new();
            parts.tokens = vec![65_535; room(w, 1) as usize];
            parts.words(1)
        }),
        // In no chain an operand is any word.
        accepted("steps", |w| {
            let mut parts = Parts::new();
            let step = [METHOD_STEP, 0, 255, u32::MAX, 1, 7];
            parts.steps = vec![step; room(w, STEP_WORDS) as usize];
            parts.names.push([0, 0, 0]);
            parts.words(1)
        }),
        accepted("cases", |w| {
            let mut parts = Parts::new();
            parts.rows(CASES, room(w, CASE_WORDS), |row| row % 2);
            parts.words(1)
        }),
        accepted("ranges", |w| {
            let mut parts = Parts::new();
            parts.rows(RANGES, room(w, RANGE_WORDS), |row| row % 2);
            parts.words(1)
        }),
    ]
}

/// The bits of a number below 2^`bits` in reverse.
fn reversed(number: u32, bits: u32) -> u32 {
    if bits == 0 {
        0
    } else {
        number.reverse_bits() >> (32 - bits)
    }
}

/// The greatest power of 2 that is at most the number, as an exponent.
fn log(number: u32) -> u32 {
    number.ilog2()
}

/// A way to lay so many runs over as many rows or fewer: a name, and the runs in the order in which they are come to.
type Order = (&'static str, fn(u32) -> Vec<Run>);

/// Runs that overlap as much as can be.
const OVERLAPS: &[Order] = &[
    ("all the same", |n| vec![(0, n); n as usize]),
    ("all but the ends", |n| vec![(1, n - 2); n as usize]),
    ("one row shifted", |n| {
        (0..n).map(|i| (i % 2, n - 1)).collect()
    }),
    ("ends rising", |n| (0..n).map(|i| (0, i + 1)).collect()),
    ("ends falling", |n| (0..n).map(|i| (0, n - i)).collect()),
    ("starts rising", |n| (0..n).map(|i| (i, n - i)).collect()),
    ("starts falling", |n| {
        (0..n).rev().map(|i| (i, n - i)).collect()
    }),
    ("sliding up", |n| (0..n).map(|i| (i / 2, n / 2)).collect()),
    ("sliding down", |n| {
        (0..n).rev().map(|i| (i / 2, n / 2)).collect()
    }),
    ("nested inward", |n| {
        (0..n).map(|i| (i / 2, n - i)).collect()
    }),
    ("nested outward", |n| {
        (0..n).rev().map(|i| (i / 2, n - i)).collect()
    }),
    ("random", |n| {
        let mut random = Random::new(3);
        let mut place = || random.below(n as usize) as u32;
        (0..n)
            .map(|_| {
                let (one, other) = (place(), place());
                (one.min(other), one.abs_diff(other) + 1)
            })
            .collect()
    }),
    ("random starts, ends rising", |n| {
        let mut random = Random::new(4);
        (0..n)
            .map(|i| {
                let first = random.below(i as usize + 1) as u32;
                (first, i + 1 - first)
            })
            .collect()
    }),
];

/// Runs for a walk that passes over rows that were come to before by pointers, which it raises as it goes: it is slow where short runs come first and
/// longer ones go over them again.
const WALKS: &[Order] = &[
    ("singles from the back, ends rising", |n| {
        let half = n / 2;
        let singles = (0..half).rev().map(|i| (i, 1));
        singles.chain((0..half).map(|i| (0, i + 1))).collect()
    }),
    ("singles from the back, starts falling", |n| {
        let half = n / 2;
        let singles = (0..half).rev().map(|i| (i, 1));
        singles
            .chain((0..half).rev().map(|i| (i, half - i)))
            .collect()
    }),
    ("singles, random", |n| {
        let half = n / 2;
        let mut random = Random::new(5);
        let singles = (0..half).map(|i| (i, 1));
        singles
            .chain((0..half).map(|_| {
                let first = random.below(half as usize) as u32;
                (first, 1 + random.below((half - first) as usize) as u32)
            }))
            .collect()
    }),
    ("bit-reversed singles, to the end", |n| {
        let bits = log(n / 2);
        let half = 1 << bits;
        let singles = (0..half).map(|i| (reversed(i, bits), 1));
        singles
            .chain((0..half).map(|i| reversed(i, bits)).map(|i| (i, half - i)))
            .collect()
    }),
    ("halves joined, to the end", |n| {
        let bits = log(n / 2);
        let half = 1 << bits;
        let mut runs = joined(bits);
        runs.extend((0..half).map(|i| reversed(i, bits)).map(|i| (i, half - i)));
        runs
    }),
    ("random, longer and longer", |n| {
        let mut random = Random::new(7);
        let levels = log(n);
        (0..n)
            .map(|i| {
                let rows = 1 << (u64::from(i) * u64::from(levels) / u64::from(n));
                (random.below((n - rows) as usize) as u32, rows)
            })
            .collect()
    }),
    ("longest ways", |n| longest_ways(n, log(n) - 3)),
];

/// Runs of 2, 4, .. rows, two of which make up the next, up to all of 2^`bits` rows. The pointer from row i then goes on by the greatest power of 2 that
/// divides i: a binomial tree, with the longest way from row 1.
fn joined(bits: u32) -> Vec<Run> {
    (1..=bits)
        .flat_map(|level| (0..1u32 << (bits - level)).map(move |i| (i << level, 1 << level)))
        .collect()
}

/// n runs: first the binomial tree of 2^`bits` rows, and then runs that each end a row later and start where the way to the end is the longest. Raising
/// the pointers along it to the new end leaves a binomial tree of the same size, so that every run costs `bits` steps and one.
fn longest_ways(n: u32, bits: u32) -> Vec<Run> {
    let mut runs = joined(bits);
    let mut end = 1u32 << bits;
    // The rows whose pointers go to a row, by the sizes of the trees below them.
    let mut below: Vec<Vec<u32>> = vec![Vec::new(); n as usize + 2];
    for level in 0..bits {
        for row in (1..end).filter(|row| row.trailing_zeros() == level) {
            below[(row + (1 << level)) as usize].push(row);
        }
    }
    while runs.len() < n as usize {
        let mut way = vec![end];
        while let Some(row) = below[way[way.len() - 1] as usize].pop() {
            way.push(row);
        }
        end += 1;
        let first = way.pop().expect("a way has rows");
        runs.push((first, end - first));
        way.reverse();
        below[end as usize] = way;
    }
    runs
}

/// How many rows, or steps, the runs need.
fn last_end(runs: &[Run]) -> u32 {
    runs.iter()
        .map(|(first, rows)| first + rows)
        .max()
        .unwrap_or(0)
}

/// A Switch and a table for each run over rows that go to the last two places, with the tables in the order of the Switches or scattered.
fn overlapping(kind: u32, runs: &[Run], scattered: bool) -> Parts {
    let count = runs.len() as u32;
    let mut parts = Parts::new();
    let bits = log(count);
    let table = |i: u32| {
        if scattered && i < 1 << bits {
            reversed(i, bits)
        } else {
            i
        }
    };
    parts.doors((0..count).map(table));
    parts.op(ROTATE, 0);
    let end = parts.place();
    parts.rows(kind, last_end(runs), |row| end - row % 2);
    parts.tables = vec![[0; SWITCH_WORDS]; runs.len()];
    for (i, (first, rows)) in (0..).zip(runs) {
        parts.tables[table(i) as usize] = [kind, *first, *rows, end];
    }
    parts
}

/// Words of a Switch with its branch, its table and a row.
fn door_words(kind: u32) -> usize {
    let row = if kind == CASES {
        CASE_WORDS
    } else {
        RANGE_WORDS
    };
    2 * (CODE_WORDS + 1) + SWITCH_WORDS + row
}

/// So many Switches that name one table of so many rows; `dead`: no run comes to any of them.
fn one_table(kind: u32, switches: u32, rows: u32, dead: bool) -> Parts {
    let mut parts = Parts::new();
    if dead {
        let end = switches + 2;
        parts.op(JUMP, end);
        parts
            .code
            .extend(vec![[OP_SWITCH, 0, 0, 0]; switches as usize]);
    } else {
        parts.doors((0..switches).map(|_| 0));
    }
    let end = parts.place();
    parts.rows(kind, rows, |_| end);
    parts.tables.push([kind, 0, rows, end]);
    parts
}

/// A chain for each run, over steps that need as many operands as the chains have. No instruction names them.
fn sharing_steps(runs: &[Run]) -> Parts {
    let mut parts = Parts::new();
    for (first, steps) in runs {
        parts.chains.push([THIS_ROOT, 0, 7, *first, *steps, 65_535]);
    }
    for step in 0..last_end(runs) {
        parts.steps.push(if step % 2 == 0 {
            [INDEX_STEP, 65_534, 0, 7, 7, 0]
        } else {
            [METHOD_STEP, 0, 255, 65_280, 0, 7]
        });
    }
    parts.names.push([0, 0, 0]);
    parts
}

/// Switches on one table, and tables that share rows.
fn hostile_tables() -> Vec<Maker> {
    let mut all = Vec::new();
    for (kind, rows, row) in [
        (CASES, "cases", CASE_WORDS),
        (RANGES, "ranges", RANGE_WORDS),
    ] {
        all.push(accepted(
            &format!("one table of {rows}, many Switches"),
            move |w| one_table(kind, room(w / 2, 10), room(w / 2, row), false).words(1),
        ));
        all.push(accepted(
            &format!("one table of {rows}, many dead Switches"),
            move |w| one_table(kind, room(w / 2, 5), room(w / 2, row), true).words(1),
        ));
    }
    let tables = |w, order: fn(u32) -> Vec<Run>, kind, scattered| {
        overlapping(kind, &order(room(w, door_words(kind))), scattered).words(1)
    };
    for (name, order) in OVERLAPS.iter().chain(WALKS) {
        all.push(accepted(&format!("cases: {name}"), move |w| {
            tables(w, *order, CASES, false)
        }));
    }
    for (name, order) in OVERLAPS.iter().chain(WALKS) {
        if ["all but the ends", "random", "longest ways"].contains(name) {
            all.push(accepted(&format!("ranges: {name}"), move |w| {
                tables(w, *order, RANGES, false)
            }));
            all.push(accepted(&format!("scattered tables: {name}"), move |w| {
                tables(w, *order, CASES, true)
            }));
        }
    }
    all.extend([
        accepted("tables that no Switch names", unnamed),
        accepted("tables of no rows", no_rows),
        accepted("rows of two depths in turn", two_depths),
        accepted("rows to scattered places", scattered_rows),
    ]);
    all
}

/// Chains that share steps, and instructions on one chain.
fn hostile_chains() -> Vec<Maker> {
    let mut all = vec![accepted("one chain, many instructions", one_chain)];
    for (name, order) in OVERLAPS {
        all.push(accepted(&format!("steps: {name}"), |w| {
            sharing_steps(&order(room(w, CHAIN_WORDS + STEP_WORDS))).words(1)
        }));
    }
    all
}

/// Branches, jumps and depths.
fn hostile_code() -> Vec<Maker> {
    vec![
        accepted("branches to the end", |w| branches(w, |_, end| end)),
        accepted("branches to the next", |w| {
            branches(w, |place, _| place + 1)
        }),
        accepted("branches to scattered places", |w| {
            let mut random = Random::new(6);
            branches(w, |place, end| {
                place + 1 + random.below((end - place) as usize) as u32
            })
        }),
        accepted("Jumps to the next", |w| {
            let mut parts = Parts::new();
            for _ in 0..room(w, 5) {
                parts.op(JUMP, parts.place() + 1);
            }
            parts.words(1)
        }),
        accepted("Jumps over dead ones", |w| {
            let mut parts = Parts::new();
            for _ in 0..room(w, 10) {
                parts.op(JUMP, parts.place() + 2);
                parts.op(JUMP, parts.place() + 1);
            }
            parts.words(1)
        }),
        accepted("all pushed, then all popped", |w| pushed(w, 0)),
    ]
}

/// Images that are refused, most of them as late as can be.
fn hostile_refused() -> Vec<Maker> {
    vec![
        refused("refused: sizes of another image", |w| vec![0; w]),
        refused("refused: the last word", |w| {
            let parts = all_kinds(w);
            let mut words = parts.words(ALL_KINDS_DEPTH);
            *words.last_mut().expect("a word") = parts.place() + 1;
            words
        }),
        refused("refused: the depth is one too much", |w| pushed(w, 1)),
        refused("refused: depths differ at the end", |w| {
            let mut parts = Parts::new();
            let end = room(w, 5) + 2;
            for _ in 2..end {
                parts.op(SKIP_IF_NOT_UNIT, end);
            }
            parts.op(OP_UNIT, 0);
            parts.words(2)
        }),
        refused("refused: depths differ at the last row", |w| {
            let mut parts = Parts::new();
            parts.op(OP_SWITCH, 0);
            parts.op(OP_UNIT, 0);
            parts.op(POP, 0);
            let rows = room(w, CASE_WORDS);
            parts.rows(CASES, rows, |row| if row + 1 < rows { 2 } else { 3 });
            parts.tables.push([CASES, 0, rows, 2]);
            parts.words(2)
        }),
        refused("refused: depths differ at the last Switch", |w| {
            let count = room(w, door_words(CASES));
            let mut parts = Parts::new();
            parts.doors(0..count);
            parts.op(OP_UNIT, 0);
            parts.op(OP_SWITCH, count - 1);
            parts.op(ROTATE, 0);
            let last = parts.place() - 1;
            parts.rows(CASES, count, |_| last);
            parts.tables = vec![[CASES, 0, count, last]; count as usize];
            parts.words(2)
        }),
        refused("refused: the last chain has an operand too few", |w| {
            let count = room(w, CHAIN_WORDS + STEP_WORDS);
            let mut parts = sharing_steps(&vec![(1, count - 2); count as usize]);
            parts.chains[count as usize - 1][5] -= 1;
            parts.words(1)
        }),
        refused("refused: a row goes to the last Switch itself", |w| {
            let mut parts = one_table(CASES, room(w / 2, 10), room(w / 2, CASE_WORDS), false);
            let row = parts.cases.len() / 2;
            parts.cases[row][0] = parts.place() - 1;
            parts.words(1)
        }),
    ]
}

/// The hostile images.
pub fn hostile() -> Vec<Maker> {
    let mut all = hostile_tables();
    all.extend(hostile_chains());
    all.extend(hostile_code());
    all.extend(hostile_refused());
    all
}

/// Tables over all rows, as many as there are rows, and no Switch.
fn unnamed(words: usize) -> Vec<u32> {
    let count = room(words, SWITCH_WORDS + CASE_WORDS);
    let mut parts = Parts::new();
    parts.rows(CASES, count, |row| row % 2);
    parts.tables = vec![[CASES, 0, count, 1]; count as usize];
    parts.words(1)
}

/// Switches with tables of no rows, which start anywhere up to the end of the cases.
fn no_rows(words: usize) -> Vec<u32> {
    let count = room(words, door_words(CASES));
    let mut parts = Parts::new();
    parts.doors(0..count);
    let end = parts.place();
    parts.rows(CASES, count, |_| end);
    parts.tables = (0..count).map(|i| [CASES, i + 1, 0, end]).collect();
    parts.words(1)
}

/// Tables of one row each: those of even rows are come to at depth 1, those of odd rows later at depth 2.
fn two_depths(words: usize) -> Vec<u32> {
    let half = room(words, door_words(CASES)) / 2;
    let mut parts = Parts::new();
    parts.doors((0..half).map(|i| 2 * i));
    parts.op(OP_UNIT, 0);
    parts.doors((0..half).map(|i| 2 * i + 1));
    parts.op(POP, 0);
    let end = parts.place();
    parts.rows(CASES, 2 * half, |row| end - row % 2);
    parts.tables = (0..2 * half).map(|i| [CASES, i, 1, end - i % 2]).collect();
    parts.words(2)
}

/// One table whose rows go to as many places, near ones far from each other.
fn scattered_rows(words: usize) -> Vec<u32> {
    let bits = log(room(words, CODE_WORDS + 1 + CASE_WORDS));
    let count = 1 << bits;
    let mut parts = Parts::new();
    parts.op(OP_SWITCH, 0);
    for _ in 0..count {
        parts.op(ROTATE, 0);
    }
    parts.rows(CASES, count, |row| 2 + reversed(row, bits));
    parts.tables.push([CASES, 0, count, 2]);
    parts.words(1)
}

/// One chain of many properties, carried out again and again.
fn one_chain(words: usize) -> Vec<u32> {
    let mut parts = Parts::new();
    for _ in 0..room(words / 2, 10) {
        parts.op(OP_CHAIN, 0);
        parts.op(POP, 0);
    }
    parts.steps = vec![[PROPERTY_STEP, 0, 0, 0, 0, 7]; room(words / 2, STEP_WORDS) as usize];
    parts
        .chains
        .push([THIS_ROOT, 0, 7, 0, parts.steps.len() as u32, 0]);
    parts.names.push([0, 0, 0]);
    parts.words(2)
}

/// Branches that keep the value, each with the target of its place and of the end.
fn branches(words: usize, mut target: impl FnMut(u32, u32) -> u32) -> Vec<u32> {
    let mut parts = Parts::new();
    let end = room(words, 5) + 1;
    for place in 1..end {
        parts.op(SKIP_IF_NOT_UNIT, target(place, end));
    }
    parts.words(1)
}

/// As many pushes as there is room for beside their Pops, with so much added to the depth.
fn pushed(words: usize, more: u32) -> Vec<u32> {
    let count = room(words, 10);
    let mut parts = Parts::new();
    for _ in 0..count {
        parts.op(OP_UNIT, 0);
    }
    for _ in 0..count {
        parts.op(POP, 0);
    }
    parts.words(count + 1 + more)
}

//! Hand-made images on both sides of each clause of request A1, as small as
//! can be.

use crate::format::{CASE_WORDS, CHAIN_WORDS, CODE_WORDS, CONSTANT_WORDS, IMAGE_SIZES};
use crate::format::{NAME_WORDS, RANGE_WORDS, STEP_WORDS, SWITCH_WORDS};
use crate::image_check::Clause;
use crate::image_draft::ImageDraft;

/// An image beside a sheet, both in words, and the only clause that fails.
pub struct Row {
    pub name: String,
    pub sheet: Vec<u32>,
    pub image: Vec<u32>,
    pub failing: Option<Clause>,
}

impl Row {
    pub fn sheet_bytes(&self) -> Vec<u8> {
        self.sheet
            .iter()
            .flat_map(|word| word.to_le_bytes())
            .collect()
    }

    pub fn answer(&self) -> u32 {
        match self.failing {
            None => 0,
            Some(_) => 13,
        }
    }
}

/// One Unit.
const BARE: &[u32] = &[1, 0, 0, 0, 2, 1, 0, 0, 0, 0, 0, 0, 0];
/// One Unit, the text `a`, and one local of that name.
const NAMED: &[u32] = &[1, 1, 1, 1, 2, 1, 0, 0, 0, 0, 0, 0, 0, 0, 1, 97, 0];
/// One Unit, the text `a` and a text of no bytes.
const EMPTY: &[u32] = &[1, 2, 1, 0, 2, 1, 0, 0, 0, 0, 0, 0, 0, 0, 0, 1, 0, 97];
/// FnCall `eval`, which lowering refuses with 9.
const EVAL: &[u32] = &[1, 1, 4, 0, 13, 1, 0, 0, 0, 0, 0, 0, 0, 0, 4, 0x6C61_7665];

const UNIT: [u32; CODE_WORDS] = [2, 0, 0, 0];
const POP: [u32; CODE_WORDS] = [7, 0, 0, 0];
/// Keeps one value.
const KEEP: [u32; CODE_WORDS] = [14, 0, 0, 0];
/// One value for another.
const SWAP: [u32; CODE_WORDS] = [16, 0, 0, 0];
const HIGH: u32 = u32::MAX;

struct Rows(Vec<Row>);

impl Rows {
    fn words(&mut self, name: &str, sheet: &[u32], image: Vec<u32>, failing: Option<Clause>) {
        self.0.push(Row {
            name: name.to_string(),
            sheet: sheet.to_vec(),
            image,
            failing,
        });
    }

    fn right(&mut self, name: &str, sheet: &[u32], image: ImageDraft) {
        self.words(&format!("{name}: right"), sheet, image.words(), None);
    }

    fn wrong(&mut self, name: &str, sheet: &[u32], image: ImageDraft, clause: Clause) {
        let name = format!("{name}: wrong ({clause:?})");
        self.words(&name, sheet, image.words(), Some(clause));
    }

    /// An image on each side.
    fn both(
        &mut self,
        clause: Clause,
        name: &str,
        sheet: &[u32],
        right: ImageDraft,
        wrong: ImageDraft,
    ) {
        self.right(name, sheet, right);
        self.wrong(name, sheet, wrong, clause);
    }

    /// An instruction that no run comes to, on each side.
    fn dead(
        &mut self,
        clause: Clause,
        name: &str,
        pools: &ImageDraft,
        right: [u32; CODE_WORDS],
        wrong: [u32; CODE_WORDS],
    ) {
        self.both(clause, name, NAMED, dead(pools, right), dead(pools, wrong));
    }
}

/// This code with this reported depth.
fn code(depth: u32, code: &[[u32; CODE_WORDS]]) -> ImageDraft {
    with(&ImageDraft::default(), depth, code)
}

/// The same with pools.
fn with(pools: &ImageDraft, depth: u32, code: &[[u32; CODE_WORDS]]) -> ImageDraft {
    ImageDraft {
        code: code.to_vec(),
        max_stack: depth,
        depth,
        ..pools.clone()
    }
}

/// Unit, a jump to the end, and an instruction in between.
fn dead(pools: &ImageDraft, op: [u32; CODE_WORDS]) -> ImageDraft {
    with(pools, 1, &[UNIT, [8, 3, 0, 0], op])
}

/// Unit beside these pools.
fn beside(pools: ImageDraft) -> ImageDraft {
    with(&pools, 1, &[UNIT])
}

fn constants(rows: &[[u32; CONSTANT_WORDS]]) -> ImageDraft {
    ImageDraft {
        constants: rows.to_vec(),
        ..Default::default()
    }
}

fn names(rows: &[[u32; NAME_WORDS]]) -> ImageDraft {
    ImageDraft {
        names: rows.to_vec(),
        ..Default::default()
    }
}

fn tokens(rows: &[u32]) -> ImageDraft {
    ImageDraft {
        tokens: rows.to_vec(),
        ..Default::default()
    }
}

fn residuals(rows: &[u32]) -> ImageDraft {
    ImageDraft {
        residuals: rows.to_vec(),
        ..Default::default()
    }
}

/// Chains and steps with one name.
fn chains(chains: &[[u32; CHAIN_WORDS]], steps: &[[u32; STEP_WORDS]]) -> ImageDraft {
    ImageDraft {
        names: vec![[0, 0, 0]],
        chains: chains.to_vec(),
        steps: steps.to_vec(),
        ..Default::default()
    }
}

/// Tables of cases, with one constant.
fn cases(tables: &[[u32; SWITCH_WORDS]], cases: &[[u32; CASE_WORDS]]) -> ImageDraft {
    ImageDraft {
        constants: vec![[3, 5, 0]],
        tables: tables.to_vec(),
        cases: cases.to_vec(),
        ..Default::default()
    }
}

fn ranges(tables: &[[u32; SWITCH_WORDS]], ranges: &[[u32; RANGE_WORDS]]) -> ImageDraft {
    ImageDraft {
        tables: tables.to_vec(),
        ranges: ranges.to_vec(),
        ..Default::default()
    }
}

/// All rows, clause by clause.
pub fn rows() -> Vec<Row> {
    let mut rows = Rows(Vec::new());
    sizes(&mut rows);
    kinds(&mut rows);
    flags(&mut rows);
    operators_and_constants(&mut rows);
    widths(&mut rows);
    arguments(&mut rows);
    unused(&mut rows);
    pool_indexes(&mut rows);
    sheet_indexes(&mut rows);
    runs(&mut rows);
    operands(&mut rows);
    targets(&mut rows);
    agree(&mut rows);
    needs(&mut rows);
    remains_and_depth(&mut rows);
    not_asked(&mut rows);
    rows.0
}

fn sizes(rows: &mut Rows) {
    let unit = [1, 0, 0, 0, 0, 0, 0, 0, 0, 0, 1, 1, 2, 0, 0, 0, 0];
    let clause = Some(Clause::Sizes);
    rows.words("one Unit: right", BARE, unit.to_vec(), None);
    rows.words("beside `eval`: right", EVAL, unit.to_vec(), None);
    let mut more = unit.to_vec();
    more.push(0);
    rows.words("a word more: wrong (Sizes)", BARE, more, clause);
    let less = unit[..16].to_vec();
    rows.words("a word less: wrong (Sizes)", BARE, less, clause);
    rows.words("no words: wrong (Sizes)", BARE, vec![], clause);
    rows.words("eleven words: wrong (Sizes)", BARE, vec![0; 11], clause);
    let twelve = vec![0; IMAGE_SIZES];
    let remains = Some(Clause::Remains);
    rows.words("twelve words: wrong (Remains)", BARE, twelve, remains);
    // Words of a row times the size are 0 to 32 bits.
    for (name, at, size) in [
        ("2^31 chains", 5, 1 << 31),
        ("2^31 steps", 6, 1 << 31),
        ("2^30 tables", 7, 1 << 30),
        ("2^31 cases", 8, 1 << 31),
        ("2^31 ranges", 9, 1 << 31),
    ] {
        let mut image = unit.to_vec();
        image[at] = size;
        rows.words(&format!("{name}: wrong (Sizes)"), BARE, image, clause);
    }
    let mut image = unit.to_vec();
    image[3] = HIGH;
    image.pop();
    rows.words("2^32 - 1 tokens: wrong (Sizes)", BARE, image, clause);
    let mut image = unit.to_vec();
    (image[2], image[3]) = (1 << 31, 1 << 31);
    let name = "2^31 names and 2^31 tokens: wrong (Sizes)";
    rows.words(name, BARE, image, clause);
    let mut image = beside(names(&[[0, 0, 0]])).words();
    image.pop();
    rows.words("a name of two words: wrong (Sizes)", NAMED, image, clause);
}

fn kinds(rows: &mut Rows) {
    let clause = Clause::Kind;
    let one = constants(&[[3, 0, 0]]);
    rows.dead(clause, "kind 1 or 0", &one, [1, 0, 0, 0], [0; 4]);
    let one = residuals(&[0]);
    rows.dead(clause, "kind 24 or 25", &one, [24, 0, 0, 0], [25, 0, 0, 0]);
    let constant = |kind| beside(constants(&[[kind, 0, 0]]));
    rows.both(clause, "constant 3 or 2", NAMED, constant(3), constant(2));
    rows.both(clause, "constant 6 or 7", NAMED, constant(6), constant(7));
    let root = |kind| beside(chains(&[[kind, 0, 0, 0, 0, 0]], &[]));
    rows.both(clause, "root 3 or 4", NAMED, root(3), root(4));
    let step = |kind| beside(chains(&[], &[[kind, 0, 0, 0, 0, 0]]));
    rows.both(clause, "step 2 or 3", NAMED, step(2), step(3));
    let table = |kind| beside(ranges(&[[kind, 0, 0, 1]], &[]));
    rows.both(clause, "table 1 or 2", BARE, table(1), table(2));
}

fn flags(rows: &mut Rows) {
    let clause = Clause::Flag;
    let truth = |a| code(1, &[[3, a, 0, 0]]);
    rows.both(clause, "Bool 1 or 2", BARE, truth(1), truth(2));
    let name = names(&[[0, 0, 0]]);
    let none = ImageDraft::default();
    rows.dead(
        clause,
        "Call 511 or 512",
        &name,
        [12, 0, 511, 0],
        [12, 0, 512, 0],
    );
    rows.dead(
        clause,
        "CallRef 767 or 769",
        &name,
        [13, 0, 767, 0],
        [13, 0, 769, 0],
    );
    rows.dead(
        clause,
        "CallFnPtr capture 1 or 2",
        &none,
        [17, 0, 1, 0],
        [17, 0, 2, 0],
    );
    let mark = |mark| beside(names(&[[0, mark, 0]]));
    rows.both(clause, "mark 1 or 2", NAMED, mark(1), mark(2));
    let step = |step| beside(chains(&[], &[step]));
    let index = |flag| step([0, 0, flag, 0, 0, 0]);
    rows.both(clause, "index flag 1 or 2", NAMED, index(1), index(2));
    let property = |flag| step([1, 0, 0, 0, flag, 0]);
    rows.both(
        clause,
        "property flag 1 or 2",
        NAMED,
        property(1),
        property(2),
    );
    let method = |flag| step([2, 0, 0, 0, flag, 0]);
    rows.both(clause, "method flag 1 or 2", NAMED, method(1), method(2));
    let range = |flag| beside(ranges(&[], &[[0, 0, 0, 0, flag, 0]]));
    rows.both(clause, "inclusive 1 or 2", BARE, range(1), range(2));
}

fn operators_and_constants(rows: &mut Rows) {
    let clause = Clause::Operator;
    let token = |token| beside(tokens(&[token]));
    rows.both(clause, "operator 1 or 0", BARE, token(1), token(0));
    rows.both(
        clause,
        "operator 65535 or 65536",
        BARE,
        token(65_535),
        token(65_536),
    );
    let clause = Clause::Constant;
    let char = |scalar| beside(constants(&[[5, scalar, 0]]));
    for (name, right, wrong) in [
        ("Char D7FF or D800", 0xD7FF, 0xD800),
        ("Char E000 or DFFF", 0xE000, 0xDFFF),
        ("Char 10FFFF or 110000", 0x10_FFFF, 0x11_0000),
    ] {
        rows.both(clause, name, BARE, char(right), char(wrong));
    }
    let any = beside(constants(&[[3, HIGH, HIGH], [4, 1, 0x7FF0_0000]]));
    rows.right("any Int, a NaN", BARE, any);
}

fn widths(rows: &mut Rows) {
    let clause = Clause::Width;
    let none = ImageDraft::default();
    for (name, kind, most) in [
        ("Rotate 255 or 256", 14, 255),
        ("CallFnPtr 255 or 256", 17, 255),
        ("MakeArray 65535 or 65536", 21, 65_535),
        ("CheckSize 65535 or 65536", 22, 65_535),
    ] {
        rows.dead(
            clause,
            name,
            &none,
            [kind, most, 0, 0],
            [kind, most + 1, 0, 0],
        );
    }
    let operands = |count| beside(chains(&[[3, 0, 0, 0, 0, count]], &[]));
    rows.both(
        clause,
        "65535 or 65536 operands",
        NAMED,
        operands(65_535),
        operands(65_536),
    );
    let method = |argc| beside(chains(&[], &[[2, 0, argc, 0, 0, 0]]));
    rows.both(
        clause,
        "method of 255 or 256",
        NAMED,
        method(255),
        method(256),
    );
}

fn arguments(rows: &mut Rows) {
    let name = names(&[[0, 0, 0]]);
    for (text, receiver) in [("Local", 0), ("Named", 1), ("This", 2)] {
        rows.dead(
            Clause::Argument,
            &format!("CallRef {text} of 1 or 0"),
            &name,
            [13, 0, 256 * receiver + 1, 0],
            [13, 0, 256 * receiver, 0],
        );
    }
}

fn unused(rows: &mut Rows) {
    let clause = Clause::Unused;
    // Every pool has one row.
    let pools = ImageDraft {
        constants: vec![[3, 0, 0]],
        names: vec![[0, 0, 0]],
        residuals: vec![0],
        chains: vec![[3, 0, 0, 0, 0, 0]],
        tables: vec![[1, 0, 0, 3]],
        ..Default::default()
    };
    let (two, three): (&[usize], &[usize]) = (&[2, 3], &[1, 2, 3]);
    for (name, op, words) in [
        ("Const", [1, 0, 0, 0], two),
        ("Unit", [2, 0, 0, 0], three),
        ("Bool", [3, 1, 0, 0], two),
        ("LoadLocal", [4, 0, 0, 0], two),
        ("LoadNamed", [5, 0, 0, 0], two),
        ("LoadThis", [6, 0, 0, 0], three),
        ("Pop", [7, 0, 0, 0], three),
        ("Jump", [8, 3, 0, 0], two),
        ("JumpIfTrue", [9, 3, 0, 0], two),
        ("JumpIfFalse", [10, 3, 0, 0], two),
        ("SkipIfNotUnit", [11, 3, 0, 0], two),
        ("CallRef This", [13, 0, 513, 0], &[3]),
        ("Rotate", [14, 1, 0, 0], two),
        ("Switch", [15, 0, 0, 0], two),
        ("MakeFnPtr", [16, 0, 0, 0], three),
        ("CallFnPtr", [17, 1, 1, 0], &[3]),
        ("InterpolateStart", [18, 0, 0, 0], three),
        ("InterpolateAppend", [19, 0, 0, 0], three),
        ("InterpolateEnd", [20, 0, 0, 0], three),
        ("MakeArray", [21, 1, 0, 0], two),
        ("CheckSize", [22, 1, 0, 0], two),
        ("Chain", [23, 0, 0, 0], two),
        ("EvalAst", [24, 0, 0, 0], two),
    ] {
        rows.right(&format!("unused of {name}"), NAMED, dead(&pools, op));
        for word in words {
            let mut wrong = op;
            wrong[*word] = 1;
            let name = format!("{} of {name}", ["", "a", "b", "c"][*word]);
            rows.wrong(&name, NAMED, dead(&pools, wrong), clause);
        }
    }
    let constant = |kind, b| beside(constants(&[[kind, 0, b]]));
    rows.both(clause, "b of Char", NAMED, constant(5, 0), constant(5, 1));
    rows.both(clause, "b of String", NAMED, constant(6, 0), constant(6, 1));
    let chain = |kind, one, two| beside(chains(&[[kind, one, two, 0, 0, 0]], &[]));
    rows.both(
        clause,
        "second of This",
        NAMED,
        chain(2, 0, 9),
        chain(2, 1, 9),
    );
    rows.both(
        clause,
        "second of Temporary",
        NAMED,
        chain(3, 0, 0),
        chain(3, 1, 0),
    );
    rows.wrong("third of Temporary", NAMED, chain(3, 0, 1), clause);
    rows.right("third of Named", NAMED, chain(1, 0, HIGH));
    let index = |last| beside(chains(&[], &[[0, 0, 0, HIGH, HIGH, last]]));
    rows.both(clause, "last of an index step", NAMED, index(0), index(1));
}

fn pool_indexes(rows: &mut Rows) {
    let clause = Clause::PoolIndex;
    let name = names(&[[0, 0, 0]]);
    let one = constants(&[[3, 0, 0]]);
    rows.dead(clause, "Const 0 or 1", &one, [1, 0, 0, 0], [1, 1, 0, 0]);
    rows.dead(
        clause,
        "LoadNamed 0 or 1",
        &name,
        [5, 0, 0, 0],
        [5, 1, 0, 0],
    );
    rows.dead(
        clause,
        "Call name 0 or 1",
        &name,
        [12, 0, 0, 0],
        [12, 1, 0, 0],
    );
    let token = ImageDraft {
        tokens: vec![1],
        ..name.clone()
    };
    rows.dead(
        clause,
        "Call token 1 or 2",
        &token,
        [12, 0, 0, 1],
        [12, 0, 0, 2],
    );
    rows.dead(
        clause,
        "CallRef name 0 or 1",
        &name,
        [13, 0, 513, 0],
        [13, 1, 513, 0],
    );
    rows.dead(
        clause,
        "CallRef Named 0 or 1",
        &name,
        [13, 0, 257, 0],
        [13, 0, 257, 1],
    );
    let table = ranges(&[[1, 0, 0, 3]], &[]);
    rows.dead(
        clause,
        "Switch 0 or 1",
        &table,
        [15, 0, 0, 0],
        [15, 1, 0, 0],
    );
    let chain = chains(&[[3, 0, 0, 0, 0, 0]], &[]);
    rows.dead(clause, "Chain 0 or 1", &chain, [23, 0, 0, 0], [23, 1, 0, 0]);
    let node = residuals(&[0]);
    rows.dead(
        clause,
        "EvalAst 0 or 1",
        &node,
        [24, 0, 0, 0],
        [24, 1, 0, 0],
    );
    let local = |name| beside(chains(&[[0, 0, name, 0, 0, 0]], &[]));
    rows.both(
        clause,
        "Local chain's name 0 or 1",
        NAMED,
        local(0),
        local(1),
    );
    let named = |name| beside(chains(&[[1, name, 0, 0, 0, 0]], &[]));
    rows.both(clause, "Named chain 0 or 1", NAMED, named(0), named(1));
    let step = |step| beside(chains(&[], &[step]));
    rows.both(
        clause,
        "property's name 0 or 1",
        NAMED,
        step([1, 0, 0, 0, 0, 0]),
        step([1, 1, 0, 0, 0, 0]),
    );
    rows.wrong(
        "property's getter 1",
        NAMED,
        step([1, 0, 1, 0, 0, 0]),
        clause,
    );
    rows.wrong(
        "property's setter 1",
        NAMED,
        step([1, 0, 0, 1, 0, 0]),
        clause,
    );
    rows.both(
        clause,
        "method's name 0 or 1",
        NAMED,
        step([2, 0, 0, 0, 0, 0]),
        step([2, 1, 0, 0, 0, 0]),
    );
    let case = |constant| beside(cases(&[], &[[0, constant]]));
    rows.both(clause, "case's constant 0 or 1", BARE, case(0), case(1));
}

fn sheet_indexes(rows: &mut Rows) {
    let clause = Clause::SheetIndex;
    let text = |text| beside(names(&[[text, 0, 0]]));
    rows.both(clause, "name's text 0 or 1", NAMED, text(0), text(1));
    rows.wrong("name's text, no texts", BARE, text(0), clause);
    let space = |space| beside(names(&[[0, 0, space]]));
    rows.both(clause, "name's namespace 1 or 2", NAMED, space(1), space(2));
    rows.wrong("name's namespace 2^32 - 1", NAMED, space(HIGH), clause);
    let name = beside(names(&[[1, 0, 1]]));
    rows.wrong("name's text 1, namespace 1", NAMED, name, clause);
    let string = |text| beside(constants(&[[6, text, 0]]));
    rows.both(clause, "String 0 or 1", NAMED, string(0), string(1));
    let node = |node| beside(residuals(&[node]));
    rows.both(clause, "residual 0 or 1", BARE, node(0), node(1));
    rows.both(
        clause,
        "LoadLocal 0 or 1",
        NAMED,
        code(1, &[[4, 0, 0, 0]]),
        code(1, &[[4, 1, 0, 0]]),
    );
    let name = names(&[[0, 0, 0]]);
    rows.both(
        clause,
        "CallRef slot 0 or 1",
        NAMED,
        with(&name, 1, &[[13, 0, 1, 0]]),
        with(&name, 1, &[[13, 0, 1, 1]]),
    );
    let slot = |slot| beside(chains(&[[0, slot, 0, 0, 0, 0]], &[]));
    rows.both(clause, "Local chain's slot 0 or 1", NAMED, slot(0), slot(1));
}

fn runs(rows: &mut Rows) {
    let clause = Clause::Run;
    let step = [0, 0, 0, 0, 0, 0];
    let chain = |first, count| beside(chains(&[[3, 0, 0, first, count, 1]], &[step]));
    rows.both(clause, "no step at 1 or 2", NAMED, chain(1, 0), chain(2, 0));
    rows.both(clause, "a step at 0 or 1", NAMED, chain(0, 1), chain(1, 1));
    rows.wrong("steps past 2^32", NAMED, chain(HIGH, 1), clause);
    let table = |first, count| beside(cases(&[[0, first, count, 1]], &[[1, 0]]));
    rows.both(clause, "no case at 1 or 2", BARE, table(1, 0), table(2, 0));
    rows.both(clause, "1 or 2 cases", BARE, table(0, 1), table(0, 2));
    rows.wrong("cases past 2^32", BARE, table(2, HIGH), clause);
    let range = [0, 0, 9, 0, 1, 1];
    let table = |kind, count| beside(ranges(&[[kind, 0, count, 1]], &[range]));
    rows.both(clause, "1 or 2 ranges", BARE, table(1, 1), table(1, 2));
    rows.wrong("a range as a case", BARE, table(0, 1), clause);
}

fn operands(rows: &mut Rows) {
    let clause = Clause::Operand;
    let index = |operand, operands| {
        let step = [0, operand, 0, 0, 0, 0];
        beside(chains(&[[3, 0, 0, 0, 1, operands]], &[step]))
    };
    rows.both(clause, "index 0 of 1 or 0", NAMED, index(0, 1), index(0, 0));
    let method = |argc, operand, operands| {
        let step = [2, 0, argc, operand, 0, 0];
        beside(chains(&[[3, 0, 0, 0, 1, operands]], &[step]))
    };
    rows.both(
        clause,
        "method 1 and 1 of 2 or 1",
        NAMED,
        method(1, 1, 2),
        method(1, 1, 1),
    );
    rows.both(
        clause,
        "method 2 and 0 of 2 or 1",
        NAMED,
        method(0, 2, 2),
        method(0, 2, 1),
    );
    rows.wrong("operand past 2^32", NAMED, method(1, HIGH, 1), clause);
    let shared = |operands| {
        let all = [[3, 0, 0, 0, 1, 2], [2, 0, 0, 0, 1, operands]];
        beside(chains(&all, &[[0, 1, 0, 0, 0, 0]]))
    };
    rows.both(clause, "a step of two chains", NAMED, shared(2), shared(1));
    let free = chains(&[], &[[0, HIGH, 0, 0, 0, 0], [2, 0, 255, HIGH, 0, 0]]);
    rows.right("steps of no chain", NAMED, beside(free));
}

fn targets(rows: &mut Rows) {
    let clause = Clause::Forward;
    let jump = |to| code(1, &[UNIT, [8, to, 0, 0], KEEP]);
    rows.both(clause, "Jump 2 or 1", BARE, jump(2), jump(1));
    rows.wrong("Jump 0", BARE, jump(0), clause);
    let branch = |kind, to| code(2, &[UNIT, UNIT, [kind, to, 0, 0]]);
    rows.both(
        clause,
        "JumpIfTrue 3 or 2",
        BARE,
        branch(9, 3),
        branch(9, 2),
    );
    rows.both(
        clause,
        "JumpIfFalse 3 or 2",
        BARE,
        branch(10, 3),
        branch(10, 2),
    );
    let skip = |to| code(1, &[UNIT, [11, to, 0, 0]]);
    rows.both(clause, "SkipIfNotUnit 2 or 1", BARE, skip(2), skip(1));
    let none = ImageDraft::default();
    rows.dead(
        clause,
        "dead Jump 3 or 2",
        &none,
        [8, 3, 0, 0],
        [8, 2, 0, 0],
    );

    let clause = Clause::TableForward;
    let one = |table| with(&ranges(&[table], &[]), 1, &[UNIT, [15, 0, 0, 0], KEEP]);
    rows.both(
        clause,
        "default 2 or 1",
        BARE,
        one([1, 0, 0, 2]),
        one([1, 0, 0, 1]),
    );
    let case = |target| {
        let pools = cases(&[[0, 0, 1, 2]], &[[target, 0]]);
        with(&pools, 1, &[UNIT, [15, 0, 0, 0], KEEP])
    };
    rows.both(clause, "case to 2 or 1", BARE, case(2), case(1));
    let range = |target| {
        let pools = ranges(&[[1, 0, 1, 2]], &[[0, 0, 9, 0, 1, target]]);
        with(&pools, 1, &[UNIT, [15, 0, 0, 0], KEEP])
    };
    rows.both(clause, "range to 2 or 1", BARE, range(2), range(1));
    // The second Switch is come to by no run.
    let second = |default, target| {
        let pools = cases(&[[0, 0, 1, default]], &[[target, 0]]);
        with(&pools, 1, &[UNIT, [15, 0, 0, 0], [15, 0, 0, 0], KEEP])
    };
    rows.both(
        clause,
        "default from a second, dead Switch",
        BARE,
        second(3, 3),
        second(2, 3),
    );
    rows.wrong("row from a second, dead Switch", BARE, second(3, 2), clause);
    // Both are come to.
    let both = |default| {
        let pools = ranges(&[[1, 0, 0, default], [1, 0, 0, 2]], &[]);
        let skip = [11, 3, 0, 0];
        with(&pools, 1, &[UNIT, skip, [15, 0, 0, 0], [15, 0, 0, 0], KEEP])
    };
    rows.both(clause, "two Switches on a table", BARE, both(4), both(3));
    // Two tables share the row; only the second is named later.
    let shared = |second| {
        let pools = cases(&[[0, 0, 1, 3], [0, 0, second, 3]], &[[2, 0]]);
        with(&pools, 1, &[UNIT, [15, 0, 0, 0], [15, 1, 0, 0], KEEP])
    };
    rows.both(clause, "a row of two tables", BARE, shared(0), shared(1));
    let idle = cases(&[[0, 0, 1, 0]], &[[0, 0]]);
    rows.right("a table that no Switch names", BARE, beside(idle));

    let clause = Clause::End;
    let jump = |to| code(1, &[UNIT, [8, to, 0, 0]]);
    rows.both(clause, "Jump to the end or past it", BARE, jump(2), jump(3));
    rows.wrong("Jump to 2^32 - 1", BARE, jump(HIGH), clause);
    for (name, kind) in [("JumpIfTrue", 9), ("JumpIfFalse", 10)] {
        let name = format!("{name} to the end or past it");
        rows.both(clause, &name, BARE, branch(kind, 3), branch(kind, 4));
    }
    let name = "SkipIfNotUnit to the end or past it";
    rows.both(clause, name, BARE, skip(2), skip(3));
    let table = |default| beside(ranges(&[[1, 0, 0, default]], &[]));
    rows.both(clause, "default 1 or 2 of 1", BARE, table(1), table(2));
    let case = |target| beside(cases(&[], &[[target, 0]]));
    rows.both(clause, "case to 1 or 2 of 1", BARE, case(1), case(2));
    let range = |target| beside(ranges(&[], &[[0, 0, 0, 0, 0, target]]));
    rows.both(clause, "range to 1 or 2 of 1", BARE, range(1), range(2));
}

fn agree(rows: &mut Rows) {
    let clause = Clause::Agree;
    // A branch over one instruction that keeps or adds a value.
    let join = |op| code(2, &[UNIT, UNIT, [9, 4, 0, 0], op, SWAP]);
    rows.both(
        clause,
        "join after JumpIfTrue",
        BARE,
        join(KEEP),
        join(UNIT),
    );
    let join = |op| code(2, &[UNIT, UNIT, [10, 4, 0, 0], op, SWAP]);
    rows.both(
        clause,
        "join after JumpIfFalse",
        BARE,
        join(KEEP),
        join(UNIT),
    );
    let join = |op| code(1, &[UNIT, [11, 3, 0, 0], op, SWAP]);
    rows.both(
        clause,
        "join after SkipIfNotUnit",
        BARE,
        join(KEEP),
        join(UNIT),
    );
    // A row that no subject chooses: 9..=3.
    let row = |op| {
        let pools = ranges(&[[1, 0, 1, 2]], &[[9, 0, 3, 0, 1, 3]]);
        with(&pools, 1, &[UNIT, [15, 0, 0, 0], op, SWAP])
    };
    rows.both(clause, "row of an empty range", BARE, row(KEEP), row(UNIT));
    let default = |op| {
        let pools = cases(&[[0, 0, 1, 3]], &[[2, 0]]);
        with(&pools, 1, &[UNIT, [15, 0, 0, 0], op, SWAP])
    };
    rows.both(
        clause,
        "row and default",
        BARE,
        default(KEEP),
        default(UNIT),
    );
    // The jump that would disagree is come to by no run.
    let lone = code(1, &[UNIT, [8, 4, 0, 0], [7, 0, 0, 0], UNIT, SWAP]);
    rows.right("dead code before a join", BARE, lone);
}

fn needs(rows: &mut Rows) {
    let clause = Clause::Needs;
    let keeps = [("CheckSize", [22, 0, 0, 0]), ("Rotate 0", KEEP)];
    for (name, op) in keeps {
        rows.both(
            clause,
            name,
            BARE,
            code(1, &[UNIT, op]),
            code(1, &[op, UNIT]),
        );
    }
    let rotate = |a| code(2, &[UNIT, UNIT, [14, a, 0, 0], POP]);
    rows.both(clause, "Rotate 1 or 2 of two", BARE, rotate(1), rotate(2));
    rows.both(
        clause,
        "Pop",
        BARE,
        code(1, &[UNIT, POP, UNIT]),
        code(1, &[POP, UNIT, UNIT]),
    );
    for (name, kind) in [("JumpIfTrue", 9), ("JumpIfFalse", 10)] {
        rows.both(
            clause,
            name,
            BARE,
            code(1, &[UNIT, [kind, 2, 0, 0], UNIT]),
            code(1, &[[kind, 1, 0, 0], UNIT, UNIT]),
        );
    }
    rows.both(
        clause,
        "SkipIfNotUnit",
        BARE,
        code(1, &[UNIT, [11, 2, 0, 0]]),
        code(1, &[[11, 1, 0, 0], UNIT]),
    );
    let table = |default| ranges(&[[1, 0, 0, default]], &[]);
    rows.both(
        clause,
        "Switch",
        BARE,
        with(&table(2), 1, &[UNIT, [15, 0, 0, 0]]),
        with(&table(1), 1, &[[15, 0, 0, 0], UNIT]),
    );
    let append = [19, 0, 0, 0];
    rows.both(
        clause,
        "InterpolateAppend",
        BARE,
        code(2, &[UNIT, UNIT, append]),
        code(1, &[UNIT, append, UNIT]),
    );
    // One value for one.
    let pools = chains(&[[2, 0, 0, 0, 0, 1], [3, 0, 0, 0, 0, 0]], &[]);
    for (name, op) in [
        ("MakeFnPtr", [16, 0, 0, 0]),
        ("InterpolateEnd", [20, 0, 0, 0]),
        ("Call of 1", [12, 0, 1, 0]),
        ("CallRef Local of 2", [13, 0, 2, 0]),
        ("CallRef Named of 1", [13, 0, 257, 0]),
        ("CallRef This of 1", [13, 0, 513, 0]),
        ("CallFnPtr of 0", [17, 0, 0, 0]),
        ("MakeArray 1", [21, 1, 0, 0]),
        ("Chain This of 1", [23, 0, 0, 0]),
        ("Chain Temporary of 0", [23, 1, 0, 0]),
    ] {
        rows.both(
            clause,
            name,
            NAMED,
            with(&pools, 1, &[UNIT, op]),
            with(&pools, 1, &[op, UNIT]),
        );
    }
    rows.right("dead Pop", BARE, dead(&ImageDraft::default(), POP));
}

fn remains_and_depth(rows: &mut Rows) {
    let clause = Clause::Remains;
    rows.wrong(
        "two values at the end",
        BARE,
        code(2, &[UNIT, UNIT]),
        clause,
    );
    rows.wrong("no value at the end", BARE, code(1, &[UNIT, POP]), clause);
    // The branch ends the run, or goes on to one instruction more.
    let branch = |op| code(2, &[UNIT, UNIT, [9, 4, 0, 0], op]);
    rows.both(
        clause,
        "one run with two values",
        BARE,
        branch(KEEP),
        branch(UNIT),
    );
    let row = |op| {
        let pools = cases(&[[0, 0, 1, 3]], &[[2, 0]]);
        with(&pools, 1, &[UNIT, [15, 0, 0, 0], op])
    };
    rows.right("default at the end", BARE, row(KEEP));
    let mut wrong = row(UNIT);
    wrong.depth = 2;
    rows.wrong("row with two values", BARE, wrong, clause);

    let clause = Clause::Depth;
    rows.both(
        clause,
        "depth 2 or 1 on the way",
        BARE,
        code(2, &[UNIT, UNIT, POP]),
        code(1, &[UNIT, UNIT, POP]),
    );
    rows.wrong("depth 0 of 1", BARE, code(0, &[UNIT]), clause);
    rows.wrong("depth 2 of 1", BARE, code(2, &[UNIT]), clause);
    rows.wrong("depth 2^32 - 1", BARE, code(HIGH, &[UNIT]), clause);
    // What no run comes to counts for nothing.
    let lone = |depth| {
        let pushes = [UNIT, [8, 4, 0, 0], UNIT, UNIT];
        code(depth, &pushes)
    };
    rows.both(clause, "dead pushes", BARE, lone(1), lone(3));
    let mut any = code(1, &[UNIT]);
    any.max_stack = HIGH;
    any.positions = vec![HIGH];
    rows.right("any max_stack and position", BARE, any);
}

fn not_asked(rows: &mut Rows) {
    let twice = constants(&[[4, 1, 0x7FF8_0000], [4, 1, 0x7FF8_0000]]);
    rows.right("equal constants", BARE, beside(twice));
    let twice = names(&[[0, 1, 1], [0, 1, 1], [0, 0, 0], [0, 0, 0]]);
    rows.right("equal names", NAMED, beside(twice));
    let empty = names(&[[0, 0, 2], [1, 1, 2]]);
    rows.right("a namespace of no bytes", EMPTY, beside(empty));
    let name = names(&[[1, 0, 0], [1, 1, 0]]);
    rows.right("a name of no bytes", EMPTY, beside(name));
    let float = ImageDraft {
        constants: vec![[4, 0, 0]],
        cases: vec![[2, 0]],
        tables: vec![[0, 0, 1, 2]],
        ..Default::default()
    };
    let switch = with(&float, 1, &[UNIT, [15, 0, 0, 0]]);
    rows.right("a case that is a Float", BARE, switch);
    let call = ImageDraft {
        names: vec![[0, 1, 0]],
        tokens: vec![7],
        ..Default::default()
    };
    let three = with(&call, 3, &[UNIT, UNIT, UNIT, [12, 0, 259, 1]]);
    rows.right("an operator of 3 with capture", NAMED, three);
    let plain = code(2, &[UNIT, UNIT, [19, 0, 0, 0]]);
    rows.right("InterpolateAppend alone", BARE, plain);
}

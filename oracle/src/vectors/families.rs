//! Guards made to a plan, each kind aimed at one rule or one mistake.

use super::{profiles, Set};
use crate::encode::Draft;
use crate::guard::{Limits, VARIANTS_IN_ALL};
use crate::random::{self, Random};
use crate::types::Type;

pub const NUMBERS: &[&[usize]] = &[];
/// nil or cons(number, list), over type 0 as numbers.
pub const LISTS: &[&[&[usize]]] = &[NUMBERS, &[&[], &[0, 1]]];
/// leaf or node(tree, tree).
pub const TREES: &[&[&[usize]]] = &[&[&[], &[0, 0]]];
/// zero or successor.
pub const NATURALS: &[&[&[usize]]] = &[&[&[], &[0]]];

pub fn add(set: &mut Set) {
    colours(set);
    sibling_colours(set);
    sibling_order(set);
    same_reads(set);
    equal_parts(set);
    mixed_labels(set);
    sixteen_variants(set);
    fresh_numbers(set);
    unlike_heads(set);
    reads_back(set);
    tails(set);
    cycles(set);
    successors(set);
    six_types(set);
    absent_siblings(set);
    free_and_built(set);
    defaults(set);
    largest(set);
}

pub fn enumeration(size: usize) -> Type {
    Type {
        variants: vec![Vec::new(); size],
    }
}

/// Every two of `many` terms of an enumeration are unequal.
pub fn colouring(many: usize, colours: usize) -> Draft {
    let mut draft = Draft::with_types(vec![enumeration(colours)]);
    let terms = draft.variables(0, many);
    draft.all_unequal(&terms);
    draft
}

/// As `colouring`, with the colours read out of records that may be absent.
pub fn read_colouring(many: usize, colours: usize) -> Draft {
    let records = Type {
        variants: vec![vec![], vec![0, 1]],
    };
    let mut draft = Draft::with_types(vec![Type::default(), enumeration(colours), records]);
    let records = draft.variables(2, many);
    let read: Vec<usize> = records
        .iter()
        .map(|&record| draft.read(record, 1, 1))
        .collect();
    draft.all_unequal(&read);
    draft
}

fn colours(set: &mut Set) {
    for many in 2..=6 {
        for colours in [many - 1, many, many + 1] {
            set.draft(
                format!("colours-{many}-{colours}"),
                &colouring(many, colours),
            );
        }
    }
    for many in 2..=4 {
        for colours in [many - 1, many] {
            set.draft(
                format!("read-colours-{many}-{colours}"),
                &read_colouring(many, colours),
            );
        }
    }
    // A ring of odd length needs three colours.
    for many in 3..=9 {
        let mut draft = Draft::with_types(vec![enumeration(2)]);
        let terms = draft.variables(0, many);
        for i in 0..many {
            draft.unequal(terms[i], terms[(i + 1) % many]);
        }
        set.draft(format!("ring-{many}"), &draft);
    }
}

/// Unequal records whose numbers are all equal: only their colours, which no
/// row reads, can part them.
pub fn sibling_pigeons(many: usize, colours: usize, fields: usize, optional: bool) -> Draft {
    let mut record = vec![0];
    record.resize(1 + fields, 1);
    let variants = if optional {
        vec![vec![], record]
    } else {
        vec![record]
    };
    let read = variants.len() - 1;
    let types = vec![Type::default(), enumeration(colours), Type { variants }];
    let mut draft = Draft::with_types(types);
    let records = draft.variables(2, many);
    let numbers: Vec<usize> = records
        .iter()
        .map(|&record| draft.read(record, read, 0))
        .collect();
    for &number in &numbers[1..] {
        draft.equal(numbers[0], number);
    }
    draft.all_unequal(&records);
    draft
}

fn sibling_colours(set: &mut Set) {
    for optional in [false, true] {
        let kind = if optional { "optional" } else { "record" };
        for (many, colours, fields) in [
            (2, 1, 1),
            (2, 2, 1),
            (3, 2, 1),
            (3, 3, 1),
            (4, 3, 1),
            (2, 1, 2),
            (3, 2, 2),
            (4, 2, 2),
            (5, 4, 1),
        ] {
            let draft = sibling_pigeons(many, colours, fields, optional);
            set.draft(format!("siblings-{kind}-{many}-{colours}-{fields}"), &draft);
        }
    }
}

/// Siblings of different enumerations: the lower one is split on first.
fn sibling_order(set: &mut Set) {
    for (low, high) in [(2, 3), (3, 2), (2, 5), (4, 2)] {
        for position in 0..3 {
            for many in 2..=4 {
                let mut record = vec![1, 2];
                record.insert(position, 0);
                let records = Type {
                    variants: vec![record, vec![]],
                };
                let enumerations = [enumeration(low), enumeration(high)];
                let types = [vec![Type::default()], enumerations.to_vec(), vec![records]].concat();
                let mut draft = Draft::with_types(types);
                let records = draft.variables(3, many);
                for &record in &records {
                    let number = draft.read(record, 0, position);
                    draft.equal(number, many);
                    draft.is(record, 0);
                }
                draft.all_unequal(&records);
                set.draft(
                    format!("sibling-order-{low}-{high}-{position}-{many}"),
                    &draft,
                );
            }
        }
    }
}

/// "Reads of the same field of equal terms are equal", before any split.
fn same_reads(set: &mut Set) {
    let types: &[&[&[usize]]] = &[&[], &[&[], &[0, 1, 1], &[1, 0]]];
    for (variant, position) in [(1, 0), (1, 1), (1, 2), (2, 0), (2, 1)] {
        for (other_variant, other) in [(1, 0), (1, 1), (1, 2), (2, 0), (2, 1)] {
            let field = |v: usize, p: usize| types[1][v][p];
            if field(variant, position) != field(other_variant, other) {
                continue;
            }
            let mut draft = Draft::new(types);
            let (x, y, z) = (draft.variable(1), draft.variable(1), draft.variable(1));
            let a = draft.read(x, variant, position);
            let b = draft.read(z, other_variant, other);
            draft.equal(x, y);
            draft.equal(z, y);
            draft.unequal(a, b);
            set.draft(
                format!("same-read-{variant}-{position}-{other_variant}-{other}"),
                &draft,
            );
        }
    }
}

/// "Equal rows of one variant have equal parts", and equal parts give equal
/// rows: of the parts and the rows, one pair is unequal.
fn equal_parts(set: &mut Set) {
    for fields in 1..=3 {
        for apart in 0..=fields {
            let record = Type {
                variants: vec![vec![], vec![0; fields], vec![0; fields]],
            };
            for variant in [1, 2] {
                let mut draft = Draft::with_types(vec![Type::default(), record.clone()]);
                let (xs, ys) = (draft.variables(0, fields), draft.variables(0, fields));
                let (x, y) = (draft.built(1, 1, &xs), draft.built(1, variant, &ys));
                let pairs = xs.iter().zip(&ys).map(|(&a, &b)| (a, b)).chain([(x, y)]);
                for (i, (a, b)) in pairs.enumerate() {
                    if i == apart {
                        draft.unequal(a, b);
                    } else {
                        draft.equal(a, b);
                    }
                }
                set.draft(format!("equal-parts-{fields}-{apart}-{variant}"), &draft);
            }
        }
    }
}

/// Types with fields in some variants: a term that lacks those is split on
/// like an enumeration, one that holds them isn't.
fn mixed_labels(set: &mut Set) {
    for many in 2..=4 {
        for colours in 1..=3 {
            for kind in ["flat", "open", "half", "read"] {
                let mut variants = vec![Vec::new(); colours];
                variants.insert(colours / 2, vec![0]);
                let types = vec![Type::default(), Type { variants }];
                let mut draft = Draft::with_types(types);
                let terms = draft.variables(1, many);
                for (i, &term) in terms.iter().enumerate() {
                    let flat = match kind {
                        "flat" => true,
                        "open" => false,
                        _ => i % 2 == 0,
                    };
                    if flat {
                        draft.isnt(term, colours / 2);
                    } else if kind == "read" {
                        draft.read(term, colours / 2, 0);
                    }
                }
                draft.all_unequal(&terms);
                set.draft(format!("mixed-{kind}-{many}-{colours}"), &draft);
            }
        }
    }
}

/// Labels of 16 variants, cut down one by one.
fn sixteen_variants(set: &mut Set) {
    let fields = |flat: bool| Type {
        variants: (0..16)
            .map(|v| if flat || v % 5 != 0 { vec![] } else { vec![0] })
            .collect(),
    };
    for (kind, flat) in [("flat", true), ("mixed", false)] {
        for left in [0, 1, 7, 14, 15, 16] {
            let mut draft = Draft::with_types(vec![Type::default(), fields(flat)]);
            let (x, y) = (draft.variable(1), draft.variable(1));
            for variant in (0..16).filter(|&variant| variant != left) {
                draft.isnt(x, variant);
            }
            set.draft(format!("sixteen-{kind}-left-{left:02}"), &draft);
            draft.is(y, left.min(15));
            draft.unequal(x, y);
            set.draft(format!("sixteen-{kind}-unequal-{left:02}"), &draft);
        }
        for many in [2, 3, 8] {
            let mut draft = Draft::with_types(vec![Type::default(), fields(flat)]);
            let terms = draft.variables(1, many);
            draft.all_unequal(&terms);
            set.draft(format!("sixteen-{kind}-terms-{many}"), &draft);
        }
    }
}

/// Free numbers beside constants that a simple count would run into.
fn fresh_numbers(set: &mut Set) {
    for (constants, step) in [(2, 1), (5, -1), (9, 1), (16, 3)] {
        for free in [1, 2, 4] {
            let mut draft = Draft::new(&[&[], &[], &[&[0], &[1, 0]]]);
            let known: Vec<usize> = (0..constants)
                .map(|i| draft.constant(0, i * step))
                .collect();
            let terms = draft.variables(0, free);
            draft.all_unequal(&terms);
            for (i, &constant) in known.iter().enumerate() {
                draft.unequal(terms[i % free], constant);
            }
            let (x, y) = (draft.variable(2), draft.variable(2));
            draft.unequal(x, y);
            set.draft(format!("fresh-{constants:02}-{free}"), &draft);
        }
    }
}

/// Equal lists whose n-th elements are given: one class holds both constants.
/// A list that is too short has 0 there.
fn unlike_heads(set: &mut Set) {
    for depth in 0..=4 {
        for (kind, a, b) in [
            ("zero", 0, 0),
            ("one", 1, 1),
            ("unlike", 1, 0),
            ("ends", i64::from(i32::MIN), i64::from(i32::MAX)),
        ] {
            let mut draft = Draft::new(LISTS);
            let (x, y) = (draft.variable(1), draft.variable(1));
            let heads = [x, y].map(|list| {
                let last = (0..depth).fold(list, |list, _| draft.read(list, 1, 1));
                draft.read(last, 1, 0)
            });
            let constants = [draft.constant(0, a), draft.constant(0, b)];
            draft.equal(heads[0], constants[0]);
            draft.equal(heads[1], constants[1]);
            draft.equal(x, y);
            set.draft(format!("heads-{kind}-{depth}"), &draft);
            draft.is(x, 0);
            set.draft(format!("heads-nil-{kind}-{depth}"), &draft);
        }
    }
}

/// `left^n(z) = x`, z is a node, z = x; and the same without the node.
fn reads_back(set: &mut Set) {
    for length in [1, 2, 3, 4, 5, 8, 13, 21, 22] {
        for (kind, node) in [("node", true), ("any", false)] {
            let mut draft = Draft::new(TREES);
            let (z, x) = (draft.variable(0), draft.variable(0));
            let mut term = z;
            for step in 0..length {
                term = draft.read(term, 1, if length % 2 == 0 { step % 2 } else { 0 });
            }
            draft.equal(term, x);
            if node {
                draft.is(z, 1);
            }
            draft.equal(z, x);
            set.draft(format!("reads-back-{kind}-{length:02}"), &draft);
        }
    }
}

/// The n-th tail of a list, with what is known of it.
fn tails(set: &mut Set) {
    for length in [1, 2, 3, 5, 9, 14] {
        for kind in ["nil", "cons", "same", "other", "first"] {
            let mut draft = Draft::new(LISTS);
            let x = draft.variable(1);
            let mut term = x;
            for _ in 0..length {
                term = draft.read(term, 1, 1);
            }
            match kind {
                "nil" => draft.is(term, 0),
                "cons" => draft.is(term, 1),
                "same" => draft.equal(x, term),
                "other" => draft.unequal(x, term),
                _ => {
                    let head = draft.read(term, 1, 0);
                    let zero = draft.constant(0, 0);
                    draft.unequal(head, zero);
                    draft.is(x, 0);
                }
            }
            set.draft(format!("tails-{kind}-{length:02}"), &draft);
        }
    }
}

/// Messages that would have to be inside themselves.
fn cycles(set: &mut Set) {
    for length in [1, 2, 3, 7, 23] {
        let mut draft = Draft::new(NATURALS);
        let x = draft.variable(0);
        let mut term = x;
        for _ in 0..length {
            term = draft.built(0, 1, &[term]);
        }
        draft.equal(x, term);
        set.draft(format!("cycle-built-{length:02}"), &draft);
        draft.lines.clear();
        draft.unequal(x, term);
        set.draft(format!("cycle-none-{length:02}"), &draft);
    }
    // nothing or some(box), box(option): x is some, and is inside its own box.
    let mut draft = Draft::new(&[&[&[], &[1]], &[&[0]]]);
    let x = draft.variable(0);
    let inner = draft.read(x, 1, 0);
    let back = draft.read(inner, 0, 0);
    draft.equal(x, back);
    set.draft("cycle-through-a-box", &draft);
    draft.is(x, 1);
    set.draft("cycle-through-a-box-some", &draft);
    // Half the way is read, half built.
    for built in 1..=4 {
        let mut draft = Draft::new(TREES);
        let (x, y) = (draft.variable(0), draft.variable(0));
        let mut low = draft.read(x, 1, 0);
        let inside = draft.read(low, 1, 1);
        draft.equal(inside, y);
        for _ in 0..built {
            low = draft.built(0, 1, &[y, low]);
        }
        draft.equal(low, y);
        set.draft(format!("cycle-mixed-{built}"), &draft);
    }
}

/// Free naturals, all unequal to each other and to built ones.
fn successors(set: &mut Set) {
    for free in 1..=6 {
        for built in [0, 4, 12, 16] {
            let mut draft = Draft::new(NATURALS);
            let terms = draft.variables(0, free);
            draft.all_unequal(&terms);
            let mut top = terms[0];
            for i in 0..built {
                top = draft.built(0, 1, &[top]);
                draft.unequal(top, terms[(i + 1) % free]);
            }
            set.draft(format!("successors-{free}-{built:02}"), &draft);
            let last = terms[free - 1];
            let before = draft.read(last, 1, 0);
            draft.equal(before, top);
            set.draft(format!("successors-back-{free}-{built:02}"), &draft);
        }
    }
    // x is none of the first few numbers.
    for known in [1, 4, 20] {
        let mut draft = Draft::new(NATURALS);
        let x = draft.variable(0);
        let mut term = draft.built(0, 0, &[]);
        draft.unequal(x, term);
        for _ in 0..known {
            term = draft.built(0, 1, &[term]);
            draft.unequal(term, x);
        }
        set.draft(format!("successors-known-{known:02}"), &draft);
    }
}

/// Six types in one cycle; each read has two infinite siblings.
fn six_types(set: &mut Set) {
    let ty = |i: usize| Type {
        variants: vec![vec![], vec![(i + 1) % 6; 3]],
    };
    for reads in [6, 12, 18, 23] {
        for kind in ["free", "deep", "back", "back-node", "built"] {
            let mut draft = Draft::with_types((0..6).map(ty).collect());
            let x = draft.variable(0);
            let mut chain = vec![x];
            for step in 1..=reads {
                chain.push(draft.read(chain[step - 1], 1, step % 3));
            }
            let last = chain[reads];
            match kind {
                "free" => {}
                "deep" => draft.is(last, 1),
                "back" => draft.equal(chain[6], x),
                "back-node" => {
                    draft.equal(chain[6 * (reads / 6)], x);
                    draft.is(chain[reads / 2], 1);
                }
                _ if reads == 23 => draft.unequal(chain[17], last),
                _ => {
                    let parts = [last; 3];
                    let before = draft.row_types[chain[reads - 1]];
                    let built = draft.built(before, 1, &parts);
                    draft.unequal(built, chain[reads - 1]);
                }
            }
            set.draft(format!("six-types-{kind}-{reads:02}"), &draft);
        }
    }
}

/// A field is read whose variant is absent: its siblings stay free.
fn absent_siblings(set: &mut Set) {
    for colours in 1..=4 {
        for siblings in 1..=2 {
            for position in 0..=siblings {
                let mut record = vec![1; siblings + 1];
                record[position] = 2;
                let records = Type {
                    variants: vec![vec![], record],
                };
                let types = vec![records, enumeration(colours), Type::default()];
                for kind in ["absent", "present", "open"] {
                    let mut draft = Draft::with_types(types.clone());
                    let x = draft.variable(0);
                    draft.read(x, 1, position);
                    match kind {
                        "absent" => draft.is(x, 0),
                        "present" => draft.isnt(x, 0),
                        _ => {}
                    }
                    let name = format!("absent-{kind}-{colours}-{siblings}-{position}");
                    set.draft(name, &draft);
                }
            }
        }
    }
}

/// A free message of infinite type must stay apart from built ones.
fn free_and_built(set: &mut Set) {
    for depth in 1..=6 {
        for (kind, cons) in [("any", false), ("cons", true)] {
            let mut draft = Draft::new(LISTS);
            let x = draft.variable(1);
            let zero = draft.constant(0, 0);
            let mut list = draft.built(1, 0, &[]);
            draft.unequal(x, list);
            for _ in 0..depth {
                list = draft.built(1, 1, &[zero, list]);
                draft.unequal(x, list);
            }
            if cons {
                draft.is(x, 1);
                let tail = draft.read(x, 1, 1);
                draft.unequal(tail, list);
            }
            set.draft(format!("free-list-{kind}-{depth}"), &draft);
        }
        // The built message holds a free one of the same type.
        let mut draft = Draft::new(TREES);
        let (x, y) = (draft.variable(0), draft.variable(0));
        let mut tree = y;
        for _ in 0..depth {
            tree = draft.built(0, 1, &[tree, y]);
            draft.unequal(x, tree);
        }
        draft.unequal(x, y);
        set.draft(format!("free-tree-{depth}"), &draft);
    }
}

/// Reads of an absent variant, against each variant that the default may have.
fn defaults(set: &mut Set) {
    let mut random = Random::named("defaults");
    let profiles = profiles::all();
    let profile = profiles.iter().find(|profile| profile.name == "types");
    let profile = profile.expect("the profile is listed");
    let mut kept = 0;
    while kept < 90 {
        let made = random::draft(&mut random, profile);
        let ty = random.below(made.types.len());
        let variants = made.types[ty].variants.len();
        if variants < 2 {
            continue;
        }
        let variant = random.below(variants);
        let fields = made.types[ty].variants[variant].len();
        if fields == 0 {
            continue;
        }
        let mut draft = Draft::with_types(made.types);
        let x = draft.variable(ty);
        let read = draft.read(x, variant, random.below(fields));
        draft.isnt(x, variant);
        let of = draft.row_types[read];
        match draft.types[of].variants.len() {
            0 => {
                let value = draft.constant(of, random.below(2) as i64);
                draft.equal(read, value);
            }
            many => draft.is(read, random.below(many)),
        }
        set.draft(format!("default-{kept:02}"), &draft);
        kept += 1;
    }
}

/// As many bytes as any file with such values has: every count at its limit,
/// and only constants.
pub(super) fn longest(value: impl Fn(i64) -> i64) -> Draft {
    let wide = |variants: usize| Type {
        variants: vec![vec![0; 3]; variants],
    };
    let types = vec![
        Type::default(),
        wide(10),
        wide(10),
        wide(10),
        wide(10),
        wide(8),
    ];
    let mut draft = Draft::with_types(types);
    let terms: Vec<usize> = (0..24).map(|i| draft.constant(0, value(i))).collect();
    for line in 0..32 {
        draft.unequal(terms[line % 24], terms[(line * 5 + 1) % 24]);
    }
    draft
}

/// The longest file with values of 32 bits, and one with every count at its
/// limit.
fn largest(set: &mut Set) {
    let mut draft = longest(|i| i64::from(i32::MIN) + i);
    set.draft("longest-465", &draft);
    for line in &mut draft.lines[31..] {
        *line = crate::guard::Line::Equal(22, 23);
    }
    set.draft("longest-465-unsat", &draft);

    let ty = |i: usize| Type {
        variants: (0..8).map(|v| vec![(i + v) % 6; v % 4]).collect(),
    };
    let mut draft = Draft::with_types((0..6).map(ty).collect());
    let mut term = draft.variable(0);
    while draft.rows.len() < Limits::BASE.terms {
        let variant = 1 + draft.rows.len() % 3;
        term = draft.read(term, variant, 0);
    }
    for line in 0..Limits::BASE.lines {
        draft.isnt(line % 24, 4 + line % 4);
    }
    let variants: usize = draft.types.iter().map(|ty| ty.variants.len()).sum();
    assert_eq!(variants, VARIANTS_IN_ALL);
    set.draft("largest-reads", &draft);
    draft.lines[31] = crate::guard::Line::Is(term, 0);
    set.draft("largest-reads-is", &draft);
}

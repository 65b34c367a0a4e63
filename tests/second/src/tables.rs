//! Known tables: P1 to P12 of document 01, and the tables to measure on.

use crate::random::Chance;
use crate::refusal::{MOST_GROUPS, MOST_LITERALS, MOST_WORDS};
use crate::table::{Literal, Rule, encode, negation, numbered};

/// Rules in document 01's notation (":" parts head and body, "/" groups), with atoms numbered by first appearance.
#[derive(Clone, Debug)]
pub struct Written {
    pub names: Vec<String>,
    pub rules: Vec<Rule>,
}

impl Written {
    pub fn n(&self) -> u64 {
        self.names.len() as u64
    }

    /// The words of the rules, with the lines that they have in the sheet.
    pub fn words(&self) -> Vec<u16> {
        encode(&numbered(&self.rules))
    }

    pub fn atom(&self, name: &str) -> usize {
        self.names.iter().position(|known| known == name).expect("a name of this table")
    }

    /// The code of a literal such as "-a".
    pub fn literal(&self, text: &str) -> Literal {
        match text.strip_prefix('-') {
            Some(name) => 2 * self.atom(name) + 1,
            None => 2 * self.atom(text),
        }
    }

    fn meet(&mut self, text: &str) -> Literal {
        let name = text.strip_prefix('-').unwrap_or(text);
        if !self.names.iter().any(|known| known == name) {
            self.names.push(name.to_string());
        }
        self.literal(text)
    }

    /// The same rules as a rule sheet.
    pub fn sheet(&self) -> Vec<u8> {
        let show = |literal: &Literal| {
            let sign = if literal % 2 == 1 { "-" } else { "" };
            format!("{sign}{}", self.names[literal / 2])
        };
        let mut text = String::new();
        for rule in &self.rules {
            text += &show(&rule.head);
            for group in &rule.groups {
                text += "\t";
                text += &group.iter().map(show).collect::<Vec<_>>().join(" ");
            }
            text += "\n";
        }
        text.into_bytes()
    }
}

/// A table from rules in document 01's notation, such as `["g: h / k", "k: g"]`.
pub fn written(rules: &[&str]) -> Written {
    let mut table = Written {
        names: Vec::new(),
        rules: Vec::new(),
    };
    for rule in rules {
        let (head, body) = match rule.split_once(':') {
            Some((head, body)) => (head, Some(body)),
            None => (*rule, None),
        };
        let head = table.meet(head.trim());
        let mut groups = Vec::new();
        for group in body.iter().flat_map(|body| body.split('/')) {
            groups.push(group.split_whitespace().map(|literal| table.meet(literal)).collect());
        }
        table.rules.push(Rule { head, groups });
    }
    table
}

/// A known example: rules, the value of each atom, the number of marks, and further sets that are well-supported.
pub struct Example {
    pub name: &'static str,
    pub rules: &'static [&'static str],
    pub values: &'static [(&'static str, u8)],
    pub marks: u64,
    pub also_well_supported: &'static [&'static [&'static str]],
}

impl Example {
    pub fn table(&self) -> Written {
        written(self.rules)
    }

    /// The values in atom order.
    pub fn values_in_order(&self) -> Vec<u8> {
        let named = |name: &String| {
            let found = self.values.iter().find(|(known, _)| known == name);
            found.expect("each atom of an example has a value").1
        };
        self.table().names.iter().map(named).collect()
    }
}

/// P1 to P12.
pub const EXAMPLES: [Example; 12] = {
    use crate::truth::{F, I, T, U};
    const fn plain(
        name: &'static str,
        rules: &'static [&'static str],
        values: &'static [(&'static str, u8)],
        marks: u64,
    ) -> Example {
        Example {
            name,
            rules,
            values,
            marks,
            also_well_supported: &[],
        }
    }
    [
        plain("P1", &[], &[], 0),
        Example {
            name: "P2",
            rules: &["-b: b"],
            values: &[("b", U)],
            marks: 0,
            also_well_supported: &[&["b", "-b"]],
        },
        plain("P3", &["p: q"], &[("p", U), ("q", U)], 0),
        plain("P4", &["p"], &[("p", T)], 0),
        plain("P5", &["p", "-p"], &[("p", I)], 1),
        Example {
            name: "P6",
            rules: &["l", "c: l", "-l: -c"],
            values: &[("l", T), ("c", T)],
            marks: 0,
            also_well_supported: &[&["l", "-l", "c", "-c"]],
        },
        plain("P7", &["p", "-p: p"], &[("p", I)], 1),
        plain("P8", &["-q", "p: q"], &[("q", F), ("p", U)], 0),
        plain("P9", &["a", "-a", "p: a b"], &[("a", I), ("b", U), ("p", U)], 1),
        plain("P10", &["a", "-a", "b", "p: a / b"], &[("a", I), ("b", T), ("p", T)], 1),
        plain(
            "P11",
            &["a", "-a", "b: a", "h", "-h: -b", "g: h / k", "k: g"],
            &[("a", I), ("b", I), ("h", I), ("g", I), ("k", I)],
            5,
        ),
        plain(
            "P12",
            &[
                "wait: overloaded / rest_time",
                "rest_time: wait",
                "-overloaded: rest_time",
                "overloaded",
                "good_mood: rested / success",
                "-rested: -rest_time",
                "rested",
                "success",
            ],
            &[
                ("wait", I),
                ("overloaded", I),
                ("rest_time", I),
                ("good_mood", T),
                ("rested", I),
                ("success", T),
            ],
            4,
        ),
    ]
};

/// Both sides of the whole run of document 01; every atom has its line (document 02, W1).
pub const WHOLE_RUN_INPUT: &str =
    "arrived\tlogged\tmailed\nlogged\n-arrived\tgap\ngap\nscored\tarrived audited\naudited\n";
pub const WHOLE_RUN_OUTPUT: &str = "arrived\ti\nlogged\tt\nmailed\tu\ngap\tt\nscored\ti\naudited\tt\n";

/// A table to measure on: N is 512, at most 8,192 words, and the lines are 1, 2, 3 .. by record.
pub struct Measured {
    pub name: &'static str,
    pub table: fn() -> (u64, Vec<u16>),
}

pub const MEASURED: [Measured; 11] = [
    Measured { name: "chain512", table: chain512 },
    Measured { name: "max_t", table: max_t },
    Measured { name: "max_random", table: max_random },
    Measured { name: "marks_seq", table: marks_seq },
    Measured { name: "marks_seq_max", table: marks_seq_max },
    Measured { name: "all_i", table: all_i },
    Measured { name: "prop_trap", table: prop_trap },
    Measured { name: "worst_reread", table: worst_reread },
    Measured { name: "worst_src", table: worst_src },
    Measured { name: "worst_fresh", table: worst_fresh },
    Measured { name: "worst_w7", table: worst_w7 },
];

/// A kind of table to see on how the cost grows with the words: in as many as are asked for, or as near below as it fits.
pub struct Growing {
    pub name: &'static str,
    pub table: fn(usize) -> (u64, Vec<u16>),
}

/// Nothing is marked: one Held answers the question of conflict.
pub const GROWING_WITHOUT_MARKS: [Growing; 2] = [
    Growing { name: "max_t", table: max_t_of },
    Growing { name: "worst_reread, its chain alone", table: worst_reread_chain_of },
];

/// Each mark needs the one before it: as many rounds as marks, and a last one.
pub const GROWING_WITH_MARKS: [Growing; 4] = [
    Growing { name: "worst_fresh", table: worst_fresh_of },
    Growing { name: "worst_reread", table: worst_reread_of },
    Growing { name: "marks_seq_max", table: marks_seq_max_of },
    Growing { name: "worst_w7", table: worst_w7_of },
];

const N: usize = 512;

fn positive(atom: usize) -> Literal {
    2 * atom
}

fn negative(atom: usize) -> Literal {
    2 * atom + 1
}

pub fn fact(head: Literal) -> Rule {
    Rule { head, groups: Vec::new() }
}

pub fn rule(head: Literal, groups: Vec<Vec<Literal>>) -> Rule {
    Rule { head, groups }
}

/// How many words rules take.
pub fn words(rules: &[Rule]) -> usize {
    encode(&numbered(rules)).len()
}

fn finished(rules: Vec<Rule>) -> (u64, Vec<u16>) {
    (N as u64, encode(&numbered(&rules)))
}

/// `count` blocks marked one after another: x0, -x0; b_i: x_i; x_{i+1}; -x_{i+1}: -b_i. Atom x_i is first + 2i, b_i the next.
pub fn marks_one_after_another(first: usize, count: usize) -> Vec<Rule> {
    let x = |i: usize| first + 2 * i;
    let b = |i: usize| first + 2 * i + 1;
    let mut rules = vec![fact(positive(x(0))), fact(negative(x(0)))];
    for i in 0..count {
        rules.push(rule(positive(b(i)), vec![vec![positive(x(i))]]));
        if i + 1 < count {
            rules.push(fact(positive(x(i + 1))));
            rules.push(rule(negative(x(i + 1)), vec![vec![negative(b(i))]]));
        }
    }
    rules
}

/// p_{i+1}: p_i over the atoms from `first` on, written back to front, the fact last.
fn chain_back_to_front(first: usize, length: usize) -> Vec<Rule> {
    let mut rules: Vec<Rule> = (1..length)
        .rev()
        .map(|i| rule(positive(first + i), vec![vec![positive(first + i - 1)]]))
        .collect();
    rules.push(fact(positive(first)));
    rules
}

/// p_i: p_{i-1}, p_{i-2} .. (round again where there are too few), back to front, the fact last, in exactly `room` words.
fn wide_chain_back_to_front(first: usize, length: usize, room: usize) -> Vec<Rule> {
    let literals = room - 3 - 4 * (length - 1);
    let (each, more) = (literals / (length - 1), literals % (length - 1));
    let mut rules: Vec<Rule> = (1..length)
        .rev()
        .map(|i| {
            let wide = if i <= more { each + 1 } else { each };
            assert!(wide <= MOST_LITERALS);
            rule(positive(first + i), vec![(0..wide).map(|j| positive(first + i - 1 - j % i)).collect()])
        })
        .collect();
    rules.push(fact(positive(first)));
    rules
}

/// Fills the table up to `full` words by records that never fire: one group each, the literal `never` last in it.
pub fn pad(rules: &mut Vec<Rule>, full: usize, heads: &[Literal], filler: &[Literal], never: Literal) {
    let mut room = full - words(rules);
    let mut heads = heads.iter();
    let mut filler = filler.iter().cycle();
    while room > 0 {
        // A record takes 5 to 68 words; the rest must not fall below 5.
        let size = match room {
            0..=68 => room,
            69..=72 => room - 5,
            _ => 68,
        };
        let mut group: Vec<Literal> = filler.by_ref().take(size - 5).copied().collect();
        group.push(never);
        let head = *heads.next().expect("heads enough to fill the table");
        rules.push(rule(head, vec![group]));
        room -= size;
    }
}

/// A chain of 512, back to front.
pub fn chain512() -> (u64, Vec<u16>) {
    finished(chain_back_to_front(0, N))
}

/// 8,192 words, positive heads, wide bodies, back to front, all t.
pub fn max_t() -> (u64, Vec<u16>) {
    max_t_of(MOST_WORDS)
}

/// The same in fewer words, with as many of its atoms fewer; so are those below that are `_of` words.
fn max_t_of(full: usize) -> (u64, Vec<u16>) {
    finished(wide_chain_back_to_front(0, share(N, full), full))
}

/// What remains of so many atoms, blocks or groups in a table of `full` words in place of 8,192.
fn share(count: usize, full: usize) -> usize {
    count * full / MOST_WORDS
}

/// 8,192 words, 1,024 heads, random groups, 400 facts.
pub fn max_random() -> (u64, Vec<u16>) {
    let mut chance = Chance::new(512);
    let mut heads: Vec<Literal> = (0..2 * N).collect();
    chance.shuffle(&mut heads);
    let (facts, others) = heads.split_at(400);
    let mut rules: Vec<Rule> = facts.iter().map(|&head| fact(head)).collect();
    let mut room = MOST_WORDS - 3 * facts.len();
    for (i, &head) in others.iter().enumerate() {
        let left = others.len() - i;
        // Each of the rules left gets its share, give or take, and the last one all that is left.
        let share = room / left;
        let size = if left == 1 { room } else { chance.between(share as u64 - 4, share as u64 + 4) as usize };
        rules.push(rule(head, random_groups(&mut chance, size - 3)));
        room -= size;
    }
    chance.shuffle(&mut rules);
    finished(rules)
}

/// Groups in exactly `room` words, at least 2: mostly of 3 to 7 literals, so that facts alone do not fire them all.
fn random_groups(chance: &mut Chance, room: usize) -> Vec<Vec<Literal>> {
    let mut groups = Vec::new();
    let mut room = room;
    while room > 0 {
        let size = match room {
            0..=8 => room,
            _ => chance.between(4, 8).min(room as u64 - 2) as usize,
        };
        groups.push((1..size).map(|_| chance.below(2 * N as u64) as Literal).collect());
        room -= size;
    }
    groups
}

/// 256 blocks marked one after another: 512 marks in 512 rounds.
pub fn marks_seq() -> (u64, Vec<u16>) {
    finished(marks_one_after_another(0, 256))
}

/// The same with 255 blocks, as something must stay unknown for padding that never fires: 510 marks, 8,192 words.
pub fn marks_seq_max() -> (u64, Vec<u16>) {
    marks_seq_max_of(MOST_WORDS)
}

fn marks_seq_max_of(full: usize) -> (u64, Vec<u16>) {
    let blocks = share(256, full) - 1;
    let mut rules = marks_one_after_another(0, blocks);
    let heads: Vec<Literal> = (0..blocks).map(|i| negative(2 * i + 1)).collect();
    let filler: Vec<Literal> = (0..4 * blocks).collect();
    pad(&mut rules, full, &heads, &filler, positive(511));
    finished(rules)
}

/// Both literals of every atom are facts.
pub fn all_i() -> (u64, Vec<u16>) {
    finished((0..2 * N).map(fact).collect())
}

/// P11's g and k at full length: one clash, and g_i: g_{i-1} / g_{i+1}, which prop each other up both ways.
pub fn prop_trap() -> (u64, Vec<u16>) {
    let (a, b, h, g) = (0, 1, 2, 3);
    let mut rules = vec![
        fact(positive(a)),
        fact(negative(a)),
        rule(positive(b), vec![vec![positive(a)]]),
        fact(positive(h)),
        rule(negative(h), vec![vec![negative(b)]]),
    ];
    for atom in g..N {
        let mut groups = vec![vec![positive(atom - 1)]];
        if atom + 1 < N {
            groups.push(vec![positive(atom + 1)]);
        }
        rules.push(rule(positive(atom), groups));
    }
    finished(rules)
}

/// A 256-long chain back to front beside 256 marks one after another, 8,192 words.
pub fn worst_reread() -> (u64, Vec<u16>) {
    worst_reread_of(MOST_WORDS)
}

fn worst_reread_of(full: usize) -> (u64, Vec<u16>) {
    chain_among_padding(full, marks_one_after_another(0, share(128, full)))
}

/// Its chain alone, padded to as many words: nothing is marked.
fn worst_reread_chain_of(full: usize) -> (u64, Vec<u16>) {
    chain_among_padding(full, Vec::new())
}

/// A chain back to front over the atoms from 256 on, then these rules, then records of the chain's literals that never fire.
fn chain_among_padding(full: usize, others: Vec<Rule>) -> (u64, Vec<u16>) {
    let atoms = 256..256 + share(256, full);
    let mut rules = chain_back_to_front(256, atoms.len());
    rules.extend(others);
    let heads: Vec<Literal> = atoms.clone().map(negative).collect();
    let filler: Vec<Literal> = atoms.map(positive).collect();
    pad(&mut rules, full, &heads, &filler, negative(256));
    finished(rules)
}

/// A 250-long chain that rests on x0 or x1 or .. up to x127 (64 groups to a rule, so by two rules), each x marked in turn.
pub fn worst_src() -> (u64, Vec<u16>) {
    let (blocks, chain) = (128, 250);
    let (early, late, first) = (256, 257, 258);
    let mut rules = marks_one_after_another(0, blocks);
    let x = |i: usize| vec![positive(2 * i)];
    rules.push(rule(positive(early), (0..64).map(x).collect()));
    rules.push(rule(positive(late), (64..128).map(x).collect()));
    rules.push(rule(positive(first), vec![vec![positive(early)], vec![positive(late)]]));
    for atom in first + 1..first + chain {
        rules.push(rule(positive(atom), vec![vec![positive(atom - 1)]]));
    }
    finished(rules)
}

/// 384 marks one after another beside 128 atoms with wide bodies that stay t, 8,192 words.
pub fn worst_fresh() -> (u64, Vec<u16>) {
    worst_fresh_of(MOST_WORDS)
}

fn worst_fresh_of(full: usize) -> (u64, Vec<u16>) {
    let mut rules = marks_one_after_another(0, share(192, full));
    let room = full - words(&rules);
    rules.extend(wide_chain_back_to_front(384, share(128, full), room));
    finished(rules)
}

/// 256 marks one after another; 255 facts, all in one record of 64 groups of 64 literals that never fires.
pub fn worst_w7() -> (u64, Vec<u16>) {
    worst_w7_of(MOST_WORDS)
}

fn worst_w7_of(full: usize) -> (u64, Vec<u16>) {
    let never = 255 + share(256, full);
    let mut rules = marks_one_after_another(0, share(128, full));
    rules.extend((256..never).map(|atom| fact(positive(atom))));
    let mut facts = (256..never).map(positive).cycle();
    let mut group = || {
        let mut group: Vec<Literal> = facts.by_ref().take(MOST_LITERALS - 1).collect();
        group.push(positive(never));
        group
    };
    let groups = (0..share(MOST_GROUPS, full)).map(|_| group()).collect();
    rules.push(rule(negation(positive(never)), groups));
    finished(rules)
}

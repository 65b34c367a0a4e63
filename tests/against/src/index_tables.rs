//! Tables that are awkward for an index of the places at which literals stand: repeated literals, as many heads, groups or places as
//! there can be, shared groups, chains to the highest and to the lowest literal, and groups that only a mark makes whole.

use second::random::Chance;
use second::refusal::{MOST_GROUPS, MOST_LITERALS, MOST_WORDS};
use second::table::{Literal, Rule, negation};
use second::tables::{fact, marks_one_after_another, pad, rule, words};

/// N and rules that are accepted with it.
pub type Table = (usize, Vec<Rule>);

/// Tables of one kind.
pub struct Kind {
    pub name: &'static str,
    pub tables: fn() -> Vec<Table>,
}

pub const KINDS: [Kind; 8] = [
    Kind { name: "repeated literals", tables: repeated_literals },
    Kind { name: "all heads", tables: all_heads },
    Kind { name: "shared groups", tables: shared_groups },
    Kind { name: "empty, or one record", tables: empty_or_one_record },
    Kind { name: "most groups and most places", tables: most_groups_and_places },
    Kind { name: "chains", tables: chains },
    Kind { name: "only in the first place, or in the last", tables: only_first_or_last },
    Kind { name: "whole by a mark", tables: whole_by_a_mark },
];

/// The lowest and the highest literal of N atoms.
fn ends(n: usize) -> [Literal; 2] {
    [0, 2 * n - 1]
}

fn times(count: usize, literals: &[Literal]) -> Vec<Literal> {
    literals.iter().copied().cycle().take(count).collect()
}

/// A table with each of these sets of facts in front, and behind.
fn with_facts(n: usize, rules: &[Rule], sets: &[&[Literal]]) -> Vec<Table> {
    let mut tables = Vec::new();
    for set in sets {
        let facts: Vec<Rule> = set.iter().map(|&head| fact(head)).collect();
        tables.push((n, [&facts, rules].concat()));
        tables.push((n, [rules, &facts].concat()));
    }
    tables
}

/// A group of up to 64 times one literal, of two by turns, and one literal in all groups; each whole, not whole, and by an i.
fn repeated_literals() -> Vec<Table> {
    let mut tables = Vec::new();
    for p in [0, 1] {
        tables.extend(with_facts(1, &[rule(negation(p), vec![times(64, &[p])])], &[&[], &[p]]));
    }
    for n in [3, 512] {
        for p in ends(n) {
            let (not_p, h, q) = (negation(p), 2, if p == 0 { 4 } else { 0 });
            for k in [1, 2, 63, 64] {
                tables.extend(with_facts(n, &[rule(h, vec![times(k, &[p])])], &[&[], &[p], &[not_p], &[p, not_p], &[p, h + 1]]));
            }
            let turns = rule(h, vec![times(64, &[p, q])]);
            tables.extend(with_facts(n, &[turns], &[&[p], &[q], &[p, q], &[p, q, not_p], &[p, q, h + 1]]));
            let in_all = rule(h, (0..64).map(|i| if i == 63 { vec![p, p] } else { vec![p, q] }).collect());
            tables.extend(with_facts(n, &[in_all], &[&[q], &[p], &[p, not_p], &[p, h + 1]]));
        }
    }
    // Each literal in a group of its own 64 times, which gives the next.
    for first in [0, 1024 - 120] {
        let links: Vec<Rule> = (first..first + 119).map(|p| rule(p + 1, vec![times(64, &[p])])).collect();
        tables.extend(with_facts(512, &links, &[&[], &[first]]));
        // One literal of each atom, so that nothing is in conflict.
        let links: Vec<Rule> = (first..first + 118).step_by(2).map(|p| rule(p + 2, vec![times(64, &[p])])).collect();
        tables.extend(with_facts(512, &links, &[&[], &[first], &[first, first + 117]]));
    }
    tables
}

/// Both literals of all N atoms head a rule: facts, links of a chain, and four literals in a body, which fill 8,192 words.
fn all_heads() -> Vec<Table> {
    let mut tables = Vec::new();
    for n in [1, 2, 32, 511, 512] {
        let heads = 0..2 * n;
        tables.push((n, heads.clone().map(fact).collect()));
        tables.push((n, heads.clone().rev().map(fact).collect()));
        // Each rests on the one before it, round; with and without a fact in place of one.
        let round = |head: Literal| rule(head, vec![vec![(head + 2 * n - 1) % (2 * n)]]);
        for fact_of in [None, Some(0), Some(2 * n - 1)] {
            let of = |head: Literal| if Some(head) == fact_of { fact(head) } else { round(head) };
            tables.push((n, heads.clone().map(of).collect()));
        }
        // By the four before it, or by its negation alone: one fact gives all.
        let wide = |head: Literal| rule(head, vec![(1..5).map(|i| head.saturating_sub(i)).collect()]);
        let or_not = |head: Literal| rule(head, vec![vec![negation(head)], vec![head.saturating_sub(1)]]);
        for body in [&wide as &dyn Fn(Literal) -> Rule, &or_not] {
            tables.push((n, heads.clone().map(|head| if head == 0 { fact(head) } else { body(head) }).collect()));
            tables.push((n, heads.clone().map(body).collect()));
        }
    }
    tables
}

/// Many rules with the same group of 64 literals, and one rule with it 64 times: whole, one literal missing, one of them i.
fn shared_groups() -> Vec<Table> {
    let mut tables = Vec::new();
    for base in [0, 512 - 192] {
        let group: Vec<Literal> = (base..base + 64).map(|atom| 2 * atom).collect();
        let heads: Vec<Literal> = (base + 64..base + 181).map(|atom| 2 * atom).collect();
        let shared: Vec<Rule> = heads.iter().map(|&head| rule(head, vec![group.clone()])).collect();
        let repeated = vec![rule(heads[0], vec![group.clone(); 64]), rule(heads[1] + 1, vec![group.clone(); 57])];
        for rules in [shared, repeated] {
            let without = |at: usize| [&group[..at], &group[at + 1..]].concat();
            let i = [&group[..], &[group[63] + 1]].concat();
            let clash = [&group[..], &[heads[0] + 1]].concat();
            tables.extend(with_facts(512, &rules, &[&group, &without(0), &without(63), &i, &clash]));
        }
    }
    tables
}

fn empty_or_one_record() -> Vec<Table> {
    let mut tables: Vec<Table> = [0, 1, 32, 33, 511, 512].map(|n| (n, Vec::new())).into();
    for n in [1, 31, 32, 33, 511, 512] {
        for p in [0, 1, 2 * n - 2, 2 * n - 1] {
            tables.push((n, vec![fact(p)]));
            for q in [p, negation(p), ends(n)[0], ends(n)[1]] {
                tables.push((n, vec![rule(p, vec![vec![q]])]));
            }
            tables.push((n, vec![rule(p, vec![times(64, &ends(n)); 64])]));
        }
    }
    tables
}

/// As many groups of one literal as there is room for: each record has one group for each that is left, up to 64.
fn single_groups(room: usize, heads: &[Literal], literals: &[Literal]) -> Vec<Rule> {
    let (mut rules, mut room, mut literals) = (Vec::new(), room, literals.iter().cycle());
    for &head in heads {
        let groups = MOST_GROUPS.min(room.saturating_sub(3) / 2);
        if groups > 0 {
            rules.push(rule(head, literals.by_ref().take(groups).map(|&literal| vec![literal]).collect()));
            room -= 3 + 2 * groups;
        }
    }
    rules
}

/// Two records of as many groups of 64 literals as there is room for, and a last group of what is left.
fn wide_groups(room: usize, heads: [Literal; 2], literals: &[Literal]) -> Vec<Rule> {
    let mut literals = literals.iter().copied().cycle();
    let mut group = |k: usize| literals.by_ref().take(k).collect::<Vec<_>>();
    let left = room - 6 - MOST_GROUPS * (1 + MOST_LITERALS);
    let first = (0..MOST_GROUPS).map(|_| group(MOST_LITERALS)).collect();
    let mut second: Vec<_> = (0..left / 65).map(|_| group(MOST_LITERALS)).collect();
    second.push(group(left % 65 - 1));
    vec![rule(heads[0], first), rule(heads[1], second)]
}

/// 4,001 groups of one literal, and 8,060 places of groups of 64, or 4,000 and 8,057 beside a fact: of one literal alone, or of all; all
/// whole, one alone, none, or i.
fn most_groups_and_places() -> Vec<Table> {
    let n = 512;
    let mut tables = Vec::new();
    let all: Vec<Literal> = (0..2 * n).collect();
    for p in [0, 63, 64, 1023] {
        let heads: Vec<Literal> = (0..63).map(|i| 2 * (100 + i)).collect();
        for facts in [&[][..], &[p], &[p, negation(p)], &[p, heads[0] + 1], &[p, heads[62] + 1]] {
            let room = MOST_WORDS - 3 * facts.len();
            let of_two = [heads[0], heads[62]];
            for rules in [single_groups(room, &heads, &[p]), wide_groups(room, of_two, &[p])] {
                tables.extend(with_facts(n, &rules, &[facts]));
            }
        }
        // Of all literals: one group of 4,001 is whole, the one of the literal that is a fact; of wide ones none.
        tables.extend(with_facts(n, &single_groups(MOST_WORDS - 3, &heads, &all), &[&[p]]));
        tables.extend(with_facts(n, &wide_groups(MOST_WORDS - 3, [heads[0], heads[1]], &all), &[&[p]]));
        // The first group alone is whole, or the last: of 4,000, or of 8,057 places.
        for of_fact in [0..1, 3999..4000] {
            let literals: Vec<Literal> = (0..4000).map(|i| if of_fact.contains(&i) { p } else { 1000 }).collect();
            tables.extend(with_facts(n, &single_groups(MOST_WORDS - 3, &heads, &literals), &[&[p]]));
        }
        for of_fact in [0..64, 8000..8057] {
            let literals: Vec<Literal> = (0..8057).map(|i| if of_fact.contains(&i) { p } else { 1000 }).collect();
            tables.extend(with_facts(n, &wide_groups(MOST_WORDS - 3, [heads[0], heads[1]], &literals), &[&[p]]));
        }
    }
    tables.push((n, single_groups(MOST_WORDS, &(0..126).step_by(2).collect::<Vec<_>>(), &all)));
    tables.push((n, wide_groups(MOST_WORDS, [0, 2], &all)));
    tables
}

/// Links in the order given, each to rest on the one before it, and the fact that the first is.
fn chain(literals: &[Literal]) -> Vec<Rule> {
    let links = literals.windows(2).map(|pair| rule(pair[1], vec![vec![pair[0]]]));
    literals.first().map(|&first| fact(first)).into_iter().chain(links).collect()
}

/// Chains to the highest literal and to the lowest: written front to back, back to front and shuffled; ending in a clash, and broken.
fn chains() -> Vec<Table> {
    let mut chance = Chance::new(0x1dec5);
    let mut tables = Vec::new();
    for n in [1, 2, 32, 33, 65, 512] {
        for last in ends(n) {
            let others = (0..n).filter(|&atom| atom != last / 2);
            let upwards: Vec<Literal> = others.map(|atom| 2 * atom + atom / 2 % 2).collect();
            let mut shuffled = upwards.clone();
            chance.shuffle(&mut shuffled);
            let downwards: Vec<Literal> = upwards.iter().rev().copied().collect();
            // The literal ends the chain, or, where it is shuffled, gives one more.
            let one_more = Vec::from_iter(shuffled.pop());
            for literals in [[downwards, vec![last]], [upwards, vec![last]], [shuffled, [vec![last], one_more].concat()]] {
                let literals = literals.concat();
                let forwards = chain(&literals);
                let backwards: Vec<Rule> = forwards.iter().rev().cloned().collect();
                let mut any = forwards.clone();
                chance.shuffle(&mut any);
                for mut rules in [forwards, backwards, any] {
                    tables.push((n, rules.clone()));
                    // The last link clashes; the same without one link.
                    rules.push(fact(negation(literals[n - 1])));
                    tables.push((n, rules.clone()));
                    rules.remove(chance.index(rules.len() - 1));
                    tables.push((n, rules));
                }
            }
        }
    }
    // Over both literals of all atoms.
    let mut both: Vec<Literal> = (0..1024).collect();
    tables.push((512, chain(&both)));
    both.reverse();
    tables.push((512, chain(&both)));
    tables
}

/// 8,192 words in which a literal stands in the first group alone, or in the last place of all, and gives one side of a clash.
fn only_first_or_last() -> Vec<Table> {
    let n = 512;
    let mut tables = Vec::new();
    for p in [0, 1, 1022, 1023] {
        let (h, clash, never) = (600, 601, 700);
        let filler: Vec<Literal> = (10..500).step_by(2).collect();
        let heads: Vec<Literal> = (101..500).step_by(2).collect();
        for others in [&[][..], &filler[..40]] {
            for facts in [&[][..], &[p], &[p, clash], &[p, clash, 11]] {
                let mut rules = vec![rule(h, vec![[others, &[p]].concat()])];
                rules.extend(others.iter().chain(facts).map(|&head| fact(head)));
                pad(&mut rules, MOST_WORDS, &heads, &filler, never);
                tables.push((n, rules.clone()));
                rules.rotate_left(1);
                tables.push((n, rules));
            }
        }
    }
    tables
}

/// Facts whose heads are marked in the first round, and groups that have a literal by a mark alone, at each of some places.
fn whole_by_a_mark() -> Vec<Table> {
    let mut tables = Vec::new();
    // x and -x, then a rule on each, then one on the negation of that, which a mark alone gives.
    for n in [3, 40, 512] {
        let (x, b, h) = (2 * n - 2, 0, 2);
        for at in [0, 1, 31, 63] {
            let mut group = times(64, &[x, x + 1]);
            group[at] = b + 1;
            let rules = [fact(x), fact(x + 1), rule(b, vec![vec![x]]), rule(h, vec![vec![h], group])];
            tables.push((n, rules.to_vec()));
            tables.push((n, rules.iter().rev().cloned().collect()));
        }
    }
    // All atoms but some are marked in the first round, as both literals are facts; the last rests on a mark.
    for n in [4, 64, 512] {
        let mut rules: Vec<Rule> = (4..2 * n).map(fact).collect();
        rules.extend([rule(0, vec![vec![2 * n - 1]]), rule(2, vec![vec![1], vec![0, 0]])]);
        tables.push((n, rules.clone()));
        rules.reverse();
        tables.push((n, rules));
    }
    // Both c and -c by a group of facts that stay clean, so that c is marked in the first round; then what rests on it.
    for n in [4, 33, 512] {
        let (p, q, c, d) = (0, 2 * n - 1, 2, 4);
        for k in [1, 2, 64] {
            let by_facts = vec![times(k, &[p, q])];
            let clash = [rule(c, by_facts.clone()), rule(c + 1, by_facts)];
            let rests = rule(d, vec![vec![c], times(k, &[q, c + 1])]);
            tables.extend(with_facts(n, &[&clash[..], &[rests]].concat(), &[&[], &[p, q], &[p, q, d + 1]]));
        }
    }
    // Marked one after another, the groups wide: the same literal, or with all that is held before.
    for blocks in [1, 2, 16, 40] {
        let narrow = marks_one_after_another(0, blocks);
        for wide in [1, 2, 20] {
            let widened = |of: &Rule| Rule { head: of.head, groups: of.groups.iter().map(|group| times(wide, group)).collect() };
            tables.push((2 * blocks, narrow.iter().map(widened).collect()));
        }
        let facts: Vec<Literal> = narrow.iter().filter(|rule| rule.groups.is_empty()).map(|rule| rule.head).collect();
        let beside = |of: &Rule| Rule { head: of.head, groups: of.groups.iter().map(|group| [&facts[..], group].concat()).collect() };
        tables.push((2 * blocks, narrow.iter().map(beside).collect()));
    }
    tables
}

/// The rules with one to three small changes, accepted with the same N.
pub fn varied(chance: &mut Chance, n: usize, rules: &[Rule]) -> Vec<Rule> {
    let mut rules = rules.to_vec();
    for _ in 0..chance.between(1, 3) {
        vary(chance, n, &mut rules);
    }
    while words(&rules) > MOST_WORDS {
        rules.remove(chance.index(rules.len()));
    }
    rules
}

fn vary(chance: &mut Chance, n: usize, rules: &mut Vec<Rule>) {
    let literal = if n > 0 { chance.index(2 * n) } else { return };
    let headed = rules.iter().any(|rule| rule.head == literal);
    if rules.is_empty() {
        return rules.push(fact(literal));
    }
    let at = chance.index(rules.len());
    match chance.below(8) {
        0 => chance.shuffle(rules),
        1 => drop(rules.remove(at)),
        2 if !headed => rules.insert(at, fact(literal)),
        3 if !headed => rules[at].head = literal,
        // The other side of a clash.
        4 if !rules.iter().any(|rule| rule.head == negation(rules[at].head)) => rules.push(fact(negation(rules[at].head))),
        5 => rules[at].groups.clear(),
        _ if rules[at].groups.is_empty() => rules[at].groups.push(vec![literal]),
        number => {
            let group = chance.index(rules[at].groups.len());
            let group = &mut rules[at].groups[group];
            let place = chance.index(group.len());
            if number == 6 || group.len() == 1 {
                group[place] = literal;
            } else {
                group.remove(place);
            }
        }
    }
}

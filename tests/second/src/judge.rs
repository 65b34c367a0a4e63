//! Definitions 5, 6, 8 and 9 of document 000 as printed, decided by brute force for small N.
//!
//! Nothing here knows of Held, Clean or marks, except `least_closed_set` at the end, which finds the least set of a
//! marking as the intersection of all closed sets.
//!
//! Deciding Definition 9. For a given interpretation I the definition asks for a strict partial order with, for each
//! literal of I, one of some alternatives "all of the group P come before h". All literals of a t or i group lie in I, and
//! so does h: either h is the literal itself, or (8) serves at h, and then the model gives h, whose body is i, the value i.
//!
//! 1. A literal with value t has one kind of alternative: a t group of its own rule before it, or its rule is a fact.
//! 2. The alternatives of (8) are the same for both literals of an i atom. If one literal uses (8), the other may use the
//!    very same alternative at no cost. So an i atom needs one of: an i group before h, for one h of its two literals whose
//!    rule has a body exactly i, and then the other literal is free; or (7) for both literals.
//! 3. Once one such choice is made for each i atom, each literal is either free or must come after some group out of a
//!    fixed list. Then the least fixpoint of "place a literal that is free or has a listed group wholly placed" decides:
//!    if it places all of I, the round of placing is the order sought; and if there is an order, induction along it (I is
//!    finite) places every literal. Placing never hinders placing, so the fixpoint loses nothing.
//! 4. The choices of step 2 do hinder one another (only one literal of an atom gets to be free), so all are tried.

use crate::table::{Literal, Rule, atom_of, negation};
use crate::truth::{F, I, T, U};

/// A set of literals: bit l is literal l.
pub type Interpretation = u32;

/// Table 1 as printed: conjunction, disjunction, implication (rows the left argument) and negation.
pub const TABLE_1_AND: [[u8; 4]; 4] = [[F, F, F, F], [F, U, U, U], [F, U, I, I], [F, U, I, T]];
pub const TABLE_1_OR: [[u8; 4]; 4] = [[F, U, I, T], [U, U, I, T], [I, I, I, T], [T, T, T, T]];
pub const TABLE_1_IMPLIES: [[u8; 4]; 4] = [[T, T, T, T], [T, T, T, T], [F, F, T, F], [F, F, T, T]];
pub const TABLE_1_NOT: [u8; 4] = [T, U, I, F];

pub fn has(set: Interpretation, literal: Literal) -> bool {
    set >> literal & 1 == 1
}

/// The literals of a set, in code order.
pub fn literals(set: Interpretation) -> Vec<Literal> {
    (0..32).filter(|&literal| has(set, literal)).collect()
}

/// Definition 5, for a literal.
pub fn value(set: Interpretation, literal: Literal) -> u8 {
    match (has(set, literal), has(set, negation(literal))) {
        (true, false) => T,
        (true, true) => I,
        (false, false) => U,
        (false, true) => F,
    }
}

/// Definition 5, for a group.
pub fn group_value(set: Interpretation, group: &[Literal]) -> u8 {
    group.iter().fold(T, |sofar, &literal| TABLE_1_AND[sofar as usize][value(set, literal) as usize])
}

/// Definition 5, for a body; the empty body is t (Definition 6).
pub fn body_value(set: Interpretation, rule: &Rule) -> u8 {
    if rule.groups.is_empty() {
        return T;
    }
    rule.groups.iter().fold(F, |sofar, group| TABLE_1_OR[sofar as usize][group_value(set, group) as usize])
}

/// Definition 6.
pub fn is_model(set: Interpretation, rules: &[Rule]) -> bool {
    rules.iter().all(|rule| TABLE_1_IMPLIES[body_value(set, rule) as usize][value(set, rule.head) as usize] == T)
}

/// A relation on literals: row h holds the literals that come before h.
pub type Order = [u32; 32];

/// All of the group come before the head.
fn all_before(order: &Order, group: &[Literal], head: Literal) -> bool {
    group.iter().all(|&literal| has(order[head], literal))
}

/// Definition 8: the model supports the rule with respect to the order.
pub fn supports(set: Interpretation, rule: &Rule, order: &Order) -> bool {
    rule.groups.is_empty()
        || rule.groups.iter().any(|group| group_value(set, group) == T && all_before(order, group, rule.head))
}

/// rule(l), where it exists.
fn rule_of(rules: &[Rule], literal: Literal) -> Option<&Rule> {
    rules.iter().find(|rule| rule.head == literal)
}

/// The rule serves in condition (8): body exactly i, an i group, measured at the rule's own head.
fn serves(set: Interpretation, rule: &Rule, order: &Order) -> bool {
    body_value(set, rule) == I
        && rule.groups.iter().any(|group| group_value(set, group) == I && all_before(order, group, rule.head))
}

/// The conditions of Definition 9 for a given model and order.
pub fn conditions_hold(set: Interpretation, rules: &[Rule], order: &Order) -> bool {
    literals(set).into_iter().all(|literal| {
        let own = rule_of(rules, literal);
        let supported = own.is_some_and(|rule| supports(set, rule, order));
        match value(set, literal) {
            T => supported, // (6)
            _ => {
                supported // (7)
                    || own.is_some_and(|rule| serves(set, rule, order)) // (8)
                    || rule_of(rules, negation(literal)).is_some_and(|rule| serves(set, rule, order))
            }
        }
    })
}

/// All strict partial orders on `size` elements, `size` at most 4: row b of each holds the elements before b.
pub fn strict_partial_orders(size: usize) -> Vec<Vec<u32>> {
    assert!(size <= 4);
    let relation = |bits: u32| -> Vec<u32> { (0..size).map(|b| bits >> (b * size) & ((1 << size) - 1)).collect() };
    let is_order = |rows: &Vec<u32>| {
        (0..size).all(|c| {
            !has(rows[c], c) && (0..size).all(|b| !has(rows[c], b) || rows[b] & !rows[c] == 0)
        })
    };
    (0..1u32 << (size * size)).map(relation).filter(is_order).collect()
}

/// Definition 9 read word for word, for a set of at most 4 literals: some strict partial order on it, out of the list that
/// `strict_partial_orders` gives for its size, meets the conditions.
pub fn is_well_supported_by_orders(set: Interpretation, rules: &[Rule], orders: &[Vec<u32>]) -> bool {
    let members = literals(set);
    is_model(set, rules)
        && orders.iter().any(|rows| {
            let mut order = [0; 32];
            for (b, &row) in rows.iter().enumerate() {
                for (a, &before) in members.iter().enumerate() {
                    if has(row, a) {
                        order[members[b]] |= 1 << before;
                    }
                }
            }
            conditions_hold(set, rules, &order)
        })
}

/// The same by all total orders. Enough, as the conditions only ask that some literals come before others, and every
/// strict partial order is contained in a total one.
pub fn is_well_supported_by_lines(set: Interpretation, rules: &[Rule]) -> bool {
    fn extend(set: Interpretation, rules: &[Rule], placed: Interpretation, order: &mut Order) -> bool {
        if placed == set {
            return conditions_hold(set, rules, order);
        }
        literals(set & !placed).into_iter().any(|next| {
            order[next] = placed;
            let found = extend(set, rules, placed | 1 << next, order);
            order[next] = 0;
            found
        })
    }
    is_model(set, rules) && extend(set, rules, 0, &mut [0; 32])
}

/// What a literal must come after: nothing, or one of these groups.
#[derive(Clone)]
enum Duty<'a> {
    Free,
    AfterOneOf(Vec<&'a [Literal]>),
}

/// The literal's own rule supports it by a t group; `None` if it has no rule, or one without a t group.
fn duty_by_t(set: Interpretation, rules: &[Rule], literal: Literal) -> Option<Duty<'_>> {
    let rule = rule_of(rules, literal)?;
    if rule.groups.is_empty() {
        return Some(Duty::Free);
    }
    let groups: Vec<&[Literal]> =
        rule.groups.iter().filter(|group| group_value(set, group) == T).map(|group| group.as_slice()).collect();
    if groups.is_empty() { None } else { Some(Duty::AfterOneOf(groups)) }
}

/// The literal's own rule has a body exactly i and serves by an i group.
fn duty_by_i(set: Interpretation, rules: &[Rule], literal: Literal) -> Option<Duty<'_>> {
    let rule = rule_of(rules, literal)?;
    if body_value(set, rule) != I {
        return None;
    }
    let groups =
        rule.groups.iter().filter(|group| group_value(set, group) == I).map(|group| group.as_slice()).collect();
    Some(Duty::AfterOneOf(groups))
}

/// Definition 9, decided as the head of this file argues.
pub fn is_well_supported(n: usize, set: Interpretation, rules: &[Rule]) -> bool {
    is_model(set, rules) && choose(0, n, set, rules, &mut vec![Duty::Free; 2 * n])
}

/// Tries every choice of duties for the atoms from `atom` on.
fn choose<'a>(
    atom: usize,
    n: usize,
    set: Interpretation,
    rules: &'a [Rule],
    duties: &mut Vec<Duty<'a>>,
) -> bool {
    if atom == n {
        return all_placed(set, duties);
    }
    let (positive, negative) = (2 * atom, 2 * atom + 1);
    let free = || Some(Duty::Free);
    let by_t = |literal| duty_by_t(set, rules, literal);
    let by_i = |literal| duty_by_i(set, rules, literal);
    let choices = match (has(set, positive), has(set, negative)) {
        (false, false) => vec![(free(), free())],
        (true, false) => vec![(by_t(positive), free())],
        (false, true) => vec![(free(), by_t(negative))],
        (true, true) => vec![
            (by_i(positive), free()),
            (free(), by_i(negative)),
            (by_t(positive), by_t(negative)),
        ],
    };
    choices.into_iter().any(|choice| match choice {
        (Some(for_positive), Some(for_negative)) => {
            duties[positive] = for_positive;
            duties[negative] = for_negative;
            choose(atom + 1, n, set, rules, duties)
        }
        _ => false,
    })
}

/// Whether every literal of the set can be placed, one after another, each after a group it must come after.
fn all_placed(set: Interpretation, duties: &[Duty]) -> bool {
    let mut placed: Interpretation = 0;
    loop {
        let next: Interpretation = literals(set)
            .into_iter()
            .filter(|&literal| match &duties[literal] {
                Duty::Free => true,
                Duty::AfterOneOf(groups) => {
                    groups.iter().any(|group| group.iter().all(|&before| has(placed, before)))
                }
            })
            .fold(0, |sofar, literal| sofar | 1 << literal);
        if next == placed {
            return placed == set;
        }
        placed = next;
    }
}

/// All well-supported models, N at most 8.
pub fn well_supported_models(n: usize, rules: &[Rule]) -> Vec<Interpretation> {
    assert!(n <= 8);
    (0..1u32 << (2 * n)).filter(|&set| is_well_supported(n, set, rules)).collect()
}

/// The well-supported model contained in all others, if there is one.
pub fn smallest(models: &[Interpretation]) -> Option<Interpretation> {
    models.iter().copied().find(|&model| models.iter().all(|&other| model & !other == 0))
}

/// One value for each atom.
pub fn values(n: usize, set: Interpretation) -> Vec<u8> {
    (0..n).map(|atom| value(set, 2 * atom)).collect()
}

/// The least set with `start` and the head of each rule that passes `counts` and is a fact or has a group wholly in it:
/// the intersection of all sets closed in this way. N at most 8.
pub fn least_closed_set(
    n: usize,
    rules: &[Rule],
    start: Interpretation,
    counts: impl Fn(&Rule) -> bool,
) -> Interpretation {
    assert!(n <= 8);
    let all = ((1u64 << (2 * n)) - 1) as u32;
    let closed = |set: &Interpretation| {
        start & !set == 0
            && rules.iter().filter(|rule| counts(rule)).all(|rule| {
                let fires = rule.groups.is_empty()
                    || rule.groups.iter().any(|group| group.iter().all(|&literal| has(*set, literal)));
                !fires || has(*set, rule.head)
            })
    };
    (0..=all).filter(closed).fold(all, |least, set| least & set)
}

/// Held of a marking, as a set; bit a of `marked` is atom a.
pub fn held(n: usize, rules: &[Rule], marked: u32) -> Interpretation {
    let start = (0..2 * n).filter(|&literal| has(marked, atom_of(literal))).fold(0, |sofar, literal| sofar | 1 << literal);
    least_closed_set(n, rules, start, |_| true)
}

/// Clean of a marking, as a set.
pub fn clean(n: usize, rules: &[Rule], marked: u32) -> Interpretation {
    least_closed_set(n, rules, 0, |rule| !has(marked, atom_of(rule.head)))
}

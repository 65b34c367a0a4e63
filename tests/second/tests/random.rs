//! The generators draw what they say.

use second::judge;
use second::marking::mark_count;
use second::model::{OfFirst, evaluate, which_group, which_group_of_first};
use second::random::*;
use second::reasons::Claim;
use second::table::{Rule, check, encode, parse, rules_of};

#[test]
fn the_same_seed_gives_the_same_things() {
    // The first numbers of splitmix64 from 0, as published.
    let mut chance = Chance::new(0);
    assert_eq!(chance.number(), 0xe220_a839_7b1d_cdaf);
    assert_eq!(chance.number(), 0x6e78_9e6a_a1b9_65f4);
    assert_eq!(any_table(&mut Chance::new(5)), any_table(&mut Chance::new(5)));
    assert_eq!(any_sheet(&mut Chance::new(5)), any_sheet(&mut Chance::new(5)));
    assert_eq!(any_reasons(&mut Chance::new(5)), any_reasons(&mut Chance::new(5)));
    assert_ne!(any_table(&mut Chance::new(5)), any_table(&mut Chance::new(6)));
}

#[test]
fn numbers_stay_in_their_range() {
    let mut chance = Chance::new(1);
    let mut met = [0; 6];
    for _ in 0..6000 {
        met[chance.below(6) as usize] += 1;
        assert!((3..=5).contains(&chance.between(3, 5)));
        assert_eq!(chance.below(0), 0);
    }
    assert!(met.iter().all(|&count| count > 800), "{met:?}");
}

#[test]
fn small_tables_are_rich_in_what_is_hard() {
    let (mut negative, mut loops, mut groups, mut opposite, mut own) = (0, 0, 0, 0, 0);
    for seed in 0..1000 {
        let (n, words) = small_table(&mut Chance::new(seed), 4);
        let rules = rules_of(n, &words).unwrap();
        let in_body = |literal: usize, of: usize| {
            rules.iter().any(|rule| rule.head == of && rule.groups.iter().any(|group| group.contains(&literal)))
        };
        negative += rules.iter().any(|rule| rule.groups.iter().flatten().any(|literal| literal % 2 == 1)) as u32;
        loops += (0..2 * n as usize).any(|a| (0..a).any(|b| in_body(a, b) && in_body(b, a))) as u32;
        groups += rules.iter().any(|rule| rule.groups.len() > 1) as u32;
        opposite += rules.iter().flat_map(|rule| &rule.groups).any(|group| group.iter().any(|l| group.contains(&(l ^ 1)))) as u32;
        own += rules.iter().any(|rule| in_body(rule.head, rule.head)) as u32;
    }
    let met = [negative, loops, groups, opposite, own];
    assert!(met.iter().all(|&count| count > 200), "{met:?}");
}

#[test]
fn large_tables_have_all_values_and_reach_the_limits() {
    let mut values_met = [0; 4];
    let (mut full_n, mut widest_body, mut widest_group, mut longest) = (0, 0, 0, 0);
    for seed in 0..300 {
        let (n, words) = large_table(&mut Chance::new(seed));
        assert_eq!(check(n, &words), Ok(()), "seed {seed}");
        let mut values = vec![9; n as usize];
        evaluate(n, &words, &mut values).unwrap();
        for value in 0..4 {
            values_met[value as usize] += values.contains(&value) as u32;
        }
        full_n += (n == 512) as u32;
        longest = longest.max(words.len());
        for rule in rules_of(n, &words).unwrap() {
            widest_body = widest_body.max(rule.groups.len());
            widest_group = widest_group.max(rule.groups.iter().map(Vec::len).max().unwrap_or(0));
        }
    }
    assert!(values_met.iter().all(|&count| count > 150), "{values_met:?}");
    assert!(full_n > 60 && widest_body == 64 && widest_group == 64 && longest > 4000, "{full_n} {longest}");
}

#[test]
fn tables_have_lines_of_every_kind() {
    let (mut by_hand, mut from_sheet, mut highest, mut mixed, mut falling, mut repeated) = (0, 0, 0, 0, 0, 0);
    for seed in 0..1000 {
        let (n, words) = small_table(&mut Chance::new(seed), 6);
        let lines: Vec<usize> = parse(n, &words).unwrap().iter().map(|record| record.line).collect();
        if lines.len() < 3 {
            continue;
        }
        by_hand += lines.iter().all(|&line| line == 0) as u32;
        from_sheet += (lines == (1..=lines.len()).collect::<Vec<_>>()) as u32;
        highest += lines.iter().all(|&line| line == 32_768) as u32;
        mixed += (lines.contains(&0) && lines.iter().any(|&line| line > 0)) as u32;
        falling += lines.windows(2).any(|pair| pair[0] > pair[1]) as u32;
        repeated += lines.windows(2).any(|pair| pair[0] == pair[1]) as u32;
    }
    let met = [by_hand, from_sheet, highest, mixed, falling, repeated];
    assert!(met.iter().all(|&count| count > 100), "{met:?}");
}

#[test]
fn each_kind_of_lines_is_what_it_says() {
    let rules: Vec<Rule> = (0..300).map(|head| Rule { head, groups: Vec::new() }).collect();
    let mut chance = Chance::new(3);
    let mut drawn = |lines: Lines| -> Vec<usize> { with_lines(&mut chance, &rules, lines).iter().map(|record| record.line).collect() };
    assert_eq!(drawn(Lines::ByHand), [0; 300]);
    assert_eq!(drawn(Lines::FromSheet), (1..=300).collect::<Vec<_>>());
    assert_eq!(drawn(Lines::Highest), [32_768; 300]);
    for eighth in 0..8 {
        let within = |line: &&usize| **line / 4096 == eighth && **line > 300;
        assert!(drawn(Lines::AnyOrder).iter().filter(within).count() > 20);
        assert!(drawn(Lines::SomeByHand).iter().filter(within).count() > 3);
    }
    assert!(drawn(Lines::AnyOrder).iter().all(|&line| line <= 32_768));
    let some = drawn(Lines::SomeByHand);
    assert!(some.iter().filter(|&&line| line == 0).count() > 60);
    assert!(some.iter().enumerate().filter(|&(i, &line)| line == i + 1).count() > 60);
}

#[test]
fn head_places_are_where_tails_begin() {
    assert_eq!(head_places(&[]), []);
    assert_eq!(head_places(&[0, 7, 2, 1, 0, 2, 1, 1, 1, 8, 0]), [0, 8]);
    assert_eq!(head_places(&[0, 7, 0, 3]), [0, 3]);
    for seed in 0..300 {
        let (n, words) = accepted_table(&mut Chance::new(seed));
        let rules = rules_of(n, &words).unwrap();
        let places = head_places(&words);
        assert_eq!(places.len(), rules.len(), "seed {seed}");
        for (record, at) in places.into_iter().enumerate() {
            assert_eq!(rules_of(n, &words[at..]).unwrap(), rules[record..], "seed {seed}");
        }
    }
}

#[test]
fn line_places_are_those_of_the_records() {
    assert_eq!(line_places(&[]), []);
    assert_eq!(line_places(&[0, 7, 2, 1, 0, 2, 1, 1, 1, 8, 0]), [1, 9]);
    // Cut short, and counts beyond their limits.
    assert_eq!(line_places(&[0, 7, 2, 1, 0, 2]), [1]);
    assert_eq!(line_places(&[0, 7, 0, 3, 40_000]), [1, 4]);
    assert_eq!(line_places(&[0, 7, 1, 0, 3, 9, u16::MAX, u16::MAX]), [1, 5]);
    for seed in 0..300 {
        let (n, words) = accepted_table(&mut Chance::new(seed));
        let lines: Vec<u16> = parse(n, &words).unwrap().iter().map(|record| record.line as u16).collect();
        assert_eq!(line_places(&words).into_iter().map(|at| words[at]).collect::<Vec<_>>(), lines, "seed {seed}");
    }
}

#[test]
fn lines_too_high_and_cuts_around_a_line_are_common() {
    let (mut edges, mut between, mut after_head, mut after_line, mut in_order) = ([0; 2], 0, 0, 0, 0);
    for seed in 0..6000 {
        let (n, words) = any_table(&mut Chance::new(seed));
        let Err(refusal) = check(n, &words) else { continue };
        let places = line_places(&words);
        let at = refusal.place as usize;
        match refusal.number {
            6 if places.contains(&at) => {
                match words[at] {
                    32_769 => edges[0] += 1,
                    u16::MAX => edges[1] += 1,
                    _ => between += 1,
                }
                in_order += words.get(at + 1).is_some_and(|&m| m > 64) as u32;
            }
            4 if places.contains(&(at - 1)) => after_line += 1,
            4 if word_roles(&words)[at - 1] == WordRole::Head => after_head += 1,
            // A line that is faulty too, after the head that decides.
            5 | 7 => in_order += (places.contains(&(at + 1)) && words[at + 1] > 32_768) as u32,
            _ => {}
        }
    }
    let met = [edges[0], edges[1], between, after_head, after_line, in_order];
    assert!(met.iter().all(|&count| count > 30) && in_order > 200, "{met:?}");
}

#[test]
fn full_drafts_fill_exactly_the_words_asked_for() {
    for seed in 0..40 {
        let mut chance = Chance::new(seed);
        let some = chance.between(200, 9000) as usize;
        for words in [200, 8186, 8187, 8188, 8189, 8190, 8191, 8192, 8193, 9000, some] {
            let draft = full_draft(&mut chance, words);
            assert_eq!(draft.words(), words, "seed {seed}");
            if words <= 8192 {
                let contents = second::sheet::contents(&draft.sheet()).unwrap();
                assert_eq!(encode(&contents.records).len(), words, "seed {seed}");
            }
        }
    }
}

#[test]
fn records_are_sound_unless_forged() {
    for seed in 0..500 {
        let mut chance = Chance::new(seed);
        let n = chance.below(513);
        let sound = record(&mut chance, n);
        assert_eq!(mark_count(&sound), Ok(sound.number_of_marks()));
        assert!(mark_count(&forged_record(&mut chance, n)).is_err());
    }
}

#[test]
fn each_forgery_of_a_record_is_refused_by_its_number() {
    for seed in 0..400 {
        let mut chance = Chance::new(seed);
        for n in [0, 1, 2, 63, 64, 65, 511, 512, chance.clone().below(513)] {
            for forgery in RECORD_FORGERIES.into_iter().filter(|forgery| forgery.fits(n)) {
                let forged = forge(&mut chance, n, forgery);
                assert!(forgery.is(&forged), "seed {seed}, {forgery:?}: {forged:?}");
                assert_eq!(mark_count(&forged).unwrap_err().number, forgery.number(), "seed {seed}, {forgery:?}");
            }
            let sound = record(&mut chance, n);
            assert!(!RECORD_FORGERIES.iter().any(|forgery| forgery.is(&sound)), "seed {seed}, {sound:?}");
        }
    }
}

#[test]
fn records_of_any_kind_are_forged_in_each_way() {
    let mut met = [0; RECORD_FORGERIES.len()];
    let (mut sound, mut all_marked) = (0, 0);
    for seed in 0..20_000 {
        let mut chance = Chance::new(seed);
        let n = chance.of(&[0, 1, 2, 3, 6, 64, 300, 512]);
        let drawn = any_record(&mut chance, n);
        for (forgery, times) in RECORD_FORGERIES.into_iter().zip(&mut met) {
            *times += forgery.is(&drawn) as u32;
        }
        sound += mark_count(&drawn).is_ok() as u32;
        all_marked += (n > 0 && mark_count(&drawn) == Ok(n)) as u32;
    }
    assert!(met.iter().all(|&times| times > 150), "{met:?}");
    assert!(sound > 14_000 && all_marked > 1_500, "{sound} {all_marked}");
}

#[test]
fn drafts_are_accepted() {
    let (mut many_names, mut many_groups, mut many_literals) = (0, 0, 0);
    for seed in 0..600 {
        let draft = draft(&mut Chance::new(seed));
        let contents = second::sheet::contents(&draft.sheet()).unwrap_or_else(|refusal| panic!("{seed}: {refusal:?}"));
        let rules = contents.rules();
        assert_eq!(rules.len(), draft.lines.len());
        assert_eq!(encode(&contents.records).len(), draft.words());
        many_names += (contents.names.len() > 100) as u32;
        many_groups += rules.iter().any(|rule| rule.groups.len() > 50) as u32;
        many_literals += rules.iter().flat_map(|rule| &rule.groups).any(|group| group.len() > 50) as u32;
    }
    assert!(many_names > 20 && many_groups > 20 && many_literals > 20, "{many_names} {many_groups} {many_literals}");
}

#[test]
fn names_that_stand_only_in_bodies_are_common() {
    let (mut with_bodies, mut some, mut most, mut many, mut one_head, mut none) = (0, 0, 0, 0, 0, 0);
    for seed in 0..2000 {
        let draft = draft(&mut Chance::new(seed));
        let (heads, others) = heads_and_others(&draft.sheet());
        if draft.lines.iter().all(|line| line.groups.is_empty()) {
            assert!(others.is_empty(), "seed {seed}");
            continue;
        }
        with_bodies += 1;
        some += !others.is_empty() as u32;
        most += (others.len() > heads.len()) as u32;
        many += (others.len() >= 100) as u32;
        one_head += (heads.len() == 1 && !others.is_empty()) as u32;
        none += others.is_empty() as u32;
    }
    let met = [with_bodies, some, most, many, one_head, none];
    assert!(with_bodies > 1700 && some > 1400 && most > 650 && many > 70 && one_head > 340 && none > 250, "{met:?}");
}

#[test]
fn heads_and_others_divide_the_names() {
    let sheet = b"p\tq -r\n-s\tp\t-s t\n";
    let of = |names: Vec<second::sheet::Name>| names.iter().map(|name| name.of(sheet).to_vec()).collect::<Vec<_>>();
    let (heads, others) = heads_and_others(sheet);
    assert_eq!((lines_length(&heads), lines_length(&others)), (8, 12));
    assert_eq!((of(heads), of(others)), (vec![b"p".to_vec(), b"s".to_vec()], vec![b"q".to_vec(), b"r".to_vec(), b"t".to_vec()]));
    assert_eq!(heads_and_others(b"p\tq\np\n"), (Vec::new(), Vec::new()));
}

#[test]
fn words_are_counted_by_literal() {
    for for_a_head in [2, 3] {
        assert_eq!(word_count(b"", for_a_head), 0);
        assert_eq!(word_count(b"a\tb c\td\n-d\n", for_a_head), for_a_head + 3 + 2 + for_a_head);
        assert_eq!(word_count(b"a\n-b\tc d", for_a_head), 2 * for_a_head + 3);
    }
    for seed in 0..300 {
        let draft = draft(&mut Chance::new(seed));
        assert_eq!(word_count(&draft.sheet(), 3), draft.words(), "seed {seed}");
        assert_eq!(word_count(&draft.sheet(), 2), draft.words() - draft.lines.len(), "seed {seed}");
    }
}

#[test]
fn text_rooms_fit_or_fit_the_lines_of_the_heads_alone() {
    let (mut below, mut heads_alone, mut exact, mut more) = (0, 0, 0, 0);
    for seed in 0..2000 {
        let mut chance = Chance::new(seed);
        let sheet = accepted_sheet(&mut chance);
        let (heads, others) = heads_and_others(&sheet);
        let heads = lines_length(&heads);
        let needed = heads + lines_length(&others);
        let room = text_room(&mut chance, &sheet).len();
        below += (room < heads) as u32;
        heads_alone += (heads <= room && room < needed) as u32;
        exact += (room == needed) as u32;
        more += (room > needed) as u32;
    }
    let met = [below, heads_alone, exact, more];
    assert!(below > 100 && heads_alone > 250 && exact > 350 && more > 1000, "{met:?}");
}

#[test]
fn sets_are_what_they_say() {
    assert_eq!(set_of(2, &[vec![0, 0], vec![3]]), [true, false, false, true]);
    assert_eq!(set_of(0, &[]), []);
    let row = set_of(65, &[vec![0, 63, 64, 66, 129]]);
    assert_eq!(set_words(&row), [1 << 63 | 1, 0b101, 0b10]);
    assert_eq!(set_words(&row[..64]), [1 << 63 | 1]);
    assert_eq!(set_words(&[]), []);
    let (mut cut, mut longer, mut of_17, mut past) = (0, 0, 0, 0);
    for seed in 0..2000 {
        let mut chance = Chance::new(seed);
        let words = any_set_words(&mut chance, &row);
        assert!(words.len() <= 17, "seed {seed}");
        let same = words.len().min(2);
        assert_eq!(words[..same], set_words(&row)[..same], "seed {seed}");
        assert_eq!(words.get(2).map_or(0b10, |word| word & 0b11), 0b10, "seed {seed}");
        cut += (words.len() < 3) as u32;
        longer += (words.len() == 4) as u32;
        of_17 += (words.len() == 17) as u32;
        past += words.get(2).is_some_and(|word| *word > 0b11) as u32;
    }
    assert!([cut, longer, of_17].iter().all(|&count| count > 50) && past > 1500, "{cut} {longer} {of_17} {past}");
}

#[test]
fn body_sets_make_any_group_the_lowest() {
    // No group holds another, so that each can be the lowest, and all are of three literals.
    let groups: Vec<Vec<usize>> = (0..8).map(|g| vec![3 * g, 3 * g + 1, 3 * g + 2]).collect();
    let (mut lowest, mut alone, mut less_one) = ([0; 9], 0, 0);
    for seed in 0..4000 {
        let set = body_set(&mut Chance::new(seed), 12, &groups);
        lowest[which_group(&groups, &set).unwrap_or(0)] += 1;
        let size = set.iter().filter(|&&is_in| is_in).count();
        alone += (size == 3 && which_group(&groups, &set).is_some()) as u32;
        less_one += (size == 2) as u32;
    }
    assert!(lowest.iter().all(|&count| count > 200) && alone > 400 && less_one > 400, "{lowest:?} {alone} {less_one}");
    let facts = (0..100).map(|seed| body_set(&mut Chance::new(seed), 4, &[])).collect::<std::collections::BTreeSet<_>>();
    assert!(facts.len() > 20, "{}", facts.len());
}

#[test]
fn any_set_gives_every_answer() {
    let (mut groups, mut no_group, mut no_record, mut refused) = ([0; 4], 0, 0, 0);
    for seed in 0..6000 {
        let mut chance = Chance::new(seed);
        let (n, words) = any_table(&mut chance);
        let set = any_set(&mut chance, n, &words);
        match which_group_of_first(n, &words, &set) {
            Ok(OfFirst::Group(number)) => groups[number.min(3)] += 1,
            Ok(OfFirst::NoGroup) => no_group += 1,
            Ok(OfFirst::NoRecord) => no_record += 1,
            Err(_) => refused += 1,
        }
    }
    let met = [groups[0], groups[1], groups[2], groups[3], no_group, no_record, refused];
    assert!(met.iter().all(|&count| count > 30), "{met:?}");
}

#[test]
fn values_are_claimed_of_every_kind() {
    let (mut least, mut others, mut models, mut none, mut lent) = (0, 0, 0, 0, [0; 4]);
    for seed in 0..4000 {
        let mut chance = Chance::new(seed);
        let (n, words) = small_table(&mut chance, 4);
        let rules = rules_of(n, &words).unwrap();
        let values = claimed_values(&mut chance, n, &words);
        let set = (0..1u32 << (2 * n)).find(|&set| judge::values(n as usize, set) == values).expect("an interpretation");
        match (judge::is_model(set, &rules), judge::is_well_supported(n as usize, set, &rules)) {
            (_, true) if values == evaluated(n, &words) => least += 1,
            (_, true) => others += 1,
            (true, _) => models += 1,
            _ => none += 1,
        }
        let row = lent_values(&mut chance, values);
        let codes = row.iter().take(n as usize).any(|&value| value > 3);
        lent[if (row.len() as u64) < n { 0 } else if codes { 1 } else if row.len() as u64 > n { 2 } else { 3 }] += 1;
    }
    assert!(least > 2000 && others > 40 && models > 200 && none > 200, "{least} {others} {models} {none}");
    assert!(lent.iter().all(|&count| count > 200), "{lent:?}");
}

#[test]
fn good_reason_sheets_have_ranks_rules_and_groups_of_every_kind() {
    let (mut equal, mut apart, mut highest, mut own, mut of_negation, mut facts, mut later, mut ahead) = (0, 0, 0, 0, 0, 0, 0, 0);
    for seed in 0..4000 {
        let mut chance = Chance::new(seed);
        let (n, words) = small_table(&mut chance, 5);
        let lines = good_lines(&mut chance, &rules_of(n, &words).unwrap(), &evaluated(n, &words)).expect("a sheet");
        let mut ranks: Vec<usize> = lines.iter().map(|line| line.rank).collect();
        ranks.sort_unstable();
        equal += ranks.windows(2).any(|pair| pair[0] == pair[1]) as u32;
        apart += ranks.windows(2).any(|pair| pair[0] + 1 < pair[1]) as u32;
        highest += (ranks.last() == Some(&1023)) as u32;
        own += lines.iter().filter(|line| line.head == line.literal && line.group > 0).count();
        of_negation += lines.iter().filter(|line| line.head != line.literal).count();
        facts += lines.iter().filter(|line| line.group == 0).count();
        later += lines.iter().filter(|line| line.group > 1).count();
        // A rank above that of the head that it rests on.
        ahead += lines.iter().filter(|line| lines.iter().any(|other| other.literal == line.head && other.rank < line.rank)).count();
    }
    assert!(equal > 400 && apart > 400 && highest > 400, "{equal} {apart} {highest}");
    assert!(own > 1000 && of_negation > 500 && facts > 1000 && later > 200 && ahead > 10, "{own} {of_negation} {facts} {later} {ahead}");
}

#[test]
fn mixed_tables_have_t_and_i_groups_in_one_body() {
    let mut mixed = [0; 2];
    for seed in 0..1000 {
        let (n, words) = mixed_table(&mut Chance::new(seed));
        assert_eq!(check(n, &words), Ok(()), "seed {seed}");
        let (rules, values) = (rules_of(n, &words).unwrap(), evaluated(n, &words));
        let claim = Claim { rules: &rules, values: &values };
        for rule in &rules {
            let has = |value: u8| rule.groups.iter().any(|group| claim.group_value(group) == value);
            // The head is t, or i by its negation's rule.
            mixed[(claim.value(rule.head) == 2) as usize] += (has(2) && has(3)) as u32;
        }
    }
    assert!(mixed.iter().all(|&count| count > 150), "{mixed:?}");
}

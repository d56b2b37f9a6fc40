//! R-4 of document 02: a property kept outside the design.

mod support;

use reference::builder::{boolean_bytes, file_bytes};
use reference::design::{Boolean, Design, Integer, Kind, Refusal, MAX_DEPTH};
use reference::designs::{design_a, most_gates, moved};
use reference::formula::{decode, encode, size, Formula};
use reference::generator::trees::{boolean_of_length, busy_plan, design, Trees};
use reference::operations::{Answer, Operations, Reference};
use reference::programs::trace;
use reference::query::{Query, CONSTRAINT, INVARIANT, MAX_BOUND, MAX_PIECE, NO_INVALID_CELL};
use reference::random::Random;
use reference::step::{replay, State};
use reference::verdict::{verdict, Finding, Lent, Verdict};
use support::*;

/// c < 2, which is Design A's own invariant, and c < 1.
const BELOW_TWO: [u8; 6] = [0x16, 0x02, 1, 0x01, 2, 0];
const BELOW_ONE: [u8; 6] = [0x16, 0x02, 1, 0x01, 1, 0];

/// The bytes of VERDICT's memory.
fn memory(clauses: &[i32], values: &[u8], trail: &[u32], choices: &[u8]) -> Vec<u8> {
    let words = clauses.iter().flat_map(|w| w.to_le_bytes());
    let trail = trail.iter().flat_map(|t| t.to_le_bytes());
    words.chain(values.iter().copied()).chain(trail).chain(choices.iter().copied()).collect()
}

/// VERDICT with memory of these lengths, and what it leaves there: all as it
/// was where the call is refused.
fn verdict_on(
    query: Query<Design>,
    bound: u64,
    budget: u64,
    lengths: [usize; 4],
) -> (Result<Verdict, Refusal>, Vec<u8>) {
    let (mut clauses, mut values) = (vec![7; lengths[0]], vec![7; lengths[1]]);
    let (mut trail, mut choices) = (vec![7; lengths[2]], vec![7; lengths[3]]);
    let filled = memory(&clauses, &values, &trail, &choices);
    let lent = Lent {
        clauses: &mut clauses,
        values: &mut values,
        trail: &mut trail,
        choices: &mut choices,
    };
    let answer = verdict(query, bound, budget, lent);
    let left = memory(&clauses, &values, &trail, &choices);
    assert!(answer.is_ok() || left == filled);
    (answer, left)
}

/// What each of the five calls is refused for; `None` where it is not. No lent
/// memory is long enough.
fn refusals(query: Query<Design>, bound: u64) -> [Option<Refusal>; 5] {
    let (mut words, mut choices) = ([7; 9], [7; 9]);
    let found = [
        replay(query, &vec![9; bound as usize]).err(),
        size(query, bound).err(),
        encode(query, bound, bound + 9, &mut words).err(),
        decode(query, bound, &[7; 9], &mut choices).err(),
        verdict_on(query, bound, u64::MAX, [9; 4]).0.err(),
    ];
    assert_eq!((words, choices), ([7; 9], [7; 9]));
    found
}

fn all(number: u8) -> [Option<Refusal>; 5] {
    [Some(Refusal { number, place: 0 }); 5]
}

/// What the calls are refused for where nothing is wrong with the query.
fn later() -> [Option<Refusal>; 5] {
    [12, 0, 15, 16, 16].map(|number| (number > 0).then_some(Refusal { number, place: 0 }))
}

#[test]
fn order_13_8_14_and_the_rest() {
    let bad = [0xff];
    for design in [design_a(), moved()] {
        let over = 1 + if design.constraint.is_some() { CONSTRAINT } else { NO_INVALID_CELL };
        for property in [over, 3, 256, u64::MAX] {
            let query = Query::new(&design, property).with_piece(&bad);
            assert_eq!(refusals(query, MAX_BOUND + 1), all(13), "property {property}");
        }
        let query = Query::new(&design, INVARIANT);
        for bound in [1, MAX_BOUND, MAX_BOUND + 1, 200] {
            assert_eq!(refusals(query.with_piece(&bad), bound), all(8), "bound {bound}");
        }
        for piece in [&[][..], &BELOW_ONE] {
            assert_eq!(refusals(query.with_piece(piece), MAX_BOUND + 1), all(14));
            assert_eq!(refusals(query.with_piece(piece), 1), later());
        }
    }
}

/// Whatever is wrong with the piece, 8 at place 0 comes after CHECK's refusal.
#[test]
fn check_comes_before_the_piece() {
    let mut file = file_bytes(&design_a());
    file[3] = 9;
    let bad = Answer::Refused(Refusal { number: 5, place: 3 });
    let query = Query::new(&file[..], INVARIANT).with_piece(&[0xff]);
    assert_eq!(Reference.size(query, 0), bad);
    assert_eq!(trace(query, &[]), b"refused 5 at 3\n");
}

/// Whether design A takes the piece; else all five calls refuse it by 8 at
/// place 0.
fn taken(piece: &[u8]) -> bool {
    taken_by(&design_a(), piece)
}

fn taken_by(design: &Design, piece: &[u8]) -> bool {
    let found = refusals(Query::new(design, INVARIANT).with_piece(piece), 1);
    assert!(found == all(8) || found == later(), "{piece:?}");
    found == later()
}

#[test]
fn one_boolean_expression_that_fills_its_length() {
    assert!(taken(&BELOW_ONE));
    for length in 1..BELOW_ONE.len() {
        assert!(!taken(&BELOW_ONE[..length]), "cut to {length}");
    }
    for more in 0..=255 {
        assert!(!taken(&[&BELOW_ONE[..], &[more]].concat()), "one byte more: {more}");
    }
    assert!(!taken(&[&BELOW_ONE[..], &BELOW_ONE].concat()), "two expressions");
    for integer in [&[0x01, 1, 0][..], &[0x02, 1], &[0x03, 0], &[0x04, 0x02, 1, 0x02, 1]] {
        assert!(!taken(integer), "an integer: {integer:?}");
    }
    for operator in (0..=0xff).filter(|o| !(0x10..=0x17).contains(o)) {
        assert!(!taken(&[operator, 0]) && !taken(&[0x12, operator, 0]), "operator {operator:x}");
    }
    assert!(taken(&[0x10, 0]) && taken(&[0x10, 1]) && !taken(&[0x10, 2]));
    assert!(!taken(&[0x12, 0x20, 0, 0x10, 1]), "a statement");
}

/// Design A has the external 0, the integer 1 and one matrix.
#[test]
fn names_are_the_designs() {
    let equal = |leaf: [u8; 2]| [&[0x15][..], &leaf, &[0x01, 0, 0]].concat();
    for (piece, expected) in [
        (vec![0x11, 0], true),
        (vec![0x11, 1], false),
        (vec![0x11, 2], false),
        (equal([0x02, 0]), false),
        (equal([0x02, 1]), true),
        (equal([0x02, 2]), false),
        (equal([0x03, 0]), true),
        (equal([0x03, 1]), false),
    ] {
        assert_eq!(taken(&piece), expected, "{piece:?}");
    }
    // The same bytes where the kinds change places, and with one variable more.
    let mut other = design_a();
    other.variables.reverse();
    assert!(taken_by(&with_variables_only(&other), &equal([0x02, 0])));
    assert!(!taken_by(&with_variables_only(&other), &equal([0x02, 1])));
    other.variables.push(other.variables[0]);
    assert!(taken_by(&with_variables_only(&other), &equal([0x02, 2])));
}

/// The design without cells that name its variables; externals are movers.
fn with_variables_only(design: &Design) -> Design {
    let mut design = design.clone();
    design.cells.clear();
    design.matrices[0].events = vec![Boolean::Constant(true)];
    design.invariant = Boolean::Constant(true);
    through_file(&design)
}

#[test]
fn depth_16_is_the_last() {
    let mut random = Random::new(31);
    let design = design_a();
    for _ in 0..50 {
        let mut piece = |depth: u32| {
            let mut trees = Trees::new(&mut random, &design.variables, 1).with_products(30);
            boolean_bytes(&trees.boolean(depth as usize))
        };
        assert!(taken(&piece(MAX_DEPTH)));
        assert!(!taken(&piece(MAX_DEPTH + 1)));
    }
}

#[test]
fn up_to_16_384_bytes() {
    let mut random = Random::new(32);
    for (length, expected) in [
        (MAX_PIECE - 1, true),
        (MAX_PIECE, true),
        (MAX_PIECE + 1, false),
        (MAX_PIECE + 2, false),
        (65_536 + 2, false),
    ] {
        let piece = boolean_bytes(&boolean_of_length(&mut random, length));
        assert_eq!(piece.len(), length);
        assert_eq!(taken(&piece), expected, "{length} bytes");
    }
}

/// Also where the design has version 2, whose constraint may use them.
#[test]
fn the_next_state_is_not_read_but_products_are() {
    let less = |leaf: &[u8]| [&[0x16], leaf, &[0x01, 2, 0]].concat();
    for design in [design_a(), moved()] {
        for next in [less(&[0x06, 1]), less(&[0x07, 0]), vec![0x17, 0], vec![0x12, 0x17, 0]] {
            assert!(!taken_by(&design, &next), "{next:?}");
        }
        for now in [less(&[0x02, 1]), less(&[0x03, 0]), vec![0x11, 0], vec![0x12, 0x11, 0]] {
            assert!(taken_by(&design, &now), "{now:?}");
        }
        assert!(taken_by(&design, &less(&[0x08, 3, 0, 0x02, 1])));
        assert!(taken_by(&design, &less(&[0x08, 3, 0, 0x08, 3, 0, 0x03, 0])));
        assert!(!taken_by(&design, &less(&[0x08, 3, 0x02, 1])));
    }
}

/// Good, damaged, of the next state, or too long: another property than 0 is
/// answered as with no piece.
#[test]
fn other_properties_do_not_read_it() {
    let mut random = Random::new(33);
    let long = boolean_bytes(&boolean_of_length(&mut random, MAX_PIECE + 1));
    let design = moved();
    for property in [NO_INVALID_CELL, CONSTRAINT] {
        let query = Query::new(&design, property);
        for piece in [&[0x10, 0][..], &[0xff], &[0x17, 0], &BELOW_ONE[..5], &long, &[0; 40_000]] {
            let lent = query.with_piece(piece);
            assert_eq!(answers(lent), answers(query), "property {property}");
            assert_eq!(refusals(lent, 1), refusals(query, 1));
            assert_eq!(refusals(lent, MAX_BOUND + 1), all(14));
        }
    }
}

/// What every call answers for a query: REPLAY of some lists, SIZE, ENCODE of
/// every part, DECODE of what VERDICT leaves, and VERDICT, with all it leaves.
type Answers = (Vec<String>, Vec<Vec<i32>>, Vec<u8>);

fn answers(query: Query<Design>) -> Answers {
    let movers = query.design.movers().len();
    let lists = [all_lists(movers, 2), vec![vec![0; 100], vec![]]].concat();
    let mut told: Vec<String> = lists.iter().map(|l| format!("{:?}", replay(query, l))).collect();
    let mut words = vec![];
    for bound in 0..=1 {
        let formula = Formula::new(query, bound).unwrap();
        let found = formula.size();
        let n = found.variables as usize;
        told.push(format!("{:?}", size(query, bound)));
        for part in 0..=bound + 2 {
            let mut clauses = vec![7; found.words as usize];
            told.push(format!("{:?}", encode(query, bound, part, &mut clauses)));
            words.push(clauses);
        }
        let mut values = vec![0; n];
        if bound == 1 {
            values[found.first_flag() as usize] = 1;
        }
        let mut choices = vec![7; 3];
        told.push(format!("{:?} {choices:?}", decode(query, bound, &values, &mut choices)));
    }
    (told, words, verdict_memory(query, 1))
}

fn verdict_memory(query: Query<Design>, bound: u64) -> Vec<u8> {
    let size = Formula::new(query, bound).unwrap().size();
    let n = size.variables as usize;
    let lengths = [size.words as usize, n, n, bound as usize];
    let (answer, left) = verdict_on(query, bound, 40, lengths);
    [format!("{answer:?}").into_bytes(), left].concat()
}

/// The file's invariant is replaced, not joined: all answers are those of the
/// design whose file has the piece as its invariant.
#[test]
fn a_piece_answers_like_the_same_invariant() {
    let mut random = Random::new(34);
    let (mut apart, mut other_verdict) = (0, 0);
    for _ in 0..60 {
        let plan = busy_plan(&mut random);
        let design = through_file(&design(&mut random, plan));
        let depth = random.between(1, 3);
        let mut trees = Trees::new(&mut random, &design.variables, design.matrices.len());
        let e = trees.boolean(depth);
        let piece = boolean_bytes(&e);
        let same = through_file(&Design { invariant: e, ..design.clone() });
        let plain = Query::new(&design, INVARIANT);
        let lent = answers(plain.with_piece(&piece));
        assert_eq!(lent, answers(Query::new(&same, INVARIANT)));
        let without = answers(plain);
        assert_eq!(answers(plain.with_piece(&boolean_bytes(&design.invariant))), without);
        apart += (lent.1 != without.1) as u32;
        other_verdict += (lent.0 != without.0) as u32;
    }
    assert!(apart > 30 && other_verdict > 20, "{apart}, {other_verdict}");
}

/// The models of a piece's formula and the lists that break the piece match.
#[test]
fn models_are_the_breaking_lists() {
    let design = design_a();
    let query = Query::new(&design, INVARIANT).with_piece(&BELOW_ONE);
    for (bound, count) in [(0, 0), (1, 0), (2, 1), (3, 7)] {
        let formula = Formula::new(query, bound).unwrap();
        let mut words = vec![0; formula.size().words as usize];
        let mut at = 0;
        for part in 0..=formula.last_part() {
            at += formula.write_part(part, &mut words[at..]) as usize;
        }
        let n = formula.variables() as usize;
        let mut found: Vec<Vec<u8>> = reference::models::models(n, &words)
            .iter()
            .map(|values| {
                let mut choices = vec![0; bound as usize];
                decode(query, bound, values, &mut choices).unwrap();
                choices
            })
            .collect();
        found.sort();
        let breaking = |list: &Vec<u8>| {
            let above = |s: &State| s.values[1] >= 1;
            states_of(&design, list).iter().any(above)
        };
        let mut lists = all_lists(3, bound as usize);
        lists.retain(breaking);
        lists.sort();
        assert_eq!(found, lists);
        assert_eq!(found.len(), count);
    }
    assert_eq!(replay(query, &[2, 0, 1]), replayed(Some(2), 2, 2));
    let size = size(query, 3).unwrap();
    let n = size.variables as usize;
    let lengths = [size.words as usize, n, n, 3];
    let found = verdict_on(query, 3, u64::MAX, lengths).0.unwrap();
    assert_eq!(found.finding, Finding::Violated(2));
}

/// The `holds` column and the last line follow the piece; refusals are printed.
#[test]
fn traces() {
    let file = file_bytes(&design_a());
    let lines = |piece: &[u8], property, choices: &[u8]| {
        let query = Query::new(&file[..], property).with_piece(piece);
        String::from_utf8(trace(query, choices)).unwrap()
    };
    let run = ["0 - 0 1 0 0 | 0", "1 2 0 1 1 0 | 0", "2 0 0 0 1 1 | 1", "3 1 0 0 1 2 | 0"];
    let broken_at_2 = run.join("\n") + "\nbroken at 2\n";
    assert_eq!(lines(&BELOW_ONE, 0, &[2, 0, 1]), broken_at_2);
    let broken_at_3 = broken_at_2.replace("2 0 0 0", "2 0 0 1").replace("at 2", "at 3");
    assert_eq!(lines(&[], 0, &[2, 0, 1]), broken_at_3);
    assert_eq!(lines(&BELOW_TWO, 0, &[2, 0, 1]), broken_at_3);
    let holding = lines(&[], 1, &[2, 0, 1]);
    assert_eq!(lines(&[0xff], 1, &[2, 0, 1]), holding);
    assert!(holding.ends_with("\nholds\n"));
    assert_eq!(lines(&[0xff], 0, &[0; 101]), "refused 8 at 0\n");
    assert_eq!(lines(&[0xff], 2, &[0; 101]), "refused 13 at 0\n");
    assert_eq!(lines(&BELOW_ONE, 0, &[0; 101]), "refused 14 at 0\n");
    assert_eq!(lines(&BELOW_ONE, 0, &[0, 3]), "refused 12 at 1\n");
}

/// The file with the most gates, and a piece of as many products as its depth
/// leaves room for: n stays below 2^31, as docs/REFERENCE.md says.
#[test]
fn a_piece_of_many_products_is_not_refused_by_19() {
    let design = most_gates();
    let integer = design.variables.iter().position(|v| v.kind == Kind::Integer).unwrap();
    let product = |e, _| Integer::Product(-1, Box::new(e));
    let chain = (0..6).fold(Integer::Variable(integer as u8), product);
    let both = |e: Boolean, _| Boolean::And(Box::new(e.clone()), Box::new(e));
    let piece = boolean_bytes(&(0..8).fold(Boolean::Less(chain.clone(), chain), both));
    assert!(piece.len() > 10_000 && piece.len() <= MAX_PIECE);
    let query = Query::new(&design, INVARIANT).with_piece(&piece);
    let found = size(query, MAX_BOUND).unwrap();
    assert_eq!(found.property_gates, 256 * (12 * 1_280 + 80) + 255 + 1);
    assert!(found.variables > 1_400_000_000 && found.variables < 1 << 31);
}

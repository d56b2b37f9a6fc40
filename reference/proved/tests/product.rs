//! Products of the proved archive: their value in a step, in a property and in the formula against a plain multiplication, and
//! their gates.

use proved::Proved;
use reference::builder::file_bytes;
use reference::design::{Boolean, Cell, CellKind, Design, Integer, Kind, Matrix, Statement, Variable};
use reference::designs::{minus_three, vending};
use reference::formula::{Formula, Size};
use reference::operations::{Answer, Operations};
use reference::query::{Query, INVARIANT};
use reference::search::{Outcome, Solved};
use reference::step::State;
use reference::verdict::{Finding, Lent, Verdict};

const NUMBERS: [i16; 9] = [i16::MIN, -1, 0, 1, i16::MAX, 3, -3, 256, 0x5555];

/// The gates of a product in an action: 16 sums, and for the mark two comparisons and two ors.
const MARKING_GATES: u64 = 1_280 + 160 + 2;

/// The product by i32, cut to 16 bits.
fn product(a: i16, b: i16) -> i16 {
    (a as i32 * b as i32) as i16
}

fn times(constant: i16) -> Integer {
    Integer::Product(constant, Box::new(Integer::Variable(0)))
}

/// x = `initial`, and one mover, which makes it another number.
fn one_step(initial: i16, next: Integer, invariant: Boolean) -> Design {
    let kind = CellKind::Normal { target: 0, guard: None, action: vec![Statement::AssignInteger(0, next)] };
    Design {
        variables: vec![Variable { kind: Kind::Integer, initial }],
        matrices: vec![Matrix { statuses: 1, events: vec![Boolean::Constant(true)] }],
        cells: vec![Cell { matrix: 0, status: 0, event: 0, kind }],
        invariant,
        constraint: None,
    }
}

fn is(e: Integer, value: i16) -> Boolean {
    Boolean::Equal(e, Integer::Constant(value))
}

fn state(x: i16) -> State {
    let mut state = State::ZERO;
    state.values[0] = x;
    state
}

fn done<T: std::fmt::Debug>(answer: Answer<T>) -> T {
    match answer {
        Answer::Done(value) => value,
        other => panic!("{other:?}"),
    }
}

fn size(design: &Design, bound: u64) -> Size {
    done(Proved.size(Query::new(&file_bytes(design)[..], INVARIANT), bound))
}

/// The formula's words: every part that ENCODE writes.
fn words(design: &Design, bound: u64) -> Vec<i32> {
    let (file, size) = (file_bytes(design), size(design, bound));
    let mut words = vec![0; size.words as usize];
    let mut at = 0;
    for part in 0..=bound + 2 {
        at += done(Proved.encode(Query::new(&file[..], INVARIANT), bound, part, &mut words[at..])) as usize;
    }
    assert_eq!(at, words.len());
    words
}

#[test]
fn steps_and_properties_have_the_wrapped_product() {
    for c in NUMBERS {
        let file = file_bytes(&one_step(1, times(c), Boolean::Constant(true)));
        for a in NUMBERS {
            let stepped = done(Proved.step(&file, &state(a), 0));
            let after = State { mark: c.checked_mul(a).is_none() as u16, ..state(product(c, a)) };
            assert_eq!((stepped.state, stepped.idle), (after, false), "{c} times {a}");
            for (value, truth) in [(product(c, a), true), (product(c, a).wrapping_add(1), false)] {
                let file = file_bytes(&one_step(1, times(c), is(times(c), value)));
                let held = Proved.holds(&file, &state(a), INVARIANT);
                assert_eq!(held, Answer::Done(truth), "{c} times {a}");
            }
        }
    }
}

/// The invariant is false, so the formula for bound 1 has one model, that of the one run. SOLVE finds it without a try, and its
/// last frame has x's bits before the status's four, the mark and the property's gate.
#[test]
fn the_formula_has_the_wrapped_product() {
    for c in NUMBERS {
        for a in NUMBERS {
            let design = one_step(a, times(c), Boolean::Constant(false));
            let n = size(&design, 1).variables as usize;
            let (mut values, mut trail) = (vec![7; n], vec![7; n]);
            let solved = Proved.solve(n as u64, &words(&design, 1), &mut values, &mut trail, 0);
            assert_eq!(solved, Answer::Done(Solved { outcome: Outcome::Sat, tries: 0 }), "{c} times {a}");
            let bits = &values[n - 22..n - 6];
            let x = bits.iter().rev().fold(0u16, |word, &bit| word << 1 | bit as u16) as i16;
            assert_eq!(x, product(c, a), "{c} times {a}");
        }
    }
}

/// Or that the product passes an end, where another number is asked for.
#[test]
fn a_verdict_finds_the_wrapped_product() {
    for (c, a) in [(-1, i16::MIN + 1), (i16::MIN, 3), (i16::MAX, i16::MAX), (3, 11_000), (-3, 10_900)] {
        let other = if c.checked_mul(a).is_none() { Finding::Violated(1) } else { Finding::Clean };
        for (value, finding) in
            [(product(c, a), Finding::Violated(1)), (product(c, a).wrapping_add(1), other)]
        {
            let design = one_step(a, times(c), Boolean::Not(Box::new(is(Integer::Variable(0), value))));
            let size = size(&design, 1);
            let n = size.variables as usize;
            let (mut clauses, mut values) = (vec![0; size.words as usize], vec![0; n]);
            let (mut trail, mut choices) = (vec![0; n], [9]);
            let lent =
                Lent { clauses: &mut clauses, values: &mut values, trail: &mut trail, choices: &mut choices };
            let answer = Proved.verdict(Query::new(&file_bytes(&design)[..], INVARIANT), 1, 0, lent);
            assert_eq!(answer, Answer::Done(Verdict { finding, tries: 0 }), "{c} times {a}");
        }
    }
}

/// Also for the bits of the constant that are 0.
#[test]
fn every_constant_has_as_many_gates() {
    let without = size(&one_step(1, Integer::Variable(0), Boolean::Constant(true)), 1);
    for c in NUMBERS {
        let with = size(&one_step(1, times(c), Boolean::Constant(true)), 1);
        assert_eq!(with.step_gates, without.step_gates + MARKING_GATES, "{c}");
        assert_eq!(with.variables, without.variables + MARKING_GATES, "{c}");
        assert_eq!(with.clauses, without.clauses + 18 * 272 + 2 * 3, "{c}");
        assert_eq!(with.words, without.words + 18 * 992 + 2 * 10, "{c}");
    }
}

#[test]
fn parts_are_the_second_implementations() {
    for (design, property) in [(vending(), 0), (minus_three(), 0), (minus_three(), 2)] {
        let (file, bound) = (file_bytes(&design), 2);
        let formula = Formula::new(Query::new(&design, property), bound).unwrap();
        let query = Query::new(&file[..], property);
        assert_eq!(Proved.size(query, bound), Answer::Done(formula.size()));
        let length = formula.size().words as usize;
        for part in 0..=formula.last_part() {
            let (mut words, mut expected) = (vec![7; length], vec![7; length]);
            let count = formula.write_part(part, &mut expected);
            let answer = Proved.encode(query, bound, part, &mut words);
            assert_eq!(answer, Answer::Done(count), "property {property}, part {part}");
            assert!(words == expected, "property {property}, part {part}");
        }
    }
}

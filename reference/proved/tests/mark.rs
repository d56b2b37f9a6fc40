//! The mark of the proved archive: steps that pass an end, states that have it, and formulas beside the second implementation's, whose
//! tests tell what they have to be.

use proved::{holds, replay, start, step, Lent, Proved};
use reference::builder::file_bytes;
use reference::design::{Boolean, Design, Integer, Statement};
use reference::designs::terms::*;
use reference::designs::{design_a, moved};
use reference::formula::Formula;
use reference::generator::counters::counter_design;
use reference::generator::trees::near_end;
use reference::operations::{Answer, Operations, Reference};
use reference::query::{Query, CONSTRAINT, INVARIANT, NO_INVALID_CELL};
use reference::random::Random;
use reference::step::State;
use reference::verdict::{self, Finding, Verdict};

const MIN: i16 = i16::MIN;
const MAX: i16 = i16::MAX;
const REFUSED_MARK: u64 = 11 + 256 * 40;

/// One integer and one mover. Every property is true but for the mark.
fn acting(initial: i16, guard: Option<Boolean>, action: Vec<Statement>) -> Design {
    Design {
        variables: vec![integer_from(initial)],
        matrices: vec![matrix(1, vec![truth(true)])],
        cells: vec![normal((0, 0, 0), 0, guard, action)],
        invariant: truth(true),
        constraint: Some(truth(true)),
    }
}

fn x() -> Integer {
    number(0)
}

fn up() -> Integer {
    plus(x(), constant(1))
}

fn counting(initial: i16) -> Design {
    acting(initial, None, vec![assign_integer(0, up())])
}

/// x, the mark and whether the choice was idle, after one step from the first state.
fn after(design: &Design) -> (i16, u16, u8) {
    let (file, mut lent, mut idle) = (file_bytes(design), Lent::FILLED, [7]);
    assert_eq!(start(&file, &mut lent), 0);
    assert_eq!(lent.mark, [0]);
    assert_eq!(step(&file, &mut lent, 0, &mut idle), 0);
    (lent.values[0], lent.mark[0], idle[0])
}

#[test]
fn statements_mark_past_both_ends() {
    for (initial, e, value, mark) in [
        (MAX, up(), MIN, 1),
        (MAX - 1, up(), MAX, 0),
        (MIN, minus(x(), constant(1)), MAX, 1),
        (MIN + 1, minus(x(), constant(1)), MIN, 0),
        (MIN, minus(constant(0), x()), MIN, 1),
        (MAX, minus(up(), constant(1)), MAX, 1),
        (MIN, times(-1, x()), MIN, 1),
        (MIN + 1, times(-1, x()), MAX, 0),
        (16_384, times(2, x()), MIN, 1),
        (-16_384, times(2, x()), MIN, 0),
        (1, times(MIN, x()), MIN, 0),
        (-1, times(MIN, x()), MIN, 1),
    ] {
        let design = acting(initial, None, vec![assign_integer(0, e.clone())]);
        assert_eq!(after(&design), (value, mark, 0), "{initial}: {e:?}");
    }
}

#[test]
fn conditions_mark_whole_and_branches_only_where_taken() {
    let passes = || less(up(), constant(0));
    let count = || vec![assign_integer(0, up())];
    for (statement, mark) in [
        (when(passes(), vec![], vec![]), 1),
        (when(or(truth(true), passes()), vec![], vec![]), 1),
        (when(and(truth(false), passes()), vec![], vec![]), 1),
        (when(truth(false), count(), vec![]), 0),
        (when(truth(true), vec![], count()), 0),
        (when(truth(true), count(), vec![]), 1),
        (when(truth(false), vec![when(passes(), vec![], vec![])], vec![]), 0),
        (when(less(x(), constant(MIN)), vec![], vec![]), 0),
    ] {
        let (_, found, idle) = after(&acting(MAX, None, vec![statement.clone()]));
        assert_eq!((found, idle), (mark, 0), "{statement:?}");
    }
}

#[test]
fn guards_wrap_without_it() {
    let passes = less(up(), constant(0));
    assert_eq!(after(&acting(MAX, Some(passes.clone()), vec![])), (MAX, 0, 0));
    let count = vec![assign_integer(0, up())];
    assert_eq!(after(&acting(MAX, Some(not(passes)), count)), (MAX, 0, 1));
}

/// At place 40, after every other entry and before 12 and 13; nothing that is lent changes.
#[test]
fn a_mark_over_1_is_refused_last() {
    for design in [design_a(), moved()] {
        let file = file_bytes(&design);
        for mark in [2, 255, 256, 257, u16::MAX] {
            let mut lent = Lent { mark: [mark], ..Lent::ZERO };
            let (before, mut idle, mut held) = (lent, [7], [7]);
            for choice in [0, 99] {
                assert_eq!(step(&file, &mut lent, choice, &mut idle), REFUSED_MARK);
            }
            for property in [INVARIANT, NO_INVALID_CELL, CONSTRAINT] {
                assert_eq!(holds(&file, &lent, property, &mut held), REFUSED_MARK);
            }
            assert_eq!((lent, idle, held), (before, [7], [7]));
            lent.statuses[7] = 1;
            assert_eq!(step(&file, &mut lent, 0, &mut idle), 11 + 256 * 39);
            lent.values[31] = 1;
            assert_eq!(holds(&file, &lent, INVARIANT, &mut held), 11 + 256 * 31);
        }
    }
}

#[test]
fn once_set_it_stays_and_no_property_holds() {
    let file = file_bytes(&design_a());
    let mut lent = Lent { mark: [1], ..Lent::ZERO };
    // An idle choice, the external, a cell that passes no end.
    for (choice, was_idle) in [(0, 1), (2, 0), (0, 0)] {
        let (mut idle, mut held) = ([7], [7]);
        assert_eq!(step(&file, &mut lent, choice, &mut idle), 0);
        assert_eq!((lent.mark, idle), ([1], [was_idle]));
        for property in [INVARIANT, NO_INVALID_CELL] {
            assert_eq!(holds(&file, &lent, property, &mut held), 0);
            assert_eq!(held, [0]);
        }
        assert_eq!(holds(&file, &lent, CONSTRAINT, &mut held), 13);
    }
}

/// x: 32,766, 32,767, then past the end. Property 2 is judged by the later state.
#[test]
fn runs_and_verdicts_break_where_it_is_set() {
    let design = counting(MAX - 1);
    let file = file_bytes(&design);
    for property in [INVARIANT, NO_INVALID_CELL, CONSTRAINT] {
        let query = Query::new(&file[..], property);
        for (choices, expected) in [(&[0][..], [0, 0, 1, 1]), (&[0, 0], [1, 2, 2, 2]), (&[0, 0, 0], [1, 2, 3, 3])] {
            let mut answer = [7; 4];
            assert_eq!(replay(query, choices, &mut answer), 0);
            assert_eq!(answer, expected, "property {property}");
        }
        let size = Formula::new(Query::new(&design, property), 3).unwrap().size();
        let (words, n) = (size.words as usize, size.variables as usize);
        let mut choices = [255; 3];
        let lent = verdict::Lent {
            clauses: &mut vec![0; words],
            values: &mut vec![0; n],
            trail: &mut vec![0; n],
            choices: &mut choices,
        };
        let answer = Proved.verdict(query, 3, u64::MAX, lent);
        assert!(matches!(answer, Answer::Done(Verdict { finding: Finding::Violated(2), .. })), "{answer:?}");
        assert_eq!(choices, [0, 0, 255]);
    }
}

fn any_state(random: &mut Random, design: &Design) -> State {
    let mut state = State { mark: random.chance(20) as u16, ..State::ZERO };
    state.values[0] = near_end(random);
    (1..design.variables.len()).for_each(|v| state.values[v] = random.chance(50) as i16);
    state
}

#[test]
fn steps_and_states_beside_the_second_implementation() {
    let mut random = Random::new(31);
    let mut set = 0;
    for _ in 0..3_000 {
        let design = counter_design(&mut random);
        let (file, before) = (file_bytes(&design), any_state(&mut random, &design));
        let choice = random.below(design.movers().len()) as u64;
        let stepped = Proved.step(&file, &before, choice);
        assert_eq!(stepped, Reference.step(&file, &before, choice), "{design:?}");
        for property in [INVARIANT, NO_INVALID_CELL] {
            assert_eq!(Proved.holds(&file, &before, property), Reference.holds(&file, &before, property));
        }
        set += matches!(stepped, Answer::Done(s) if s.state.mark > before.mark) as u32;
    }
    assert!(set > 500, "{set}");
}

#[test]
fn parts_are_the_second_implementations() {
    let mut random = Random::new(32);
    for _ in 0..60 {
        let (design, bound) = (counter_design(&mut random), random.between(0, 2) as u64);
        let file = file_bytes(&design);
        for property in [INVARIANT, NO_INVALID_CELL, CONSTRAINT] {
            let query = Query::new(&file[..], property);
            let size = Reference.size(query, bound);
            assert_eq!(Proved.size(query, bound), size);
            let Answer::Done(size) = size else { continue };
            let length = size.words as usize;
            for part in 0..=bound + 2 {
                let (mut words, mut expected) = (vec![7; length], vec![7; length]);
                let answer = Reference.encode(query, bound, part, &mut expected);
                assert_eq!(Proved.encode(query, bound, part, &mut words), answer, "property {property}, part {part}");
                assert!(words == expected, "property {property}, part {part}: {design:?}");
            }
        }
    }
}

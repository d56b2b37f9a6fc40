//! Version 2 and property 2 of document 02: a constraint over two successive
//! states.

mod support;

use reference::builder::{boolean_bytes, file_bytes, file_with_places};
use reference::design::{
    check, Boolean, CellKind, Design, Integer, Kind, Refusal, Statement, MAX_FILE,
};
use reference::designs::{design_a, moved, no_idle};
use reference::formula::{decode, encode, size};
use reference::generator::trees::{chain_design, design, lengthen, tiny_plan};
use reference::models::models;
use reference::programs::{clauses_output, replay_output};
use reference::query::{Query, CONSTRAINT};
use reference::random::Random;
use reference::search::{Outcome, Solved};
use reference::step::{holds, replay, start, State};
use reference::verdict::{verdict, Finding, Lent, Verdict};
use support::*;

fn number(bytes: &[u8]) -> (u8, u64) {
    check(bytes).map_or_else(|r| (r.number, r.place), |_| (0, 0))
}

fn refused<T>(number: u8, place: u64) -> Result<T, Refusal> {
    Err(Refusal { number, place })
}

/// Design A in version 2, with these bytes as its constraint.
fn with_constraint(bytes: &[u8]) -> Vec<u8> {
    with_ends(&file_bytes(&design_a())[51..57], bytes, 57)
}

/// Design A in version 2 with an invariant, a constraint and its offset.
fn with_ends(invariant: &[u8], constraint: &[u8], offset: u16) -> Vec<u8> {
    let file = file_bytes(&design_a());
    let mut trailer = file[57..].to_vec();
    trailer[0] = 2;
    [&file[..51], invariant, constraint, &offset.to_le_bytes(), &trailer].concat()
}

fn constrained(bytes: &[u8]) -> Design {
    check(&with_constraint(bytes)).unwrap()
}

/// The file of `moved`: as Design A up to 57, the constraint there, its offset
/// at 78, the trailer at 80.
#[test]
fn the_file_lies_as_described() {
    let (file, places) = file_with_places(&moved());
    assert_eq!((places.invariant, places.constraint, places.trailer), (51, Some(57), 80));
    assert_eq!((file.len(), &file[78..82]), (96, &[57, 0, 2, 0][..]));
    assert_eq!(file[..57], file_bytes(&design_a())[..57]);
    let expected = [
        &[0x14, 0x12, 0x13, 0x15, 0x03, 0, 0x01, 1, 0, 0x15, 0x07, 0, 0x01, 0, 0][..],
        &[0x16, 0x06, 1, 0x01, 2, 0],
    ];
    assert_eq!(file[57..78], expected.concat());
    assert_eq!(check(&file), Ok(moved()));
    assert_eq!(file, with_constraint(&expected.concat()));
}

#[test]
fn a_short_file_of_version_2_is_refused_before_its_version_and_counts() {
    for length in [16, 17] {
        let mut file = vec![0; length];
        file[length - 16] = 2;
        assert_eq!(number(&file), (1, length as u64));
        file[length - 16] = 3;
        assert_eq!(number(&file), (2, length as u64 - 16));
        file[length - 16] = 1;
        assert_eq!(number(&file), (3, length as u64 - 16));
    }
    for length in [18, 19, MAX_FILE] {
        let mut file = vec![0; length];
        file[length - 16] = 2;
        assert_eq!(number(&file), (3, length as u64 - 16));
        // A version is two bytes.
        file[length - 15] = 2;
        assert_eq!(number(&file), (2, length as u64 - 16));
    }
    let mut file = vec![0; MAX_FILE + 1];
    file[MAX_FILE + 1 - 16] = 2;
    assert_eq!(number(&file), (1, MAX_FILE as u64 + 1));
}

#[test]
fn the_offset_is_tested_before_the_invariant() {
    let offset = |offset: u16| {
        let mut file = file_bytes(&moved());
        file[78..80].copy_from_slice(&offset.to_le_bytes());
        file
    };
    for wrong in [0, 50, 79, 80, 96, 65_535] {
        assert_eq!(number(&offset(wrong)), (4, 51), "{wrong}");
        let mut both = offset(wrong);
        both[51] = 0x33;
        assert_eq!(number(&both), (4, 51), "{wrong}");
    }
    // From the invariant up to the u16 the offset is right, and what it leaves
    // is no invariant.
    for wrong in [51, 52, 56, 58, 77, 78] {
        assert_eq!(number(&offset(wrong)), (8, 51), "{wrong}");
    }
    assert_eq!(number(&offset(57)), (0, 0));
    // The invariant's own offset is the item's, too.
    let mut moved = offset(57);
    moved[80 + 14] = 50;
    assert_eq!(number(&moved), (4, 51));
}

#[test]
fn an_empty_constraint_and_an_empty_invariant() {
    let invariant = &file_bytes(&design_a())[51..57];
    assert_eq!(number(&with_ends(invariant, &[], 57)), (8, 57));
    assert_eq!(number(&with_ends(&[], &[0x10, 1], 51)), (8, 51));
    assert_eq!(number(&with_ends(&[], &[], 51)), (8, 51));
    assert_eq!(number(&with_ends(invariant, &[0x10, 1], 57)), (0, 0));
}

#[test]
fn a_bad_invariant_then_a_bad_constraint_then_the_movers() {
    let invariant = &file_bytes(&design_a())[51..57];
    assert_eq!(number(&with_ends(&[0x33], &[0x33], 52)), (8, 51));
    assert_eq!(number(&with_ends(invariant, &[0x33], 57)), (8, 57));
    let mut without_movers = no_idle();
    without_movers.variables[0].kind = Kind::Boolean;
    without_movers.cells.clear();
    let (mut file, places) = file_with_places(&without_movers);
    assert_eq!(number(&file), (10, file.len() as u64));
    let constraint = places.constraint.unwrap();
    file[constraint] = 0x33;
    assert_eq!(number(&file), (8, constraint as u64));
}

/// Each item is cut so that it would end before the trailer, but not before
/// the two bytes of the offset.
#[test]
fn items_passing_the_offset_4() {
    let file = file_bytes(&moved());
    let cut = |length: usize| [&file[..length], &file[78..]].concat();
    for (length, place) in [(1, 0), (4, 3), (6, 6), (9, 8), (12, 11), (26, 11), (34, 28), (49, 28)]
    {
        assert_eq!(number(&cut(length)), (4, place), "{length}");
    }
}

/// The three operators in every other expression of a file of version 2, and
/// in the invariant of one of version 1.
#[test]
fn the_next_state_is_read_in_the_constraint_alone() {
    let reads: [&[u8]; 3] =
        [&[0x17, 0], &[0x15, 0x06, 1, 0x01, 0, 0], &[0x15, 0x01, 0, 0, 0x07, 0]];
    let first = file_bytes(&design_a());
    for read in reads {
        assert_eq!(number(&with_constraint(read)), (0, 0), "{read:x?}");
        assert_eq!(number(&with_ends(read, &[0x10, 1], 51 + read.len() as u16)), (8, 51));
        assert_eq!(number(&[&first[..51], read, &first[57..]].concat()), (8, 51));
    }
    let next = || Boolean::NextVariable(0);
    let mut event = moved();
    event.matrices[0].events[0] = next();
    assert_eq!(number(&file_bytes(&event)), (8, 8));
    let normal = |guard, action| {
        let mut design = moved();
        design.cells[1].kind = CellKind::Normal { target: 0, guard, action };
        number(&file_bytes(&design))
    };
    assert_eq!(normal(Some(next()), vec![]), (8, 28));
    let assigned = Statement::AssignInteger(1, Integer::NextVariable(1));
    assert_eq!(normal(None, vec![assigned]), (9, 28));
    assert_eq!(normal(None, vec![Statement::If(next(), vec![], vec![])]), (9, 28));
    assert_eq!(normal(None, vec![]), (0, 0));
}

#[test]
fn names_and_depth_in_a_constraint() {
    let bad: [&[u8]; 9] = [
        &[0x17, 1],
        &[0x17, 2],
        &[0x17],
        &[0x06, 1],
        &[0x15, 0x06, 0, 0x01, 0, 0],
        &[0x15, 0x06, 2, 0x01, 0, 0],
        &[0x15, 0x07, 1, 0x01, 0, 0],
        &[0x16, 0x08, 1, 0x01, 0, 0],
        &[0x17, 0, 0],
    ];
    for bytes in bad {
        assert_eq!(number(&with_constraint(bytes)), (8, 57), "{bytes:x?}");
    }
    // 17 takes Booleans and externals.
    let mut design = constrained(&[0x17, 0]);
    design.variables[0].kind = Kind::Boolean;
    assert_eq!(number(&file_bytes(&design)), (0, 0));
    let deep = |depth: usize| [vec![0x12; depth - 1], vec![0x17, 0]].concat();
    assert_eq!(number(&with_constraint(&deep(16))), (0, 0));
    assert_eq!(number(&with_constraint(&deep(17))), (8, 57));
}

#[test]
fn the_longest_file_of_version_2() {
    let mut random = Random::new(1);
    for _ in 0..4 {
        let mut design = moved();
        lengthen(&mut random, &mut design, MAX_FILE);
        let file = file_bytes(&design);
        assert_eq!((file.len(), check(&file)), (MAX_FILE, Ok(design)));
    }
}

#[test]
fn property_2_is_13_in_version_1_and_property_3_in_version_2() {
    let (first, second) = (design_a(), moved());
    for (design, property) in [(&first, 2), (&first, 3), (&second, 3), (&second, 255)] {
        let query = Query::new(design, property);
        assert_eq!(replay(query, &[9; 101]), refused(13, 0));
        assert_eq!(size(query, 101), refused(13, 0));
        assert_eq!(encode(query, 101, 999, &mut []), refused(13, 0));
        assert_eq!(decode(query, 101, &[], &mut []), refused(13, 0));
        let lent = Lent { clauses: &mut [], values: &mut [], trail: &mut [], choices: &mut [] };
        assert_eq!(verdict(query, 101, 0, lent), refused(13, 0));
    }
    let query = Query::new(&second, CONSTRAINT);
    assert_eq!(replay(query, &[9; 101]), refused(14, 0));
    assert_eq!(replay(query, &[0, 9]), refused(12, 1));
    assert_eq!(size(query, 101), refused(14, 0));
    assert_eq!(encode(query, 0, 3, &mut []), refused(15, 0));
    assert_eq!(encode(query, 0, 2, &mut []), refused(16, 0));
}

#[test]
fn holds_refuses_property_2_after_the_state() {
    let bad = State { statuses: [9; 8], ..start(&moved()) };
    for (design, last) in [(design_a(), 1), (moved(), 1)] {
        let first = start(&design);
        for property in 0..=3 {
            assert_eq!(holds(&design, &bad, property), refused(11, 32));
            let expected = if property <= last { Ok(true) } else { refused(13, 0) };
            assert_eq!(holds(&design, &first, property), expected);
        }
    }
}

/// The run 2, 0, 1 of Design A: its states as external, c and status are
/// (0, 0, 0), (1, 0, 0), (1, 1, 1), (1, 2, 0).
#[test]
fn which_state_each_operator_reads() {
    let one = |operator: u8, name: u8| vec![operator, name];
    let is_zero = |operator: u8, name: u8| vec![0x15, operator, name, 0x01, 0, 0];
    for (constraint, step) in [
        (one(0x11, 0), Some(1)),
        (one(0x17, 0), None),
        (is_zero(0x02, 1), Some(3)),
        (is_zero(0x06, 1), Some(2)),
        (is_zero(0x03, 0), Some(3)),
        (is_zero(0x07, 0), Some(2)),
        // c < c', which the raising of the external breaks; c' = c + status'.
        (vec![0x16, 0x02, 1, 0x06, 1], Some(1)),
        (vec![0x15, 0x06, 1, 0x04, 0x02, 1, 0x07, 0], Some(3)),
    ] {
        let design = constrained(&constraint);
        assert_eq!(
            replay(Query::new(&design, CONSTRAINT), &[2, 0, 1]),
            replayed(step, 2, 2),
            "{constraint:x?}"
        );
    }
}

/// A constraint that is false everywhere is not broken before step 1.
#[test]
fn step_0_is_not_judged() {
    let design = constrained(&[0x10, 0]);
    let query = Query::new(&design, CONSTRAINT);
    assert_eq!(replay(query, &[]), replayed(None, 0, 0));
    assert_eq!(replay(query, &[0]), replayed(Some(1), 1, 0));
    assert_eq!(verdict_of(&design, CONSTRAINT, 0, 0).0, clean(0));
    let found = verdict_of(&design, CONSTRAINT, 3, u64::MAX).0;
    assert_eq!(found.finding, Finding::Violated(1));
}

fn clean(tries: u64) -> Verdict {
    Verdict { finding: Finding::Clean, tries }
}

#[test]
fn idle_steps_are_judged() {
    let design = no_idle();
    let query = Query::new(&design, CONSTRAINT);
    for (choices, step) in [
        (&[][..], None),
        (&[0], Some(1)),
        (&[1], None),
        (&[1, 1], Some(2)),
        (&[1, 0], None),
        (&[1, 0, 1, 0], Some(3)),
        (&[1, 0, 0, 0], None),
    ] {
        let found = replay(query, choices).unwrap();
        assert_eq!(found.broken, step, "{choices:?}");
    }
    let (found, choices) = verdict_of(&design, CONSTRAINT, 2, u64::MAX);
    assert_eq!((found.finding, &choices[..1]), (Finding::Violated(1), &[0][..]));
}

/// Each step is judged by itself: the trace is true again past a break.
#[test]
fn the_trace_of_property_2() {
    let trace = |design: &Design, head: &[u8]| {
        String::from_utf8(replay_output(&[head, &file_bytes(design)].concat())).unwrap()
    };
    let expected = "0 - 0 1 0 0 | 0\n1 2 0 1 1 0 | 0\n2 0 0 1 1 1 | 1\n3 1 0 0 1 2 | 0\n\
                    4 2 1 1 1 2 | 0\n5 0 0 1 1 3 | 1\nbroken at 3\n";
    assert_eq!(trace(&moved(), &[2, 5, 2, 0, 1, 2, 0]), expected);
    let idle = "0 - 0 1 0 0 | 0\n1 0 1 0 0 0 | 0\n2 1 0 1 1 0 | 0\n3 1 1 0 1 0 | 0\nbroken at 1\n";
    assert_eq!(trace(&no_idle(), &[2, 3, 0, 1, 1]), idle);
    assert_eq!(trace(&no_idle(), &[2, 0]), "0 - 0 1 0 0 | 0\nholds\n");
    assert_eq!(trace(&no_idle(), &[3, 0]), "refused 13 at 0\n");
    assert_eq!(trace(&design_a(), &[2, 0]), "refused 13 at 0\n");
}

/// The constraint of `moved` has 32 + 32 + 1 + 80 + 1 gates; one more is the
/// and with the mark.
#[test]
fn its_gates_are_step_gates_of_property_2_alone() {
    let (plain, design) = (design_a(), moved());
    for bound in [0, 1, 3] {
        for property in [0, 1] {
            let expected = size(Query::new(&plain, property), bound);
            assert_eq!(size(Query::new(&design, property), bound), expected);
        }
        let found = size(Query::new(&design, CONSTRAINT), bound).unwrap();
        let step_gates = 378 + 147;
        assert_eq!((found.property_gates, found.step_gates), (0, step_gates));
        assert_eq!(found.variables, 1 + bound * (22 + 3 + step_gates) + 22);
        let words = formula_words(&design, CONSTRAINT, bound);
        assert_eq!(found.words, words.len() as u64);
        assert_eq!(found.clauses, words.iter().filter(|&&w| w == 0).count() as u64);
    }
}

/// The constraint is and(next external, external), one gate: 405, after the
/// last mover's gates and before the ties. Gate 406 is its and with the mark of
/// frame 1, which starts at 407 and has the mark as its 22nd bit.
#[test]
fn its_gates_stand_before_the_ties_and_read_the_next_frame() {
    let design = constrained(&[0x13, 0x17, 0, 0x11, 0]);
    let ties = 4 * 2 * 3 * 22;
    for frame in 0..3 {
        let shift = 405 * frame as i32;
        let part = part_words(&design, CONSTRAINT, 3, frame + 1);
        let gates = &part[..part.len() - ties];
        let (g, next, own) = (405 + shift, 407 + shift, 2 + shift);
        let (held, mark) = (g + 1, next + 21);
        let expected = [
            [-g, next, 0, -g, own, 0, g, -next, -own, 0],
            [-held, g, 0, -held, -mark, 0, held, -g, mark, 0],
        ];
        assert_eq!(gates[gates.len() - 20..], expected.concat());
        // Before them stand the four clauses of the last mover's last mux.
        let mux: Vec<i32> = gates[gates.len() - 36..gates.len() - 20].to_vec();
        assert_eq!([mux[2], mux[6], mux[10], mux[14]], [g - 1, 1 - g, g - 1, 1 - g]);
        assert_eq!(part[part.len() - ties], -(24 + shift));
        // The frame starts with its flags: there are no property gates.
        assert_eq!(part[..4], [24 + shift, 25 + shift, 26 + shift, 0]);
    }
    assert_eq!(part_words(&design, CONSTRAINT, 3, 4), []);
}

#[test]
fn the_last_clause_takes_the_frames_before_the_last() {
    let gate = constrained(&[0x13, 0x17, 0, 0x11, 0]);
    assert_eq!(part_words(&gate, CONSTRAINT, 3, 5), [-406, -406 - 405, -406 - 2 * 405, 0]);
    assert_eq!(part_words(&gate, CONSTRAINT, 1, 3), [-406, 0]);
    // Without a gate of its own the constraint has the and with the mark.
    for bytes in [&[0x17, 0][..], &[0x12, 0x11, 0], &[0x10, 1]] {
        let plain = constrained(bytes);
        assert_eq!(part_words(&plain, CONSTRAINT, 2, 4), [-405, -405 - 404, 0]);
    }
}

#[test]
fn at_bound_0_the_last_clause_is_empty() {
    for design in [moved(), no_idle(), constrained(&[0x10, 0])] {
        assert_eq!(part_words(&design, CONSTRAINT, 0, 1), []);
        assert_eq!(part_words(&design, CONSTRAINT, 0, 2), [0]);
        let words = formula_words(&design, CONSTRAINT, 0);
        let answer = solved(variables(&design, CONSTRAINT, 0), &words, 0).0;
        assert_eq!(answer, Solved { outcome: Outcome::Unsat, tries: 0 });
        assert_eq!(verdict_of(&design, CONSTRAINT, 0, 0).0, clean(0));
    }
}

#[test]
fn the_printed_clauses_end_in_an_empty_one_at_bound_0() {
    let file = file_bytes(&moved());
    let printed = |bound: u8| String::from_utf8(clauses_output(&[&[2, bound], &file[..]].concat()));
    let first = printed(0).unwrap();
    assert_eq!((first.lines().count(), first.lines().last()), (1 + 22 + 1, Some("0")));
    let numbers =
        |text: &str| -> Vec<i32> { text.split_whitespace().map(|n| n.parse().unwrap()).collect() };
    assert_eq!(numbers(&printed(1).unwrap()), formula_words(&moved(), CONSTRAINT, 1));
}

/// What the constraint of `moved` says of a step the invariant says of a
/// state, so both have the models of Design A.
#[test]
fn models_of_moved() {
    let design = moved();
    for (bound, count) in [0, 0, 0, 1, 9, 51].into_iter().enumerate() {
        for property in [0, CONSTRAINT] {
            let n = variables(&design, property, bound as u64);
            let found = models(n, &formula_words(&design, property, bound as u64));
            assert_eq!(found.len(), count, "property {property}, bound {bound}");
        }
        assert_eq!(breaking_lists(&design, CONSTRAINT, bound).len(), count);
    }
    let (found, choices) = verdict_of(&design, CONSTRAINT, 4, u64::MAX);
    assert_eq!((found.finding, &choices[..3]), (Finding::Violated(3), &[2, 0, 1][..]));
}

/// The numbers of docs/REFERENCE.md.
#[test]
fn sizes_and_tries_of_moved() {
    let design = moved();
    for (bound, numbers, tries) in [
        (0, [23, 24, 47], 0),
        (1, [573, 1_995, 7_399], 0),
        (2, [1_123, 3_966, 14_751], 4),
        (3, [1_673, 5_937, 22_103], 9),
        (4, [2_223, 7_908, 29_455], 11),
    ] {
        let size = size(Query::new(&design, CONSTRAINT), bound).unwrap();
        assert_eq!([size.variables, size.clauses, size.words], numbers);
        let words = formula_words(&design, CONSTRAINT, bound);
        assert_eq!(solved(size.variables as usize, &words, u64::MAX).0.tries, tries);
    }
    assert_eq!(part_words(&design, CONSTRAINT, 1, 3), [-551, 0]);
}

/// Flags stand straight after the state bits.
#[test]
fn decode_of_property_2() {
    let design = moved();
    let query = Query::new(&design, CONSTRAINT);
    let n = variables(&design, CONSTRAINT, 2);
    let mut values = vec![7; n];
    for (frame, mover) in [(0, 2), (1, 0)] {
        let first = 1 + 550 * frame + 22;
        values[first..first + 3].fill(0);
        values[first + mover] = 1;
    }
    let mut choices = [9; 3];
    assert_eq!(decode(query, 2, &values, &mut choices), Ok(()));
    assert_eq!(choices, [2, 0, 9]);
    assert_eq!(decode(query, 2, &values[..n - 1], &mut choices), refused(16, 0));
    values[1 + 550 + 22] = 0;
    assert_eq!(decode(query, 2, &values, &mut choices), refused(18, 1));
}

/// REPLAY on random designs, beside a walk over STEP.
#[test]
fn replays_of_random_constraints() {
    let mut random = Random::new(8);
    let mut broken = 0;
    for _ in 0..400 {
        let design = chain_design(&mut random);
        let movers = design.movers().len();
        let choices: Vec<u8> =
            (0..random.between(0, 6)).map(|_| random.below(movers) as u8).collect();
        let found = replay(Query::new(&design, CONSTRAINT), &choices).map(|r| r.broken);
        if design.constraint.is_none() {
            assert_eq!(found, refused(13, 0));
            continue;
        }
        let first = (0..=choices.len()).find(|&i| breaks(&design, CONSTRAINT, &choices[..i]));
        assert_eq!(found, Ok(first.map(|i| i as u64)));
        broken += first.is_some() as u32;
    }
    assert!(broken > 50, "{broken}");
}

/// What the builder writes for a constraint is what the reader reads.
#[test]
fn every_operator_goes_through_the_file() {
    let mut random = Random::new(9);
    let mut seen = [false; 256];
    for _ in 0..300 {
        let mut plan = tiny_plan(&mut random);
        (plan.constraint, plan.integer_percent, plan.variables) = (true, 40, 3);
        let design = through_file(&design(&mut random, plan));
        boolean_bytes(design.constraint.as_ref().unwrap())
            .iter()
            .for_each(|&b| seen[b as usize] = true);
    }
    assert!([0x06, 0x07, 0x17].iter().all(|&operator| seen[operator]));
}

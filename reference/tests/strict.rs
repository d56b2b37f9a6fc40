//! Strict runs of known designs: what is counted by levels is what the definition says, and wrong definitions count otherwise.

#[path = "support/strict.rs"]
mod lists;
mod support;

use lists::{count, runs, Run, WRONG};
use reference::builder::{boolean_bytes, file_bytes};
use reference::design::{Design, Refusal};
use reference::designs::terms::*;
use reference::designs::{
    barrier, branch_taken, design_a, minus_three, moved, mutex, no_idle, raised_next,
};
use reference::query::{Query, CONSTRAINT, INVARIANT, NO_INVALID_CELL};
use reference::strict::{is_strict, strict_breaking};
use support::*;

fn counted(query: Query<Design>, bound: u64) -> u128 {
    strict_breaking(query, bound).unwrap().unwrap()
}

/// By levels and by the definition, for bounds from 0; beside them all breaking lists.
fn strict_and_all(query: Query<Design>, bounds: usize) -> Vec<(u128, u128)> {
    let of = |bound: usize| {
        let runs = runs(query, bound);
        let strict = counted(query, bound as u64);
        assert_eq!(strict, count(&runs, Run::is_strict), "bound {bound}");
        (strict, count(&runs, |_| true))
    };
    (0..bounds).map(of).collect()
}

/// At bound 5 the run 2,0,1,0 has led where no mover is enabled: the external
/// stands, and the guard of the one cell of status 1 is false.
#[test]
fn design_a_has_the_known_counts() {
    let design = design_a();
    let found = strict_and_all(Query::new(&design, INVARIANT), 6);
    assert_eq!(found, [(0, 0), (0, 0), (0, 0), (1, 1), (1, 9), (3, 51)]);
    let strict: [&[u8]; 6] =
        [&[], &[2, 0, 1], &[2, 0, 1, 0], &[2, 0, 1, 0, 0], &[2, 0, 1, 0, 1], &[2, 0, 1, 0, 2, 1]];
    assert!(strict.iter().all(|list| is_strict(&design, list)));
    let idle: [&[u8]; 6] = [&[0], &[1], &[2, 2], &[2, 0, 0], &[2, 0, 1, 1], &[0, 2, 0, 1]];
    assert!(!idle.iter().any(|list| is_strict(&design, list)));
    // No choice at all: the design has three movers.
    assert!(!is_strict(&design, &[3]));
    assert!(!is_strict(&design, &[2, 0, 1, 0, 3]));
}

/// Cell 0 goes to status 1, where no cell stands. Cell 1 is never enabled.
fn stuck() -> Design {
    let never = normal((0, 0, 0), 1, Some(truth(false)), vec![]);
    Design {
        variables: vec![],
        matrices: vec![matrix(2, vec![truth(true)])],
        cells: vec![normal((0, 0, 0), 1, None, vec![]), never],
        invariant: status_is(0, 0),
        constraint: None,
    }
}

/// Where no mover is enabled both numbers go on: the count doubles.
#[test]
fn a_run_that_is_stuck_goes_on_by_every_number() {
    let design = stuck();
    let found = strict_and_all(Query::new(&design, INVARIANT), 5);
    assert_eq!(found, [(0, 0), (1, 1), (2, 3), (4, 7), (8, 15)]);
    assert!(is_strict(&design, &[0, 1, 0, 1]));
    assert!(!is_strict(&design, &[1, 0]));
    // The first state is stuck already, and broken.
    let mut first = stuck();
    first.cells.iter_mut().for_each(|cell| cell.status = 1);
    first.invariant = truth(false);
    let found = strict_and_all(Query::new(&first, INVARIANT), 5);
    assert_eq!(found, [(1, 1), (2, 2), (4, 4), (8, 8), (16, 16)]);
    // Without the broken invariant none of them counts.
    let found = strict_and_all(Query::new(&first, NO_INVALID_CELL), 5);
    assert_eq!(found, [(0, 0); 5]);
}

/// An idle step alone breaks these constraints.
#[test]
fn property_2_may_have_no_strict_list_where_others_break_it() {
    let found = strict_and_all(Query::new(&raised_next(), CONSTRAINT), 5);
    assert_eq!(found, [(0, 0), (0, 1), (0, 2), (0, 4), (0, 8)]);
    let found = strict_and_all(Query::new(&no_idle(), CONSTRAINT), 5);
    assert_eq!(found, [(0, 0), (0, 1), (0, 3), (0, 7), (0, 15)]);
    for design in [raised_next(), no_idle()] {
        assert_eq!(counted(Query::new(&design, CONSTRAINT), 100), 0);
    }
    // A step that is not idle breaks this one.
    let found = strict_and_all(Query::new(&moved(), CONSTRAINT), 6);
    assert_eq!(found, [(0, 0), (0, 0), (0, 0), (1, 1), (1, 9), (3, 51)]);
}

/// Why there is no shorter file with different answers: see `raised_next`.
#[test]
fn different_answers_in_33_bytes() {
    assert_eq!(file_bytes(&raised_next()).len(), 33);
    assert_eq!(through_file(&raised_next()).movers().len(), 2);
    assert!(!is_strict(&raised_next(), &[1]));
    assert!(is_strict(&raised_next(), &[0, 0, 1]));
}

#[test]
fn the_mark_breaks_strict_runs_too() {
    for property in [INVARIANT, NO_INVALID_CELL] {
        let found = strict_and_all(Query::new(&branch_taken(), property), 5);
        assert_eq!(found, [(0, 0), (0, 0), (1, 1), (2, 4), (3, 11)]);
    }
    for property in [INVARIANT, NO_INVALID_CELL, CONSTRAINT] {
        assert_eq!(counted(Query::new(&minus_three(), property), 2), 0);
        assert_eq!(counted(Query::new(&minus_three(), property), 100), 1);
    }
}

/// A piece is judged in the invariant's place, and by property 0 alone.
#[test]
fn pieces() {
    let piece = boolean_bytes(&less(number(1), constant(1)));
    let design = design_a();
    let query = Query::new(&design, INVARIANT).with_piece(&piece);
    // 2,0 and any choice; 0 or 1 before 2, and 1 or 2 after it.
    assert_eq!(strict_and_all(query, 4), [(0, 0), (0, 0), (1, 1), (1, 7)]);
    let other = Query::new(&design, NO_INVALID_CELL).with_piece(&piece);
    assert_eq!(strict_and_all(other, 4), [(0, 0); 4]);
}

#[test]
fn refusals_are_those_of_replay() {
    let refused = |number| Err(Refusal { number, place: 0 });
    let design = design_a();
    assert_eq!(strict_breaking(Query::new(&design, CONSTRAINT), 101), refused(13));
    let query = Query::new(&design, INVARIANT);
    assert_eq!(strict_breaking(query.with_piece(&[0xff]), 101), refused(8));
    assert_eq!(strict_breaking(query, 101), refused(14));
}

/// 64 movers that are always enabled: 2^126 lists of 21 choices.
#[test]
fn too_many_lists_are_not_counted() {
    let design = Design {
        variables: vec![],
        matrices: vec![matrix(1, vec![truth(true)])],
        cells: vec![normal((0, 0, 0), 0, None, vec![]); 64],
        invariant: truth(false),
        constraint: None,
    };
    let design = through_file(&design);
    let query = Query::new(&design, INVARIANT);
    assert_eq!(strict_breaking(query, 21), Ok(Some(1 << 126)));
    assert_eq!(strict_breaking(query, 22), Ok(None));
    assert_eq!(strict_breaking(query, 100), Ok(None));
}

/// Cell 0 leads to its own status and changes nothing; cell 1 goes on to a
/// status that breaks.
fn self_loop() -> Design {
    let cell = |target| normal((0, 0, 0), target, None, vec![]);
    Design { cells: vec![cell(0), cell(1)], ..stuck() }
}

/// Each wrong definition, by its name, with a case that it counts otherwise:
/// the right count, then the wrong one.
#[test]
fn wrong_definitions_count_otherwise() {
    let (a, next) = (design_a(), raised_next());
    let cases = [
        ("it may idle anywhere", &a, INVARIANT, 4, 1, 9),
        ("it may idle anywhere", &next, CONSTRAINT, 1, 0, 1),
        ("it may never idle", &a, INVARIANT, 5, 3, 0),
        ("it may never idle", &stuck(), INVARIANT, 2, 2, 0),
        ("where no mover is enabled it counts once", &a, INVARIANT, 5, 3, 1),
        ("where no mover is enabled it counts once", &stuck(), INVARIANT, 4, 8, 1),
        ("a self-loop is idle", &self_loop(), INVARIANT, 2, 3, 2),
        ("enabled is judged after the step", &a, INVARIANT, 3, 1, 0),
        ("an external is no mover", &a, INVARIANT, 4, 1, 3),
        ("an external is no mover", &next, CONSTRAINT, 1, 0, 1),
        ("a broken list does not go on", &a, INVARIANT, 4, 1, 0),
        ("a broken list does not go on", &stuck(), INVARIANT, 2, 2, 0),
    ];
    let mut all = 0;
    for (name, wrong) in WRONG {
        let mut told = 0;
        for (_, design, property, bound, right, otherwise) in
            cases.iter().filter(|case| case.0 == name)
        {
            let query = Query::new(*design, *property);
            let runs = runs(query, *bound);
            assert_eq!(counted(query, *bound as u64), *right, "{name}");
            assert_eq!(count(&runs, wrong), *otherwise, "{name}");
            told += 1;
        }
        assert!(told > 0, "{name}");
        all += told;
    }
    assert_eq!(all, cases.len());
}

/// Larger designs than the generated ones.
#[test]
fn levels_count_what_lists_do() {
    for (design, bounds) in [(mutex(), 5), (barrier(), 5)] {
        for property in [INVARIANT, NO_INVALID_CELL] {
            strict_and_all(Query::new(&design, property), bounds);
        }
    }
}

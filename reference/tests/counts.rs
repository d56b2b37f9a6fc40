//! The counts of REPLAY that document 02 adds: events read, the choices of
//! normal cells whose status stood, and guards read, those of them whose event
//! was true.

mod support;

use reference::builder::boolean_bytes;
use reference::design::{check, CellKind, Design, MAX_MOVERS};
use reference::designs::{barrier, design_a, long_tests, moved};
use reference::generator::trees::{busy_plan, design};
use reference::generator::Generator;
use reference::protocol::bytes;
use reference::query::{Query, CONSTRAINT, INVARIANT, MAX_BOUND, NO_INVALID_CELL};
use reference::random::Random;
use reference::step::{replay, replay_by, Tests};
use support::*;

/// Cell 0 of Design A has status 0 and no guard, cell 1 has status 1 and the
/// guard c < 2; their event is the external, which is mover 2.
#[test]
fn lists_of_design_a() {
    for (choices, broken, events, guards) in [
        (&[][..], None, 0, 0),
        // The external is no cell, raised or not.
        (&[2], None, 0, 0),
        (&[2; 100], None, 0, 0),
        // Status 0 stands, but the event is false.
        (&[0], None, 1, 0),
        (&[0; 100], None, 100, 0),
        // Status 1 does not stand.
        (&[1], None, 0, 0),
        (&[0, 1, 2], None, 1, 0),
        // With the event cell 0 runs: no guard is a guard read. Then status 0
        // stands no more.
        (&[2, 0], None, 1, 1),
        (&[2, 0, 0], None, 1, 1),
        (&[0, 2, 0, 0], None, 2, 1),
        (&[2, 0, 1], Some(3), 2, 2),
        // Past the break: cell 0 runs, then c is 3, and the guard is read and
        // false.
        (&[2, 0, 1, 2, 0], Some(3), 3, 3),
        (&[2, 0, 1, 2, 0, 1, 1, 0], Some(3), 5, 5),
    ] {
        let found = replay(Query::new(&design_a(), INVARIANT), choices);
        assert_eq!(found, replayed(broken, events, guards), "{choices:?}");
    }
}

/// One list that meets every case. Its counts by the number of its choices
/// tell which choice is counted.
#[test]
fn every_case_in_one_list() {
    let choices = [0, 1, 3, 0, 1, 2, 3, 0];
    let counts = [
        (0, 0),
        (1, 0), // the status stands, the event is false
        (1, 0), // the status does not stand
        (1, 0), // the external
        (2, 1), // the guard is true; the property breaks here
        (3, 2), // no guard; the action makes the event false
        (4, 3), // no guard; the other event
        (4, 3), // the external
        (5, 4), // the guard is false
    ];
    for (length, (events, guards)) in counts.into_iter().enumerate() {
        let broken = (length >= 4).then_some(4);
        let found = replay(Query::new(&barrier(), INVARIANT), &choices[..length]);
        assert_eq!(found, replayed(broken, events, guards), "{length} choices");
    }
}

#[test]
fn every_property_has_the_same_counts() {
    for (property, broken) in [(INVARIANT, Some(5)), (NO_INVALID_CELL, None), (CONSTRAINT, Some(5))]
    {
        let found = replay(Query::new(&moved(), property), &[0, 2, 1, 0, 1, 1, 0]);
        assert_eq!(found, replayed(broken, 4, 3), "property {property}");
    }
}

/// The choices of cells of which this is true.
fn count(tested: &[Option<Tested>], is_true: fn(&Tested) -> bool) -> u64 {
    tested.iter().flatten().filter(|t| is_true(t)).count() as u64
}

/// The counts by their definition.
fn counted(tested: &[Option<Tested>]) -> [u64; 2] {
    [count(tested, |t| t.status), count(tested, |t| t.status && t.event)]
}

#[test]
fn runs_of_random_designs() {
    let mut random = Random::new(11);
    let mut apart = 0;
    for _ in 0..2_000 {
        let plan = busy_plan(&mut random);
        let design = through_file(&design(&mut random, plan));
        let movers = design.movers().len();
        let choices: Vec<u8> =
            (0..random.between(0, 30)).map(|_| random.below(movers) as u8).collect();
        let query = Query::new(&design, property_of(&mut random, &design));
        let answer = replay(query, &choices).unwrap();
        let tested = tested(&design, &choices, &states_of(&design, &choices));
        assert_eq!([answer.events, answer.guards], counted(&tested));
        apart += (answer.events > answer.guards && answer.guards > 0) as u32;
        assert_eq!(replay_by(query, &choices, Tests::All), Ok(answer));
    }
    assert!(apart > 200, "{apart}");
}

/// Counts that are wrong, each by one reading.
fn wrong_counts(design: &Design, choices: &[u8], broken: usize) -> [[u64; 2]; 7] {
    let states = states_of(design, choices);
    let before = tested(design, choices, &states);
    let after = tested(design, choices, &states[1..]);
    let [events, guards] = counted(&before);
    let externals = before.iter().filter(|t| t.is_none()).count() as u64;
    [
        // up to the break only
        counted(&before[..broken]),
        // in the state that the choice leads to
        counted(&after),
        // externals, too
        [events + externals, guards],
        // a guard wherever the status stands
        [events, events],
        // only cells that have a guard
        [events, count(&before, |t| t.status && t.event && t.guard.is_some())],
        // only cells that run
        [events, count(&before, |t| t.status && t.event && t.guard != Some(false))],
        // a guard at any status
        [events, count(&before, |t| t.event)],
    ]
}

/// Each wrong count differs in many generated requests, so a comparison would
/// show it.
#[test]
fn generated_requests_tell_wrong_counts() {
    let mut generator = Generator::new(12, &["replay"]).unwrap();
    let mut told = [0; 7];
    for _ in 0..2_000 {
        let request = generator.request();
        let fields: Vec<&str> = request.split(' ').collect();
        let choices: Vec<u8> = fields[4].split(',').filter_map(|c| c.parse().ok()).collect();
        let Ok(design) = check(&bytes(fields[1]).unwrap()) else { continue };
        let piece = bytes(fields[2]).unwrap();
        let query = Query::new(&design, fields[3].parse().unwrap()).with_piece(&piece);
        let Ok(answer) = replay(query, &choices) else { continue };
        let broken = answer.broken.map_or(choices.len(), |step| step as usize);
        for (told, wrong) in told.iter_mut().zip(wrong_counts(&design, &choices, broken)) {
            *told += (wrong != [answer.events, answer.guards]) as u32;
        }
    }
    assert!(told.iter().all(|&count| count > 100), "{told:?}");
}

/// The design for the times: long events and guards, and one status in 16.
#[test]
fn the_design_of_long_tests() {
    let design = through_file(&long_tests());
    assert_eq!((design.cells.len(), design.movers().len()), (MAX_MOVERS, MAX_MOVERS));
    assert!(design.matrices[0].events.iter().all(|e| boolean_bytes(e).len() == 255));
    for cell in &design.cells {
        let CellKind::Normal { guard: Some(guard), .. } = &cell.kind else { panic!() };
        assert_eq!(boolean_bytes(guard).len(), 222);
    }
    // At status s the cells 4 s to 4 s + 3 stand: the event of the last two is
    // false, the guard of the second is false, and the first goes to s + 1.
    let query = Query::new(&design, INVARIANT);
    assert_eq!(replay(query, &[3, 2, 1, 0, 0, 1, 2, 3, 4, 4, 9, 8]), replayed(None, 7, 5));
    let each_once: Vec<u8> = (0..MAX_MOVERS as u8).collect();
    assert_eq!(replay(query, &each_once), replayed(None, 16, 16));
    let around: Vec<u8> = (0..MAX_BOUND as u8).map(|i| 4 * (i % 16)).collect();
    assert_eq!(replay(query, &around), replayed(None, 100, 100));
}

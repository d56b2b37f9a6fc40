//! The entries of the step rule on Design A: document 01's run, and statuses that are no byte, which the line protocol cannot ask.

use proved::{holds, replay, start, step, Lent};
use reference::builder::file_bytes;
use reference::designs::design_a;
use reference::query::Query;

const REFUSED_STATUS_0: u64 = 11 + 256 * 32;

#[test]
fn the_run_of_document_01() {
    let file = file_bytes(&design_a());
    let query = Query::new(&file[..], 0);
    let mut lent = Lent::FILLED;
    assert_eq!(start(&file, &mut lent), 0);
    assert_eq!(lent, Lent::ZERO);
    for (choice, external, count, status, kept) in [(2, 1, 0, 0, 1), (0, 1, 1, 1, 1), (1, 1, 2, 0, 0)] {
        let (mut idle, mut held) = ([7], [7]);
        assert_eq!(step(&file, &mut lent, choice, &mut idle), 0);
        assert_eq!((lent.values[0], lent.values[1], lent.statuses[0], idle), (external, count, status, [0]));
        assert_eq!(holds(&file, &lent, 0, &mut held), 0);
        assert_eq!(held, [kept]);
    }
    for (choices, expected) in [([2, 0, 1], [1, 3, 2, 2]), ([0, 1, 2], [0, 0, 1, 0])] {
        let mut answer = [7; 4];
        assert_eq!(replay(query, &choices, &mut answer), 0);
        assert_eq!(answer, expected);
    }
}

#[test]
fn a_status_over_a_byte_is_refused() {
    let file = file_bytes(&design_a());
    for status in [2, 255, 256, 257, 65_535] {
        let mut lent = Lent::ZERO;
        lent.statuses[0] = status;
        let (before, mut idle, mut held) = (lent, [7], [7]);
        assert_eq!(step(&file, &mut lent, 0, &mut idle), REFUSED_STATUS_0);
        assert_eq!(holds(&file, &lent, 0, &mut held), REFUSED_STATUS_0);
        assert_eq!((lent, idle, held), (before, [7], [7]));
    }
}

#[test]
fn a_property_is_not_cut_to_a_byte() {
    let file = file_bytes(&design_a());
    let lent = Lent::ZERO;
    for property in [2, 256, 257, 1 << 32, u64::MAX] {
        let query = Query::new(&file[..], property);
        assert_eq!(holds(&file, &lent, property, &mut [7]), 13);
        assert_eq!(replay(query, &[], &mut [7; 4]), 13);
    }
}

#[test]
fn a_choice_is_not_cut_to_a_byte() {
    let file = file_bytes(&design_a());
    for choice in [3, 256, 258, 1 << 32, u64::MAX] {
        let mut lent = Lent::ZERO;
        assert_eq!(step(&file, &mut lent, choice, &mut [7]), 12);
    }
}

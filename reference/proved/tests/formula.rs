//! SIZE, ENCODE, DECODE and VERDICT of the proved archive on Design A: the papers' numbers, and the second implementation's
//! words.

use proved::Proved;
use reference::builder::file_bytes;
use reference::design::Refusal;
use reference::designs::design_a;
use reference::formula::{Formula, Size};
use reference::operations::{Answer, Operations};
use reference::query::Query;
use reference::verdict::{Finding, Lent, Verdict};

fn size(bound: u64) -> Size {
    match Proved.size(Query::new(&file_bytes(&design_a())[..], 0), bound) {
        Answer::Done(size) => size,
        other => panic!("SIZE answered {other:?}"),
    }
}

#[test]
fn sizes_of_design_a() {
    let frame = (22, 81, 3, 378);
    for (bound, numbers) in [(0, (104, 299, 1_050)), (3, (1_556, 5_522, 20_550))] {
        let size = size(bound);
        assert_eq!((size.state_bits, size.property_gates, size.movers, size.step_gates), frame);
        assert_eq!((size.variables, size.clauses, size.words), numbers);
    }
}

#[test]
fn parts_are_the_second_implementations() {
    let (design, bound) = (design_a(), 4);
    let formula = Formula::new(Query::new(&design, 0), bound).unwrap();
    let length = formula.size().words as usize;
    let file = file_bytes(&design);
    for part in 0..=formula.last_part() {
        let (mut words, mut expected) = (vec![7; length], vec![7; length]);
        let count = formula.write_part(part, &mut expected);
        let answer = Proved.encode(Query::new(&file[..], 0), bound, part, &mut words);
        assert_eq!((answer, words), (Answer::Done(count), expected), "part {part}");
    }
}

#[test]
fn properties_and_bounds_are_not_cut_to_a_byte() {
    let file = file_bytes(&design_a());
    let refused = |number| Refusal { number, place: 0 };
    for over in [256, 257, 300, (1 << 32) + 1, u64::MAX] {
        for (property, bound, number) in [(over, 0, 13), (0, over, 14)] {
            let query = Query::new(&file[..], property);
            assert_eq!(Proved.size(query, bound), Answer::Refused(refused(number)));
            assert_eq!(Proved.encode(query, bound, 0, &mut [0; 46]), Answer::Refused(refused(number)));
            assert_eq!(Proved.decode(query, bound, &[0; 104], &mut [0; 100]), Answer::Refused(refused(number)));
            let (clauses, values, trail) = (&mut [0; 1_050], &mut [0; 104], &mut [0; 104]);
            let lent = Lent { clauses, values, trail, choices: &mut [0; 100] };
            assert_eq!(Proved.verdict(query, bound, 0, lent), Answer::Refused(refused(number)));
        }
    }
}

#[test]
fn verdict_of_document_01() {
    let size = size(5);
    let n = size.variables as usize;
    let (mut clauses, mut values, mut trail) = (vec![0; size.words as usize], vec![0; n], vec![0; n]);
    let mut choices = [255; 5];
    let file = file_bytes(&design_a());
    let query = Query::new(&file[..], 0);
    let lent = Lent { clauses: &mut clauses, values: &mut values, trail: &mut trail, choices: &mut choices };
    let answer = Proved.verdict(query, 5, u64::MAX, lent);
    assert_eq!(answer, Answer::Done(Verdict { finding: Finding::Violated(3), tries: 37 }));
    assert_eq!(choices, [2, 0, 1, 255, 255]);
    let mut decoded = [255; 4];
    assert_eq!(Proved.decode(query, 3, &values, &mut decoded), Answer::Done(()));
    assert_eq!(decoded, [2, 0, 1, 255]);
}

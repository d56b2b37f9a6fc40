//! Property 2 of the proved archive on Design A with a constraint: document 02's refusals, and the second implementation's words.

use proved::{holds, replay, start, Lent, Proved};
use reference::builder::file_bytes;
use reference::designs::{design_a, moved, no_idle};
use reference::formula::Formula;
use reference::operations::{Answer, Operations};
use reference::query::{Query, CONSTRAINT};
use reference::verdict::{self, Finding, Verdict};

#[test]
fn holds_refuses_it_in_both_versions() {
    for design in [design_a(), moved()] {
        let file = file_bytes(&design);
        let mut lent = Lent::FILLED;
        assert_eq!(start(&file, &mut lent), 0);
        assert_eq!(holds(&file, &lent, CONSTRAINT, &mut [7]), 13);
        lent.statuses[0] = 2;
        assert_eq!(holds(&file, &lent, CONSTRAINT, &mut [7]), 11 + 256 * 32);
    }
}

#[test]
fn replays_judge_every_step_but_the_first_state() {
    let (moved, no_idle) = (file_bytes(&moved()), file_bytes(&no_idle()));
    for (file, choices, expected) in [
        (&moved, &[2, 0, 1][..], [1, 3, 2, 2]),
        (&moved, &[2, 0, 2], [0, 0, 1, 1]),
        (&no_idle, &[], [0, 0, 0, 0]),
        (&no_idle, &[0], [1, 1, 1, 0]),
        (&no_idle, &[1, 1], [1, 2, 0, 0]),
    ] {
        let mut answer = [7; 4];
        assert_eq!(replay(Query::new(&file[..], CONSTRAINT), choices, &mut answer), 0);
        assert_eq!(answer, expected, "{choices:?}");
    }
    assert_eq!(replay(Query::new(&file_bytes(&design_a())[..], CONSTRAINT), &[], &mut [7; 4]), 13);
    assert_eq!(replay(Query::new(&moved[..], CONSTRAINT + 1), &[], &mut [7; 4]), 13);
}

#[test]
fn parts_are_the_second_implementations() {
    let design = moved();
    let file = file_bytes(&design);
    for bound in 0..=3 {
        let formula = Formula::new(Query::new(&design, CONSTRAINT), bound).unwrap();
        let length = formula.size().words as usize;
        assert_eq!(Proved.size(Query::new(&file[..], CONSTRAINT), bound), Answer::Done(formula.size()));
        for part in 0..=formula.last_part() {
            let (mut words, mut expected) = (vec![7; length], vec![7; length]);
            let count = formula.write_part(part, &mut expected);
            let answer = Proved.encode(Query::new(&file[..], CONSTRAINT), bound, part, &mut words);
            assert_eq!((answer, words), (Answer::Done(count), expected), "bound {bound}, part {part}");
        }
    }
}

#[test]
fn verdicts() {
    let file = file_bytes(&moved());
    let (words, n) = (22_103, 1_673);
    for (bound, finding, tries) in [(0, Finding::Clean, 0), (2, Finding::Clean, 4), (3, Finding::Violated(3), 13)] {
        let mut choices = [255; 3];
        let lent = verdict::Lent {
            clauses: &mut vec![0; words],
            values: &mut vec![0; n],
            trail: &mut vec![0; n],
            choices: &mut choices,
        };
        let answer = Proved.verdict(Query::new(&file[..], CONSTRAINT), bound, u64::MAX, lent);
        assert_eq!(answer, Answer::Done(Verdict { finding, tries }));
        assert_eq!(choices, if bound == 3 { [2, 0, 1] } else { [255; 3] });
    }
}

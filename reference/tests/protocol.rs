//! The line protocol, and the generator of its requests.

use reference::builder::file_bytes;
use reference::designs::{barrier, branch_taken, design_a, minus_three, most_gates, moved};
use reference::generator::{all_operations, Generator};
use reference::operations::{Operations, Reference};
use reference::protocol::{hex, reply, serve};
use std::collections::BTreeSet;

fn answer(request: &str) -> String {
    reply(&mut Reference, request)
}

fn with_design(request: &str) -> String {
    answer(&request.replace('D', &hex(&file_bytes(&design_a()))))
}

const ZEROS: &str = "0,0,0,0,0,0,0,0,0,0,0,0,0,0,0,0,0,0,0,0,0,0,0,0,0,0,0,0,0,0,0,0";

#[test]
fn one_reply_of_each_operation() {
    let rest = &ZEROS[1..];
    let none = "0,0,0,0,0,0,0,0";
    assert_eq!(with_design("check D"), "ok");
    assert_eq!(with_design("start D"), format!("ok {ZEROS} {none} 0"));
    let step = |mark: u16| with_design(&format!("step D {ZEROS} {none} {mark} 2"));
    assert_eq!(step(0), format!("ok 1{rest} {none} 0 0"));
    assert_eq!(step(1), format!("ok 1{rest} {none} 1 0"));
    let holds = |mark: u16| with_design(&format!("holds D {ZEROS} {none} {mark} 0"));
    assert_eq!([holds(0), holds(1)], ["ok 1", "ok 0"]);
    for mark in [2, 255, 256, 65_535] {
        assert_eq!([step(mark), holds(mark)], ["refused 11 at 40"; 2]);
    }
    assert_eq!(with_design("replay D - 0 2,0,1"), "ok 3 2 2");
    assert_eq!(with_design("replay D - 0 -"), "ok none 0 0");
    assert_eq!(with_design("size D - 0 3"), "ok 22 81 3 378 1556 5522 20550");
    assert_eq!(with_design("trace D - 0 -"), "0 - 0 1 0 0 | 0;holds");
    assert!(with_design("encode D - 0 3 5 6").starts_with("ok 5 -104,-588,-1072,-1556,0 mem "));
    assert!(answer("solve 2 1,0 2 2 9").starts_with("ok sat 1 1,0 mem "));
    assert!(answer("refute 2 1,0,-1,0 2,0,0 2").starts_with("ok accepted mem "));
    assert!(with_design("verdict D - 0 0 0 1050 104 104 0").starts_with("ok clean 0 mem "));
}

/// The hash of no bytes, and of the byte 11, by the definition of FNV-1a.
#[test]
fn memory_hashes() {
    let empty = "cbf29ce484222325";
    assert_eq!(answer("solve 0 - 0 0 0"), format!("ok sat 0 - mem {empty} {empty}"));
    let one = (0xcbf2_9ce4_8422_2325u64 ^ 11).wrapping_mul(0x0000_0100_0000_01b3);
    let refused = format!("refused 16 at 0 mem {one:016x} {empty}");
    assert_eq!(answer("solve 1 - 1 0 0"), refused);
}

#[test]
fn a_refusal_has_a_number_and_a_place() {
    assert_eq!(answer("check -"), "refused 1 at 0");
    assert_eq!(answer("check 00"), "refused 1 at 1");
    assert_eq!(with_design("replay D - 0 0,3"), "refused 12 at 1");
}

/// The examples of docs/PROTOCOL.md, as they stand there.
#[test]
fn the_examples_of_the_document() {
    for (start, design, count) in [
        ("With the file of Design A as D (", design_a(), 9),
        ("With the file of `designs/moved.stm`", moved(), 6),
        ("With the file of `designs/minus-three.stm`", minus_three(), 5),
        ("With the file of `designs/most-gates.stm`", most_gates(), 7),
        ("With the file of `designs/branch-taken.stm`", branch_taken(), 3),
        ("With the file of `designs/barrier.stm`", barrier(), 4),
        ("With the file of Design A as D, and pieces", design_a(), 11),
    ] {
        let examples = examples(start);
        for [request, expected] in &examples {
            let with_file = request.replace('D', &hex(&file_bytes(&design)));
            assert_eq!(answer(&with_file), *expected, "{request}");
        }
        assert_eq!(examples.len(), count);
    }
}

/// The rows of requests and replies after the line that starts so.
fn examples(start: &str) -> Vec<[&'static str; 2]> {
    let document = include_str!("../../docs/PROTOCOL.md");
    let section = document.lines().skip_while(|line| !line.starts_with(start)).skip(1);
    let rows = section.take_while(|line| !line.starts_with("With "));
    let fields = rows.filter(|line| line.starts_with("| `")).map(|row| row.split('`').collect());
    fields
        .map(|fields: Vec<&str>| match fields[..] {
            [_, request, _, expected, _] => [request, expected],
            _ => panic!("{fields:?}"),
        })
        .collect()
}

#[test]
fn the_examples_of_refutations_in_the_document() {
    const LIST: &str = "1,2,0,1,-2,0,-1,2,0,-1,-2,0";
    let examples = examples(&format!("With `{LIST}` as L"));
    for [request, expected] in &examples {
        assert_eq!(answer(&request.replace('L', LIST)), *expected, "{request}");
    }
    assert_eq!(examples.len(), 13);
}

/// They stand as lines by turns, since a reply has bars.
#[test]
fn the_examples_of_owners_in_the_document() {
    let document = include_str!("../../docs/PROTOCOL.md");
    let start = "With the file of Design A as D, and owners";
    let section = document.lines().skip_while(|line| !line.starts_with(start));
    let lines: Vec<&str> = section.filter_map(|line| line.strip_prefix("    ")).collect();
    assert_eq!(lines.len(), 2 * 6);
    for pair in lines.chunks(2) {
        assert_eq!(with_design(pair[0]), pair[1], "{}", pair[0]);
    }
}

#[test]
fn leading_zeros_and_signs() {
    assert_eq!(with_design("size D - 01 003"), with_design("size D - 1 3"));
    assert_eq!(with_design("replay D - 0 02,000,1"), "ok 3 2 2");
    assert_eq!(answer("solve 01 -01,-0,00 1 1 09"), answer("solve 1 -1,0,0 1 1 9"));
    let negative = ZEROS.replacen('0', "-0", 1);
    assert_eq!(with_design(&format!("holds D {negative} 0,0,0,0,0,0,0,0 00 0")), "ok 1");
}

/// No property and no bound is cut to a byte.
#[test]
fn properties_and_bounds_over_a_byte() {
    let none = "0,0,0,0,0,0,0,0";
    for number in ["256", "257", "300", "4294967297", "18446744073709551615"] {
        let hash = "cbf29ce484222325";
        for (request, refused) in [
            (format!("holds D {ZEROS} {none} 0 {number}"), "refused 13 at 0"),
            (format!("replay D - {number} -"), "refused 13 at 0"),
            (format!("size D - {number} 101"), "refused 13 at 0"),
            (format!("size D - 0 {number}"), "refused 14 at 0"),
            (format!("encode D - 0 {number} 0 0"), &format!("refused 14 at 0 mem {hash}")),
            (format!("decode D - 1 {number} - 0"), &format!("refused 14 at 0 mem {hash}")),
            (
                format!("verdict D - 0 {number} 0 0 0 0 0"),
                &format!("refused 14 at 0 mem {hash} {hash} {hash} {hash}"),
            ),
        ] {
            assert_eq!(with_design(&request), refused, "{request}");
        }
    }
}

#[test]
fn malformed_requests() {
    let (none, more) = ("0,0,0,0,0,0,0,0", format!("{ZEROS},0"));
    for request in [
        format!("holds - {more} {none} 0 0"),
        format!("holds - {ZEROS} 0,{none} 0 0"),
        format!("holds - {} {none} 0 0", ZEROS.replacen('0', "32768", 1)),
        format!("holds - {ZEROS} 256{} 0 0", &none[1..]),
        format!("holds - {ZEROS} {none} 0"),
        format!("holds - {ZEROS} {none} - 0"),
        format!("holds - {ZEROS} {none} -1 0"),
        format!("holds - {ZEROS} {none} 65536 0"),
        format!("step - {ZEROS} {none} 0"),
        format!("step - {ZEROS} {none} 65536 0"),
        format!("trace - - 0 {}", &"0,".repeat(256)[..511]),
    ] {
        assert_eq!(answer(&request), "error", "{request}");
    }
    for request in [
        "",
        " ",
        "check -\r",
        "check - ",
        " check -",
        "solve -0 - 1 1 0",
        "solve 1 --1,0 1 1 0",
        "solve 1 - 1 1 18446744073709551616",
        "solve 1 - 268435457 1 0",
        "check",
        "check ",
        "check 0",
        "check 0G",
        "check AB",
        "check 00 00",
        "check  00",
        "unknown 00",
        "solve 1 - 1 1",
        "solve -1 - 1 1 0",
        "solve 1 1,,0 1 1 0",
        "solve 1 +1,0 1 1 0",
        "solve 1 9999999999,0 1 1 0",
        "refute 1 - -",
        "refute 1 - - 1 1",
        "refute -1 - - 1",
        "refute 18446744073709551616 - - 1",
        "refute 1 1,0 2147483648,0 1",
        "refute 1 1,,0 - 1",
        "refute 1 -  1",
        "refute 1 - - 268435457",
        "size 00 - 18446744073709551616 0",
        "size 00 - 0 18446744073709551616",
        "trace 00 - 256 -",
        "size 00 0 0",
        "size 00 0 0 0",
        "size 00 AB 0 0",
        "size 00  0 0",
        "size 00 00 - 0",
        "replay 00 0 -",
        "verdict 00 0 0 0 0 0 0 0",
        "size 00 - 0 -1",
        "replay 00 - 0 256",
        "replay 00 - 0 1,",
        "step 00 0 0 0",
        "encode 00 - 0 0 0 99999999999999",
        "owners 00",
        "owners 00 0",
        "owners 00 0 0 0",
        "owners 00 0 0 0 0 ",
        "owners 00 0 0 0 0 -",
        "owners 00 0 0 0 0 -:0",
        "owners 00 0 0 0 0 -:0:0:0",
        "owners 00 0 0 0 0 :0:0",
        "owners 00 0 0 0 0 AB:0:0",
        "owners 00 0 0 0 0 -::0",
        "owners 00 0 0 0 0 -:-1:0",
        "owners 00 0 0 0 0 -:18446744073709551616:0",
        "owners 00 0 0 0 0 -:0:268435457",
        "owners 00 0 268435457 0 0",
        "owners 00 18446744073709551616 0 0 0",
        "owners 0 0 0 0 0 -:0:0",
        "owners 00 0 0 0 0 -:0:0  -:0:0",
        "owners 00 0 0 0 0 -:0:0 -:0:0 -:0:0 -:0:0 x",
    ] {
        assert_eq!(answer(request), "error", "{request}");
    }
}

struct Nothing;

impl Operations for Nothing {}

#[test]
fn a_missing_operation_is_an_error() {
    let mut generator = Generator::new(9, &all_operations()).unwrap();
    for _ in 0..300 {
        assert_eq!(reply(&mut Nothing, &generator.request()), "error");
    }
}

#[test]
fn a_reply_a_line() {
    let mut output = vec![];
    serve(&mut Reference, &b"check -\n\ncheck 00"[..], &mut output).unwrap();
    assert_eq!(output, b"refused 1 at 0\nerror\nrefused 1 at 1\n");
}

#[test]
fn the_generator_repeats_itself_by_seed() {
    let requests = |seed| {
        let mut generator = Generator::new(seed, &all_operations()).unwrap();
        (0..200).map(|_| generator.request()).collect::<Vec<_>>()
    };
    assert_eq!(requests(1), requests(1));
    assert_ne!(requests(1), requests(2));
    assert!(Generator::new(1, &["check", "unknown"]).is_none());
    assert!(Generator::new(1, &[]).is_none());
}

#[test]
fn generated_requests_are_well_formed_and_reach_every_refusal() {
    let mut generator = Generator::new(2, &all_operations()).unwrap();
    let mut numbers = BTreeSet::new();
    for _ in 0..5_000 {
        let request = generator.request();
        let reply = answer(&request);
        assert_ne!(reply, "error", "{request}");
        if let Some(rest) = reply.strip_prefix("refused ") {
            numbers.insert(rest.split(' ').next().unwrap().parse::<u8>().unwrap());
        }
    }
    assert_eq!(numbers, (1..=20).collect());
}

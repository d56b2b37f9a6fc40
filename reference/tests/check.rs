//! CHECK: each refusal, its place, and the order of refusals.

use reference::builder::{boolean_bytes, file_bytes, file_with_places, list_bytes};
use reference::design::{
    check, Boolean, Cell, CellKind, Design, Integer, Kind, Matrix, Statement, Variable, MAX_FILE,
};
use reference::designs::{design_a, money_changer, Property, Version};

fn number(bytes: &[u8]) -> (u8, u64) {
    check(bytes).map_or_else(|r| (r.number, r.place), |_| (0, 0))
}

/// Design A with one byte changed. Its items: variables at 0 and 3, a matrix
/// at 6, an event at 8, cells at 11 and 28, the invariant at 51, the trailer
/// at 57.
fn changed(changes: &[(usize, u8)]) -> Vec<u8> {
    let mut file = file_bytes(&design_a());
    for &(at, byte) in changes {
        file[at] = byte;
    }
    file
}

fn refused(changes: &[(usize, u8)]) -> (u8, u64) {
    number(&changed(changes))
}

fn with_invariant(bytes: &[u8]) -> Vec<u8> {
    let file = file_bytes(&design_a());
    [&file[..51], bytes, &file[57..]].concat()
}

fn with_action(action: &[u8]) -> Vec<u8> {
    let file = file_bytes(&design_a());
    let mut changed = [&file[..19], action, &file[28..]].concat();
    changed[17] = action.len() as u8;
    let trailer = changed.len() - 16;
    changed[trailer + 14] = (51 + action.len() - 9) as u8;
    changed
}

fn with_event(event: &[u8]) -> Vec<u8> {
    let file = file_bytes(&design_a());
    let mut changed = [&file[..8], &[event.len() as u8], event, &file[11..]].concat();
    let trailer = changed.len() - 16;
    let moved = event.len() as u8;
    changed[trailer + 10] = 9 + moved;
    changed[trailer + 14] = 49 + moved;
    changed
}

#[test]
fn design_a_lies_as_described() {
    let (file, places) = file_with_places(&design_a());
    assert_eq!(places.cells, [11, 28]);
    assert_eq!((places.events[0], places.invariant, places.trailer), (8, 51, 57));
    assert_eq!(number(&file), (0, 0));
}

#[test]
fn length_1() {
    for length in [0, 15, MAX_FILE + 1] {
        assert_eq!(number(&vec![0; length]), (1, length as u64));
    }
    assert_eq!(number(&[0; 16]), (2, 0));
    assert_eq!(number(&[0; MAX_FILE]), (2, MAX_FILE as u64 - 16));
}

#[test]
fn version_2_and_counts_3() {
    assert_eq!(refused(&[(57, 0)]), (2, 57));
    assert_eq!(refused(&[(57, 3)]), (2, 57));
    assert_eq!(refused(&[(58, 1)]), (2, 57));
    assert_eq!(refused(&[(59, 33)]), (3, 57));
    assert_eq!(refused(&[(63, 0)]), (3, 57));
    assert_eq!(refused(&[(63, 9)]), (3, 57));
    assert_eq!(refused(&[(69, 1), (70, 1)]), (3, 57));
    assert_eq!(refused(&[(57, 3), (63, 0)]), (2, 57));
    // 256 cells are no fault of the count: the third one passes the trailer.
    assert_eq!(refused(&[(69, 0), (70, 1)]), (4, 51));
}

#[test]
fn items_are_variables_matrices_events_cells_invariant() {
    assert_eq!(refused(&[(3, 3)]), (5, 3));
    assert_eq!(refused(&[(7, 17)]), (6, 6));
    assert_eq!(refused(&[(9, 0x12)]), (8, 8));
    // A fault in a guard or an action lies at its cell.
    assert_eq!(refused(&[(36, 0x17)]), (8, 28));
    assert_eq!(refused(&[(43, 0x22)]), (9, 28));
    assert_eq!(refused(&[(51, 0x17)]), (8, 51));
}

#[test]
fn variables_5() {
    assert_eq!(refused(&[(0, 3)]), (5, 0));
    assert_eq!(refused(&[(1, 2)]), (5, 0));
    assert_eq!(refused(&[(1, 1)]), (0, 0));
    assert_eq!(refused(&[(1, 0xff), (2, 0xff)]), (5, 0));
    assert_eq!(refused(&[(4, 0xff), (5, 0xff)]), (0, 0));
}

#[test]
fn matrices_6() {
    for (at, byte) in [(6, 0), (6, 17), (7, 0), (7, 17)] {
        assert_eq!(refused(&[(at, byte)]), (6, 6));
    }
}

#[test]
fn section_offsets_4_when_reading_arrives_there() {
    for (field, place) in [(61, 6), (65, 8), (67, 11), (71, 51)] {
        let right = file_bytes(&design_a())[field];
        for wrong in [right - 1, right + 1] {
            assert_eq!(refused(&[(field, wrong)]), (4, place));
        }
    }
    // A bad variable comes before a wrong matrices offset, a bad matrix after.
    assert_eq!(refused(&[(3, 3), (61, 5)]), (5, 3));
    assert_eq!(refused(&[(6, 0), (61, 5)]), (4, 6));
    assert_eq!(refused(&[(6, 0), (65, 5)]), (6, 6));
}

#[test]
fn empty_section_has_its_offset_tested() {
    let mut design = design_a();
    design.cells.clear();
    let (file, places) = file_with_places(&design);
    assert_eq!(number(&file), (0, 0));
    let mut wrong = file.clone();
    wrong[places.trailer + 10] += 1;
    assert_eq!(number(&wrong), (4, places.invariant as u64));
    design.variables.clear();
    design.matrices[0].events = vec![Boolean::Constant(true)];
    design.invariant = Boolean::Constant(true);
    let (mut file, places) = file_with_places(&design);
    assert_eq!(number(&file), (10, file.len() as u64));
    file[places.trailer + 4] = 1;
    assert_eq!(number(&file), (4, 0));
}

#[test]
fn items_passing_the_trailer_4() {
    let short = |length: usize| {
        let file = file_bytes(&design_a());
        [&file[..length], &file[57..]].concat()
    };
    assert_eq!(number(&short(2)), (4, 0));
    assert_eq!(number(&short(5)), (4, 3));
    assert_eq!(number(&short(7)), (4, 6));
    assert_eq!(number(&short(8)), (4, 8));
    assert_eq!(number(&short(10)), (4, 8));
    assert_eq!(number(&short(11)), (4, 11));
    assert_eq!(number(&short(18)), (4, 11));
    assert_eq!(number(&short(27)), (4, 11));
    assert_eq!(number(&short(28)), (4, 28));
    assert_eq!(number(&short(50)), (4, 28));
    // The invariant runs up to the trailer, so an empty one is 8.
    assert_eq!(number(&short(51)), (8, 51));
}

#[test]
fn within_a_cell_lengths_come_first_then_fields_guard_action() {
    // Action length 256 passes the trailer, even with a bad kind.
    assert_eq!(refused(&[(35, 1), (31, 9)]), (4, 28));
    assert_eq!(refused(&[(31, 9), (36, 0x17), (42, 9)]), (7, 28));
    assert_eq!(refused(&[(36, 0x17), (43, 0x22)]), (8, 28));
    assert_eq!(refused(&[(43, 0x22)]), (9, 28));
}

#[test]
fn cell_fields_7() {
    for (at, byte) in [(11, 1), (12, 2), (13, 1), (14, 2), (15, 2)] {
        assert_eq!(refused(&[(at, byte)]), (7, 11));
    }
}

#[test]
fn invalid_cell_fields_7() {
    let design = money_changer(Version::Original, Property::Uic1);
    let (file, places) = file_with_places(&design);
    let cell = places.cells[3];
    assert_eq!(file[cell + 3], 1);
    let mut target = file.clone();
    target[cell + 4] = 1;
    assert_eq!(number(&target), (7, cell as u64));
    for length in [5, 6] {
        let mut lengthened = file.clone();
        lengthened[cell + length] = 1;
        assert_eq!(number(&lengthened), (7, cell as u64));
    }
}

#[test]
fn cell_order_7() {
    // Both at (0,0,0): normal cells may share a place.
    assert_eq!(refused(&[(29, 0)]), (0, 0));
    assert_eq!(refused(&[(12, 1), (29, 0)]), (7, 28));
    let place = |status, kind| Cell { matrix: 0, status, event: 0, kind };
    let normal = || CellKind::Normal { target: 0, guard: None, action: vec![] };
    let cells = |cells: Vec<Cell>| number(&file_bytes(&Design { cells, ..design_a() }));
    let invalid = || CellKind::Invalid;
    assert_eq!(cells(vec![place(0, invalid()), place(0, normal())]), (7, 19));
    assert_eq!(cells(vec![place(0, normal()), place(0, invalid())]), (7, 20));
    assert_eq!(cells(vec![place(0, invalid()), place(0, invalid())]), (7, 19));
    assert_eq!(cells(vec![place(0, invalid()), place(1, normal())]), (0, 0));
}

#[test]
fn expressions_8() {
    let bad: [&[u8]; 16] = [
        &[],
        &[0x00],
        &[0x10, 2],
        &[0x10],
        &[0x11, 2],
        &[0x11, 1],
        &[0x01, 0, 0],
        &[0x12],
        &[0x13, 0x10, 1],
        &[0x12, 0x01, 0, 0],
        &[0x15, 0x10, 1, 0x10, 1],
        &[0x15, 0x02, 0, 0x02, 1],
        &[0x16, 0x03, 1, 0x02, 1],
        &[0x10, 1, 0x10],
        &[0x17, 0x10, 1],
        &[0x15, 0x01, 0, 0x01, 0, 0],
    ];
    for bytes in bad {
        assert_eq!(number(&with_invariant(bytes)), (8, 51), "{bytes:x?}");
        assert_eq!(number(&with_event(bytes)), (8, 8), "{bytes:x?}");
    }
    let good: [&[u8]; 6] = [
        &[0x10, 0],
        &[0x11, 0],
        &[0x12, 0x11, 0],
        &[0x14, 0x10, 1, 0x13, 0x10, 0, 0x10, 1],
        &[0x15, 0x03, 0, 0x05, 0x02, 1, 0x01, 0xff, 0xff],
        &[0x16, 0x04, 0x02, 1, 0x02, 1, 0x01, 0, 0x80],
    ];
    for bytes in good {
        assert_eq!(number(&with_invariant(bytes)), (0, 0), "{bytes:x?}");
        assert_eq!(number(&with_event(bytes)), (0, 0), "{bytes:x?}");
    }
}

#[test]
fn actions_9() {
    let bad: [&[u8]; 12] = [
        &[],
        &[1],
        &[0, 0],
        &[1, 0x22],
        &[1, 0x20, 2, 0x10, 1],
        &[1, 0x20, 0, 0x01, 0, 0],
        &[1, 0x20, 1, 0x10, 1],
        &[1, 0x20, 0, 0x10, 2],
        &[1, 0x21, 0x01, 0, 0, 0, 0],
        &[1, 0x21, 0x10, 1, 0],
        &[2, 0x20, 0, 0x10, 1],
        &[1, 0x20, 0, 0x10, 1, 0],
    ];
    for bytes in bad {
        assert_eq!(number(&with_action(bytes)), (9, 11), "{bytes:x?}");
    }
    let good: [&[u8]; 4] = [
        &[0],
        &[1, 0x20, 0, 0x10, 1],
        &[1, 0x21, 0x11, 0, 0, 0],
        &[2, 0x20, 1, 0x01, 0, 0x80, 0x21, 0x10, 1, 1, 0x20, 0, 0x11, 0, 0],
    ];
    for bytes in good {
        assert_eq!(number(&with_action(bytes)), (0, 0), "{bytes:x?}");
    }
}

fn deep(depth: usize) -> Boolean {
    match depth {
        1 => Boolean::Constant(true),
        _ => Boolean::Not(Box::new(deep(depth - 1))),
    }
}

fn deep_integer(depth: usize) -> Integer {
    match depth {
        1 => Integer::Constant(1),
        _ => Integer::Sum(Box::new(Integer::Constant(1)), Box::new(deep_integer(depth - 1))),
    }
}

fn nested(ifs: usize, in_else: bool) -> Vec<Statement> {
    if ifs == 0 {
        return vec![];
    }
    let (inner, empty) = (nested(ifs - 1, in_else), vec![]);
    let (then, other) = if in_else { (empty, inner) } else { (inner, empty) };
    vec![Statement::If(Boolean::Constant(true), then, other)]
}

#[test]
fn depth_16_and_17() {
    assert_eq!(number(&with_invariant(&boolean_bytes(&deep(16)))), (0, 0));
    assert_eq!(number(&with_invariant(&boolean_bytes(&deep(17)))), (8, 51));
    let equal = |depth: usize| Boolean::Equal(Integer::Constant(0), deep_integer(depth - 1));
    assert_eq!(number(&with_invariant(&boolean_bytes(&equal(16)))), (0, 0));
    assert_eq!(number(&with_invariant(&boolean_bytes(&equal(17)))), (8, 51));
    let assign = |depth| list_bytes(&[Statement::AssignInteger(1, deep_integer(depth))]);
    assert_eq!(number(&with_action(&assign(16))), (0, 0));
    assert_eq!(number(&with_action(&assign(17))), (9, 11));
}

#[test]
fn four_and_five_nested_ifs() {
    for in_else in [false, true] {
        assert_eq!(number(&with_action(&list_bytes(&nested(4, in_else)))), (0, 0));
        assert_eq!(number(&with_action(&list_bytes(&nested(5, in_else)))), (9, 11));
    }
    // Ifs beside one another do not nest.
    let beside: Vec<Statement> = (0..6).flat_map(|_| nested(4, false)).collect();
    assert_eq!(number(&with_action(&list_bytes(&beside))), (0, 0));
}

#[test]
fn movers_10_come_last() {
    let design = |externals: usize, invariant| Design {
        variables: vec![Variable { kind: Kind::External, initial: 1 }; externals],
        matrices: vec![Matrix { statuses: 1, events: vec![Boolean::Constant(true)] }],
        cells: vec![],
        invariant,
        constraint: None,
    };
    let file = |externals, invariant| file_bytes(&design(externals, invariant));
    let none = file(0, Boolean::Constant(true));
    assert_eq!(number(&none), (10, none.len() as u64));
    assert_eq!(number(&file(0, Boolean::Variable(0))), (8, none.len() as u64 - 18));
    assert_eq!(number(&file(1, Boolean::Constant(true))), (0, 0));
    let cell = Cell {
        matrix: 0,
        status: 0,
        event: 0,
        kind: CellKind::Normal { target: 0, guard: None, action: vec![] },
    };
    for (cells, expected) in [(32, 0), (33, 10)] {
        let cells = vec![cell.clone(); cells];
        let wide = Design { cells, ..design(32, Boolean::Constant(true)) };
        assert_eq!(number(&file_bytes(&wide)).0, expected);
    }
}

#[test]
fn largest_file_is_accepted() {
    let mut random = reference::random::Random::new(1);
    let mut design = design_a();
    reference::generator::trees::lengthen(&mut random, &mut design, MAX_FILE);
    let file = file_bytes(&design);
    assert_eq!(file.len(), MAX_FILE);
    assert_eq!(check(&file), Ok(design));
}

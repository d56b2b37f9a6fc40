//! Counters that pass the end, document 02: the mark in steps, properties and formulas.

mod support;

use reference::builder::file_bytes;
use reference::design::{Boolean, CellKind, Design, Integer, Mover, Refusal, Statement};
use reference::designs::terms::*;
use reference::designs::{design_a, moved};
use reference::formula::{size, Size};
use reference::generator::counters::counter_design;
use reference::generator::trees::{any_plan, design, number as any_number};
use reference::models::models;
use reference::programs::replay_output;
use reference::query::{Query, CONSTRAINT, INVARIANT, NO_INVALID_CELL};
use reference::random::Random;
use reference::step::{holds, replay, start, step, State, Stepped};
use reference::verdict::Finding;
use support::*;

const MIN: i16 = i16::MIN;
const MAX: i16 = i16::MAX;
/// The variables of `acting`.
const X: u8 = 0;
const B: u8 = 1;

/// x, a Boolean b and one mover. Every property is true but for the mark.
fn acting(initial: i16, action: Vec<Statement>) -> Design {
    Design {
        variables: vec![integer_from(initial), boolean_from(false)],
        matrices: vec![matrix(1, vec![truth(true)])],
        cells: vec![normal((0, 0, 0), 0, None, action)],
        invariant: truth(true),
        constraint: Some(truth(true)),
    }
}

fn x() -> Integer {
    number(X)
}

/// x + 1, which passes the end where x is 32,767.
fn up() -> Integer {
    plus(x(), constant(1))
}

/// Where x is 32,767: true, and its sum passes the end.
fn passes_up() -> Boolean {
    less(up(), constant(0))
}

fn moved_once(design: &Design) -> Stepped {
    let design = through_file(design);
    step(&design, &start(&design), 0).unwrap()
}

/// x and the mark after one step.
fn after(initial: i16, action: Vec<Statement>) -> (i16, u16) {
    let state = moved_once(&acting(initial, action)).state;
    (state.values[X as usize], state.mark)
}

fn mark(initial: i16, action: Vec<Statement>) -> u16 {
    after(initial, action).1
}

fn refused<T>(number: u8, place: u64) -> Result<T, Refusal> {
    Err(Refusal { number, place })
}

#[test]
fn sums_and_differences_mark_past_both_ends() {
    let assigned = |initial, e| after(initial, vec![assign_integer(X, e)]);
    for (initial, e, expected) in [
        (MAX, up(), (MIN, 1)),
        (MAX - 1, up(), (MAX, 0)),
        (MAX, plus(x(), constant(0)), (MAX, 0)),
        (MAX, plus(constant(MIN), x()), (-1, 0)),
        (MAX, plus(x(), x()), (-2, 1)),
        (MIN, plus(x(), x()), (0, 1)),
        (MIN, plus(x(), constant(-1)), (MAX, 1)),
        (MIN, minus(x(), constant(1)), (MAX, 1)),
        (MIN + 1, minus(x(), constant(1)), (MIN, 0)),
        (MIN, minus(x(), x()), (0, 0)),
        (MIN, minus(constant(0), x()), (MIN, 1)),
        (MIN, minus(constant(-1), x()), (MAX, 0)),
        (MIN + 1, minus(constant(0), x()), (MAX, 0)),
        (MAX, minus(x(), constant(-1)), (MIN, 1)),
        (MAX, minus(constant(-2), x()), (MAX, 1)),
    ] {
        assert_eq!(assigned(initial, e.clone()), expected, "{initial}: {e:?}");
    }
}

#[test]
fn products_mark_past_both_ends() {
    for (c, a, expected) in [
        (-1, MIN, (MIN, 1)),
        (-1, MIN + 1, (MAX, 0)),
        (-1, MAX, (MIN + 1, 0)),
        (0, MIN, (0, 0)),
        (1, MIN, (MIN, 0)),
        (1, MAX, (MAX, 0)),
        (2, 16_383, (32_766, 0)),
        (2, 16_384, (MIN, 1)),
        (2, -16_384, (MIN, 0)),
        (2, -16_385, (32_766, 1)),
        (-2, 16_384, (MIN, 0)),
        (-2, -16_384, (MIN, 1)),
        (3, 10_922, (32_766, 0)),
        (3, 10_923, (-32_767, 1)),
        (-3, 10_922, (-32_766, 0)),
        (-3, 10_923, (32_767, 1)),
        (MIN, 0, (0, 0)),
        (MIN, 1, (MIN, 0)),
        (MIN, -1, (MIN, 1)),
        (MIN, 2, (0, 1)),
        (MIN, MIN, (0, 1)),
        (MAX, -1, (-MAX, 0)),
        (MAX, 2, (-2, 1)),
        (MAX, MAX, (1, 1)),
    ] {
        let found = after(a, vec![assign_integer(X, times(c, x()))]);
        assert_eq!(found, expected, "{c} times {a}");
    }
}

/// What an operation takes is already wrapped: one that passes the end marks, though the next comes back.
#[test]
fn each_operation_is_judged_by_itself() {
    for (initial, e, expected) in [
        (MAX, minus(up(), constant(1)), (MAX, 1)),
        (MAX, plus(minus(x(), constant(1)), constant(1)), (MAX, 0)),
        (MAX, plus(constant(-1), up()), (MAX, 1)),
        // 2 times 16,384 wraps to -32,768, which 0 takes to 0.
        (16_384, times(0, times(2, x())), (0, 1)),
        // -32,768 times -1 is -32,768 again.
        (MIN, times(-1, times(-1, x())), (MIN, 1)),
    ] {
        assert_eq!(after(initial, vec![assign_integer(X, e.clone())]), expected, "{e:?}");
    }
}

#[test]
fn both_sides_of_a_condition_count() {
    let quiet = |initial, e: Boolean| mark(initial, vec![when(e, vec![], vec![])]);
    for e in [
        passes_up(),
        not(passes_up()),
        and(truth(false), passes_up()),
        and(passes_up(), truth(false)),
        or(truth(true), passes_up()),
        or(passes_up(), truth(true)),
        equal(up(), constant(5)),
        equal(constant(5), up()),
        less(constant(5), up()),
        less(times(2, x()), x()),
    ] {
        assert_eq!((quiet(MAX, e.clone()), quiet(5, e.clone())), (1, 0), "{e:?}");
        let assigned = |initial| mark(initial, vec![assign_boolean(B, e.clone())]);
        assert_eq!((assigned(MAX), assigned(5)), (1, 0), "{e:?}");
    }
}

/// Neither a comparison nor a difference that it might be worked out by.
#[test]
fn less_and_equal_never_mark() {
    for (a, b) in [(MIN, MAX), (MAX, MIN), (MAX, -1), (MIN, 1)] {
        for e in [less(x(), constant(b)), less(constant(b), x()), equal(x(), constant(b))] {
            assert_eq!(mark(a, vec![assign_boolean(B, e.clone())]), 0, "{e:?}");
            assert_eq!(mark(a, vec![when(e.clone(), vec![], vec![])]), 0, "{e:?}");
        }
    }
}

#[test]
fn a_branch_that_is_not_taken_does_not_mark() {
    let count = || vec![assign_integer(X, up())];
    let nothing = Vec::new;
    for (action, expected) in [
        (when(truth(false), count(), nothing()), 0),
        (when(truth(true), nothing(), count()), 0),
        (when(truth(true), count(), nothing()), 1),
        (when(truth(false), nothing(), count()), 1),
        // The condition marks, whatever its lists do.
        (when(passes_up(), nothing(), count()), 1),
        (when(not(passes_up()), count(), nothing()), 1),
        // Inside a list that is not taken, conditions are not carried out either.
        (when(truth(false), vec![when(passes_up(), nothing(), nothing())], nothing()), 0),
        (when(truth(true), vec![when(passes_up(), nothing(), nothing())], nothing()), 1),
    ] {
        assert_eq!(mark(MAX, vec![action.clone()]), expected, "{action:?}");
    }
}

/// Later statements read what earlier ones left: the second one comes back, the first one stays marked.
#[test]
fn the_mark_goes_from_statement_to_statement() {
    let down = || assign_integer(X, minus(x(), constant(1)));
    let count = || assign_integer(X, up());
    assert_eq!(after(MAX, vec![count(), down()]), (MAX, 1));
    assert_eq!(after(MAX, vec![down(), count()]), (MAX, 0));
    assert_eq!(after(MAX, vec![when(passes_up(), vec![down()], vec![])]), (MAX - 1, 1));
    assert_eq!(after(MAX, vec![when(not(passes_up()), vec![], vec![down()])]), (MAX - 1, 1));
}

#[test]
fn guards_events_and_properties_wrap_without_it() {
    let enabled = |guard: Option<Boolean>, event: Boolean| {
        let mut design = acting(MAX, vec![assign(B, true)]);
        design.cells[0] = normal((0, 0, 0), 0, guard, vec![assign(B, true)]);
        design.matrices[0].events = vec![event];
        moved_once(&design)
    };
    let stepped = |idle: bool| {
        let mut state = start(&acting(MAX, vec![]));
        state.values[B as usize] = !idle as i16;
        Stepped { state, idle }
    };
    assert_eq!(enabled(Some(passes_up()), truth(true)), stepped(false));
    assert_eq!(enabled(Some(not(passes_up())), truth(true)), stepped(true));
    assert_eq!(enabled(None, passes_up()), stepped(false));
    assert_eq!(enabled(None, not(passes_up())), stepped(true));
    let next_up = less(plus(next_number(X), constant(1)), constant(0));
    let design = Design {
        invariant: passes_up(),
        constraint: Some(and(passes_up(), next_up)),
        ..acting(MAX, vec![])
    };
    assert_eq!(holds(&design, &start(&design), INVARIANT), Ok(true));
    for property in [INVARIANT, NO_INVALID_CELL, CONSTRAINT] {
        assert_eq!(first_break(&design, property), None);
    }
}

/// An invalid cell is judged by its event, whose sum wraps.
#[test]
fn property_1_wraps_without_it() {
    let mut design = acting(MAX, vec![]);
    design.matrices[0].events.push(passes_up());
    design.cells.push(invalid((0, 0, 1)));
    let state = start(&design);
    assert_eq!(holds(&design, &state, NO_INVALID_CELL), Ok(false));
    design.matrices[0].events[1] = not(passes_up());
    assert_eq!(holds(&design, &state, NO_INVALID_CELL), Ok(true));
}

#[test]
fn a_disabled_cell_does_not_mark() {
    let mut design = acting(MAX, vec![]);
    design.cells[0] = normal((0, 0, 0), 0, Some(truth(false)), vec![assign_integer(X, up())]);
    let first = start(&design);
    assert_eq!(step(&design, &first, 0), Ok(Stepped { state: first, idle: true }));
}

#[test]
fn once_set_it_stays() {
    let design = design_a();
    let marked = State { mark: 1, ..start(&design) };
    // An idle choice, the external, and a cell that marks nothing itself.
    assert_eq!(step(&design, &marked, 0), Ok(Stepped { state: marked, idle: true }));
    let raised = step(&design, &marked, 2).unwrap();
    assert_eq!((raised.state.mark, raised.idle), (1, false));
    let counted = step(&design, &raised.state, 0).unwrap();
    assert_eq!((counted.state.mark, counted.state.values[1], counted.idle), (1, 1, false));
}

#[test]
fn no_property_holds_where_it_is_set() {
    for design in [design_a(), moved()] {
        let first = start(&design);
        let marked = State { mark: 1, ..first };
        for property in [INVARIANT, NO_INVALID_CELL] {
            assert_eq!(holds(&design, &first, property), Ok(true));
            assert_eq!(holds(&design, &marked, property), Ok(false));
        }
        assert_eq!(holds(&design, &marked, CONSTRAINT), refused(13, 0));
    }
}

/// Place 40, after every other entry, and before 12 and 13.
#[test]
fn a_mark_over_1_is_refused_last() {
    let design = moved();
    for wrong in [2, 3, 255, 256, 257, u16::MAX] {
        let state = State { mark: wrong, ..start(&design) };
        assert_eq!(step(&design, &state, 0), refused(11, 40));
        assert_eq!(step(&design, &state, 99), refused(11, 40));
        assert_eq!(holds(&design, &state, 0), refused(11, 40));
        assert_eq!(holds(&design, &state, 2), refused(11, 40));
        let mut both = state;
        both.statuses[7] = 1;
        assert_eq!(step(&design, &both, 0), refused(11, 39));
        both.values[31] = 1;
        assert_eq!(holds(&design, &both, 0), refused(11, 31));
    }
}

/// x: 32,766, 32,767, then past the end, where the mark breaks every property. Property 2 is judged by the later state: at step 2.
#[test]
fn a_run_breaks_where_the_mark_is_set() {
    let design = through_file(&acting(MAX - 1, vec![assign_integer(X, up())]));
    for property in [INVARIANT, NO_INVALID_CELL, CONSTRAINT] {
        let broken =
            |count: usize| replay(Query::new(&design, property), &vec![0; count]).map(|r| r.broken);
        assert_eq!((broken(1), broken(2), broken(9)), (Ok(None), Ok(Some(2)), Ok(Some(2))));
        let (verdict, choices) = verdict_of(&design, property, 3, u64::MAX);
        assert_eq!((verdict.finding, &choices[..2]), (Finding::Violated(2), &[0, 0][..]));
        // The trace shows no mark, but that no property holds from there on.
        let input = [&[property as u8, 4, 0, 0, 0, 0][..], &file_bytes(&design)].concat();
        let expected = "0 - 0 1 32766 0 | 0\n1 0 0 1 32767 0 | 0\n2 0 0 0 -32768 0 | 0\n\
                        3 0 0 0 -32767 0 | 0\n4 0 0 0 -32766 0 | 0\nbroken at 2\n";
        assert_eq!(String::from_utf8(replay_output(&input)).unwrap(), expected);
    }
}

/// The constraint's own sum wraps, so it is true of every step; the step to the marked state breaks it, and not the one out of it.
#[test]
fn property_2_is_judged_by_the_later_state() {
    let constraint = Some(equal(next_number(X), up()));
    let design = Design { constraint, ..acting(MAX - 1, vec![assign_integer(X, up())]) };
    for (count, broken) in [(0, None), (1, None), (2, Some(2)), (3, Some(2))] {
        let found = replay(Query::new(&design, CONSTRAINT), &vec![0; count]).unwrap();
        assert_eq!(found.broken, broken);
        let n = variables(&design, CONSTRAINT, count as u64);
        let found = models(n, &formula_words(&design, CONSTRAINT, count as u64));
        assert_eq!(found.len(), broken.is_some() as usize);
    }
}

fn sizes(design: &Design, property: u64, bound: u64) -> Size {
    size(Query::new(design, property), bound).unwrap()
}

/// 16 bits of x, b, 4 of the status, and the mark.
const BITS: u64 = 16 + 1 + 4 + 1;

#[test]
fn gates_in_statements_and_elsewhere() {
    let plain = sizes(&acting(0, vec![]), INVARIANT, 1);
    assert_eq!((plain.state_bits, plain.property_gates), (BITS, 1));
    // An equal, two ands and the muxes.
    assert_eq!(plain.step_gates, 32 + 2 + BITS);
    for (action, gates) in [
        (assign_integer(X, up()), 82),
        (assign_integer(X, minus(x(), constant(1))), 82),
        (assign_integer(X, times(0, x())), 1_280 + 160 + 2),
        (assign_boolean(B, less(x(), constant(1))), 80),
        (assign_boolean(B, less(up(), constant(1))), 82 + 80),
        (assign_boolean(B, equal(up(), up())), 82 + 82 + 32),
        (when(passes_up(), vec![], vec![]), 82 + 80 + BITS),
        (when(truth(true), vec![assign_integer(X, up())], vec![]), 82 + BITS),
    ] {
        let with = sizes(&acting(0, vec![action.clone()]), INVARIANT, 1);
        assert_eq!(with.step_gates, plain.step_gates + gates, "{action:?}");
    }
    let judged = Design { invariant: passes_up(), ..acting(0, vec![]) };
    assert_eq!(sizes(&judged, INVARIANT, 0).property_gates, 80 + 80 + 1);
    assert_eq!(sizes(&judged, NO_INVALID_CELL, 0).property_gates, 1);
    let constrained = Design { constraint: Some(passes_up()), ..acting(0, vec![]) };
    let size = sizes(&constrained, CONSTRAINT, 0);
    assert_eq!(size.property_gates, 0);
    assert_eq!(size.step_gates, plain.step_gates + 80 + 80 + 1);
    let mut guarded = acting(0, vec![]);
    guarded.cells[0] = normal((0, 0, 0), 0, Some(passes_up()), vec![]);
    assert_eq!(sizes(&guarded, INVARIANT, 1).step_gates, plain.step_gates + 160);
    guarded.matrices[0].events = vec![passes_up()];
    assert_eq!(sizes(&guarded, INVARIANT, 1).step_gates, plain.step_gates + 320);
}

/// The clauses of xor(a, b), and(a, b) and mux(c, a, b) as gate g.
fn xor_gate(g: i32, a: i32, b: i32) -> Vec<i32> {
    vec![-g, a, b, 0, -g, -a, -b, 0, g, -a, b, 0, g, a, -b, 0]
}

fn and_gate(g: i32, a: i32, b: i32) -> Vec<i32> {
    vec![-g, a, 0, -g, b, 0, g, -a, -b, 0]
}

fn mux_gate(g: i32, c: i32, a: i32, b: i32) -> Vec<i32> {
    vec![-c, -a, g, 0, -c, a, -g, 0, c, -b, g, 0, c, b, -g, 0]
}

/// Part 1 of bound 1. The state is 2 to 23, of which 23 is the mark, property 0's gate 24, the one flag 25; the step gates start at
/// 26 with those of the cell's place, which are 34.
struct Gates(Vec<i32>);

const FIRST: i32 = 26 + 34;
const MARK: i32 = 23;

impl Gates {
    fn of(action: Vec<Statement>) -> Gates {
        Gates(part_words(&acting(0, action), INVARIANT, 1, 1))
    }

    fn have(&self, gate: &[i32]) {
        assert!(self.0.windows(gate.len()).any(|words| words == gate), "{gate:?}");
    }
}

/// The carry out of a sum's bit is -and(-u, -t), the last of the bit's five gates, negated.
fn carry(sum: i32, bit: i32) -> i32 {
    -(sum + 5 * bit + 4)
}

/// The mark after a sum is or(mark, xor), which is an and's negation.
fn marked_by(gates: &Gates, sum: i32, mark: i32) -> i32 {
    let outside = sum + 80;
    gates.have(&xor_gate(outside, carry(sum, 14), carry(sum, 15)));
    gates.have(&and_gate(outside + 1, -mark, -outside));
    -(outside + 1)
}

#[test]
fn a_sum_is_followed_by_an_xor_and_an_or() {
    for e in [up(), minus(x(), constant(1))] {
        let gates = Gates::of(vec![assign_integer(X, e)]);
        let mark = marked_by(&gates, FIRST, MARK);
        // The mover's last mux, between the effect and the old state by the enable.
        gates.have(&mux_gate(FIRST + 82 + 21, FIRST - 1, mark, MARK));
    }
}

/// In evaluation order: operands before their operator, left to right.
#[test]
fn the_mark_goes_through_the_gates_in_order() {
    let gates = Gates::of(vec![assign_integer(X, minus(up(), plus(x(), x())))]);
    let mut mark = MARK;
    for operation in 0..3 {
        mark = marked_by(&gates, FIRST + 82 * operation, mark);
    }
    let both = or(equal(up(), x()), less(x(), up()));
    let gates = Gates::of(vec![assign_boolean(B, both), assign_integer(X, up())]);
    let mark = marked_by(&gates, FIRST, MARK);
    // The equal has 32 gates, the less 80, the or 1.
    let mark = marked_by(&gates, FIRST + 82 + 32, mark);
    marked_by(&gates, FIRST + 82 + 32 + 82 + 80 + 1, mark);
}

#[test]
fn both_lists_start_from_the_mark_of_the_condition() {
    let down = assign_integer(X, minus(x(), constant(1)));
    let then = vec![assign_integer(X, up())];
    let gates = Gates::of(vec![when(passes_up(), then, vec![down])]);
    let condition = marked_by(&gates, FIRST, MARK);
    let first = FIRST + 82 + 80;
    let then = marked_by(&gates, first, condition);
    let other = marked_by(&gates, first + 82, condition);
    // A less is the negation of the last carry.
    let less = -carry(FIRST + 82, 15);
    let last_mux = first + 2 * 82 + 21;
    gates.have(&mux_gate(last_mux, less, then, other));
    gates.have(&mux_gate(last_mux + 22, FIRST - 1, last_mux, MARK));
    // An empty list keeps it.
    let gates = Gates::of(vec![when(passes_up(), vec![], vec![])]);
    let condition = marked_by(&gates, FIRST, MARK);
    gates.have(&mux_gate(first + 21, less, condition, condition));
}

/// 3 times x: less(x, -10,922), less(10,922, x), an or of the two, an or of the mark and that. The top bits are negated, and so is
/// the second operand, whose bits are then negated twice at the top.
#[test]
fn a_product_is_followed_by_two_comparisons_and_two_ors() {
    let gates = Gates::of(vec![assign_integer(X, times(3, x()))]);
    let below = FIRST + 1_280;
    let above = below + 80;
    let bit = |value: i16, i: i32| if value >> i & 1 == 1 { 1 } else { -1 };
    for i in 0..16 {
        let own = 2 + i;
        let (a, b) = if i == 15 { (-own, bit(-10_922, i)) } else { (own, -bit(-10_922, i)) };
        gates.have(&xor_gate(below + 5 * i, a, b));
        let (a, b) = if i == 15 { (-bit(10_922, i), own) } else { (bit(10_922, i), -own) };
        gates.have(&xor_gate(above + 5 * i, a, b));
    }
    let (less, more) = (-carry(below, 15), -carry(above, 15));
    let outside = above + 80;
    gates.have(&and_gate(outside, -less, -more));
    gates.have(&and_gate(outside + 1, -MARK, outside));
    gates.have(&mux_gate(outside + 2 + 21, FIRST - 1, -(outside + 1), MARK));
}

/// The mark of the one model at bound 1; the property has one gate, so it is the last variable but one.
fn mark_by_formula(design: &Design) -> u16 {
    let design = Design { invariant: truth(false), ..design.clone() };
    let n = variables(&design, INVARIANT, 1);
    let models = models(n, &formula_words(&design, INVARIANT, 1));
    assert_eq!(models.len(), 1);
    models[0][n - 2] as u16
}

/// At the least and the largest operand of many constants, found by trying every one, and next to them.
#[test]
fn the_circuit_of_a_product_marks_at_the_right_operands() {
    let mut random = Random::new(11);
    let mut constants =
        vec![MIN, MIN + 1, -3, -2, -1, 0, 1, 2, 3, 181, -181, 256, -256, MAX - 1, MAX];
    constants.extend((0..15).map(|_| random.word() as i16));
    for c in constants {
        let fits = |a: &i16| c.checked_mul(*a).is_some();
        let low = (MIN..=MAX).find(fits).unwrap();
        let high = (MIN..=MAX).rev().find(fits).unwrap();
        for a in [low.saturating_sub(1), low, high, high.saturating_add(1)] {
            let design = acting(a, vec![assign_integer(X, times(c, x()))]);
            let expected = !fits(&a) as u16;
            assert_eq!(mark_by_formula(&design), expected, "{c} times {a}");
            assert_eq!(moved_once(&design).state.mark, expected, "{c} times {a}");
        }
    }
}

#[test]
fn the_circuits_of_sums_mark_at_the_right_operands() {
    let near = [MIN, MIN + 1, -1, 0, 1, MAX - 1, MAX];
    for a in near {
        for b in near {
            let sum = acting(a, vec![assign_integer(X, plus(x(), constant(b)))]);
            assert_eq!(mark_by_formula(&sum), a.checked_add(b).is_none() as u16, "{a} + {b}");
            let difference = acting(a, vec![assign_integer(X, minus(x(), constant(b)))]);
            assert_eq!(
                mark_by_formula(&difference),
                a.checked_sub(b).is_none() as u16,
                "{a} - {b}"
            );
        }
    }
}

/// Whether a list that is run passes an end, beside the code under test; it leaves the state after it.
fn run_passes_an_end(list: &[Statement], state: &mut State) -> bool {
    let mut passes = false;
    for statement in list {
        passes |= match statement {
            Statement::AssignInteger(v, e) => {
                let passes = number_passes_an_end(e, state);
                state.values[*v as usize] = number_in(e, state, state) as i16;
                passes
            }
            Statement::AssignBoolean(v, e) => {
                let passes = passes_an_end(e, state);
                state.values[*v as usize] = says(e, state, state) as i16;
                passes
            }
            Statement::If(condition, then, other) => {
                let passes = passes_an_end(condition, state);
                let taken = if says(condition, state, state) { then } else { other };
                run_passes_an_end(taken, state) | passes
            }
        };
    }
    passes
}

fn any_state(random: &mut Random, design: &Design) -> State {
    let mut state = State { mark: random.chance(20) as u16, ..start(design) };
    for (value, variable) in state.values.iter_mut().zip(&design.variables) {
        let integer = variable.kind == reference::design::Kind::Integer;
        *value = if integer { any_number(random) } else { random.chance(60) as i16 };
    }
    state
}

/// STEP on random designs and states.
#[test]
fn marks_of_random_steps() {
    let mut random = Random::new(12);
    let mut seen = [0; 4];
    for _ in 0..4_000 {
        let plan = any_plan(&mut random);
        let design =
            if random.chance(50) { counter_design(&mut random) } else { design(&mut random, plan) };
        let movers = design.movers();
        if movers.is_empty() {
            continue;
        }
        let before = any_state(&mut random, &design);
        let choice = random.below(movers.len());
        let stepped = step(&design, &before, choice as u64).unwrap();
        let passes = match movers[choice] {
            Mover::Cell(i) if !stepped.idle => {
                let CellKind::Normal { action, .. } = &design.cells[i].kind else { panic!() };
                let mut state = before;
                let passes = run_passes_an_end(action, &mut state);
                assert_eq!(state.values, stepped.state.values);
                passes
            }
            _ => false,
        };
        assert_eq!(stepped.state.mark, before.mark | passes as u16);
        seen[2 * before.mark as usize + passes as usize] += 1;
    }
    assert!(seen.iter().all(|&count| count > 40), "{seen:?}");
}

/// The formula beside STEP: there are as many models as breaking lists, for each property also with the mark.
#[test]
fn formulas_of_random_counters() {
    let mut random = Random::new(13);
    let mut by_mark = [0; 3];
    for _ in 0..250 {
        let design = through_file(&counter_design(&mut random));
        let property = property_of(&mut random, &design);
        let bound = random.between(0, 3) as u64;
        let n = variables(&design, property, bound);
        let models = models(n, &formula_words(&design, property, bound));
        let lists = breaking_lists(&design, property, bound as usize);
        assert_eq!(models.len(), lists.len());
        let marked = |list: &Vec<u8>| states_of(&design, list).iter().any(|s| s.mark == 1);
        by_mark[property as usize] += lists.iter().any(marked) as u32;
    }
    assert!(by_mark.iter().all(|&count| count > 15), "{by_mark:?}");
}

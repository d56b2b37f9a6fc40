//! Small designs, each of which shows a few things at once. What is known of them stands in designs/README.md and
//! designs/rows.txt.

use super::terms::*;
use crate::builder::file_bytes;
use crate::design::{Boolean, Cell, Design, Kind, Variable, MAX_FILE};

/// The name and the tree of each, but for Design A.
pub fn all() -> Vec<(&'static str, Design)> {
    vec![
        ("first-state", first_state()),
        ("turnstile", turnstile()),
        ("crossing", crossing()),
        ("mutex", mutex()),
        ("peterson", peterson()),
        ("wrap", wrap()),
        ("nested-ifs", nested_ifs()),
        ("old-status", old_status()),
        ("operators", operators()),
        ("lock", lock()),
        ("wide", wide()),
        ("longest", longest()),
        ("moved", moved()),
        ("no-idle", no_idle()),
        ("raised-next", raised_next()),
        ("crossing-turns", crossing_turns()),
        ("vending", vending()),
        ("minus-three", minus_three()),
        ("barrier", barrier()),
        ("branch-taken", branch_taken()),
        ("wrapping-guard", wrapping_guard()),
        ("negated", negated()),
        ("later-mark", later_mark()),
    ]
}

/// Design A of document 01: an external 0 and a counter c below 2.
pub fn design_a() -> Design {
    let below_two = less(number(1), constant(2));
    let count = assign_integer(1, plus(number(1), constant(1)));
    Design {
        variables: vec![external(), variable(Kind::Integer)],
        matrices: vec![matrix(2, vec![is(0)])],
        cells: vec![
            normal((0, 0, 0), 1, None, vec![count.clone()]),
            normal((0, 1, 0), 0, Some(below_two.clone()), vec![count]),
        ],
        invariant: below_two,
        constraint: None,
    }
}

/// Both properties are false in the first state: step 0, no try.
pub fn first_state() -> Design {
    Design {
        variables: vec![boolean_from(false), external()],
        matrices: vec![matrix(1, vec![truth(true)])],
        cells: vec![invalid((0, 0, 0))],
        invariant: is(0),
        constraint: None,
    }
}

/// Nobody may push while it is locked: an invalid cell, which property 1 is about. The invariant is constant.
pub fn turnstile() -> Design {
    const COIN: u8 = 0;
    const PUSH: u8 = 1;
    const LOCKED: u8 = 0;
    const OPEN: u8 = 1;
    Design {
        variables: vec![external(), external()],
        matrices: vec![matrix(2, vec![is(COIN), is(PUSH)])],
        cells: vec![
            normal((0, LOCKED, 0), OPEN, None, vec![assign(COIN, false)]),
            invalid((0, LOCKED, 1)),
            normal((0, OPEN, 1), LOCKED, None, vec![assign(PUSH, false)]),
        ],
        invariant: truth(true),
        constraint: None,
    }
}

/// Two lights, each of which turns green only while the other is red. No variables, and cells that only change a status.
pub fn crossing() -> Design {
    const RED: u8 = 0;
    const GREEN: u8 = 1;
    let light = |own: u8, other: u8| {
        vec![
            normal((own, RED, 0), GREEN, Some(status_is(other, RED as i16)), vec![]),
            normal((own, GREEN, 0), RED, None, vec![]),
        ]
    };
    let both_green = and(status_is(0, GREEN as i16), status_is(1, GREEN as i16));
    Design {
        variables: vec![],
        matrices: vec![matrix(2, vec![truth(true)]), matrix(2, vec![truth(true)])],
        cells: [light(0, 1), light(1, 0)].concat(),
        invariant: not(both_green),
        constraint: None,
    }
}

/// A wrong mutual exclusion: a process tests the other's flag in one step and raises its own in the next.
pub fn mutex() -> Design {
    const IDLE: u8 = 0;
    const TESTED: u8 = 1;
    const INSIDE: u8 = 2;
    let process = |own: u8, other: u8| {
        vec![
            normal((own, IDLE, 0), TESTED, Some(not(is(other))), vec![]),
            normal((own, TESTED, 0), INSIDE, None, vec![assign(own, true)]),
            normal((own, INSIDE, 0), IDLE, None, vec![assign(own, false)]),
        ]
    };
    Design {
        variables: vec![boolean_from(false); 2],
        matrices: vec![matrix(3, vec![truth(true)]), matrix(3, vec![truth(true)])],
        cells: [process(0, 1), process(1, 0)].concat(),
        invariant: not(and(status_is(0, INSIDE as i16), status_is(1, INSIDE as i16))),
        constraint: None,
    }
}

/// Peterson's mutual exclusion: raise the own flag, give the turn to the other, wait until the other's flag is down or the turn
/// is one's own.
pub fn peterson() -> Design {
    const IDLE: u8 = 0;
    const RAISED: u8 = 1;
    const WAITING: u8 = 2;
    const INSIDE: u8 = 3;
    /// True while it is the turn of process 1.
    const TURN: u8 = 2;
    let process = |own: u8, other: u8| {
        let own_turn = if own == 1 { is(TURN) } else { not(is(TURN)) };
        vec![
            normal((own, IDLE, 0), RAISED, None, vec![assign(own, true)]),
            normal((own, RAISED, 0), WAITING, None, vec![assign(TURN, other == 1)]),
            normal((own, WAITING, 0), INSIDE, Some(or(not(is(other)), own_turn)), vec![]),
            normal((own, INSIDE, 0), IDLE, None, vec![assign(own, false)]),
        ]
    };
    Design {
        variables: vec![boolean_from(false); 3],
        matrices: vec![matrix(4, vec![truth(true)]), matrix(4, vec![truth(true)])],
        cells: [process(0, 1), process(1, 0)].concat(),
        invariant: not(and(status_is(0, INSIDE as i16), status_is(1, INSIDE as i16))),
        constraint: None,
    }
}

/// What two reviewers may ask of either mutual exclusion: never are both flags up, and never do both processes stand in the
/// status after the first.
pub fn exclusion_pieces() -> [(&'static str, Boolean); 2] {
    let both = |first, second| not(and(first, second));
    [
        ("exclusion-flags", both(is(0), is(1))),
        ("exclusion-second", both(status_is(0, 1), status_is(1, 1))),
    ]
}

/// A sum that passes 32,767 and a difference that passes -32,768: both wrap, both change their sign, and both set the mark.
pub fn wrap() -> Design {
    const UP: u8 = 0;
    const DOWN: u8 = 1;
    let up = assign_integer(UP, plus(number(UP), constant(1)));
    let down = assign_integer(DOWN, minus(number(DOWN), constant(1)));
    Design {
        variables: vec![integer_from(32_766), integer_from(-32_767)],
        matrices: vec![matrix(1, vec![truth(true), truth(true)])],
        cells: vec![normal((0, 0, 0), 0, None, vec![up]), normal((0, 0, 1), 0, None, vec![down])],
        invariant: less(number(DOWN), number(UP)),
        constraint: None,
    }
}

/// Ifs four deep, in then-lists and in else-lists; later statements read what earlier ones left.
pub fn nested_ifs() -> Design {
    const PLAY: u8 = 0;
    const SCORE: u8 = 1;
    const LEVEL: u8 = 2;
    const TOP: u8 = 3;
    let level = |value: i16| assign_integer(LEVEL, constant(value));
    let below = |limit: i16| less(number(SCORE), constant(limit));
    let reached = assign_boolean(TOP, equal(number(LEVEL), constant(3)));
    let best = when(equal(number(SCORE), constant(28)), vec![level(3), reached], vec![level(4)]);
    let high = when(below(25), vec![level(2)], vec![best]);
    let middle = when(not(below(20)), vec![high], vec![level(1)]);
    let grade = when(below(10), vec![level(0)], vec![middle]);
    let score = assign_integer(SCORE, plus(number(SCORE), constant(7)));
    Design {
        variables: vec![external(), integer_from(7), integer_from(0), boolean_from(false)],
        matrices: vec![matrix(1, vec![is(PLAY)])],
        cells: vec![normal((0, 0, 0), 0, None, vec![score, grade])],
        invariant: not(is(TOP)),
        constraint: None,
    }
}

/// A status that an action reads is the old one; the last cell leads to its own status and is not idle.
pub fn old_status() -> Design {
    const LAST: u8 = 0;
    let keep = || vec![assign_integer(LAST, status(0))];
    Design {
        variables: vec![integer_from(-1)],
        matrices: vec![matrix(3, vec![truth(true)])],
        cells: vec![
            normal((0, 0, 0), 1, None, keep()),
            normal((0, 1, 0), 2, None, keep()),
            normal((0, 2, 0), 2, None, keep()),
        ],
        invariant: less(number(LAST), status(0)),
        constraint: None,
    }
}

/// Every operator, in events, guards, actions and the invariant.
pub fn operators() -> Design {
    const E: u8 = 0;
    const B: u8 = 1;
    const X: u8 = 2;
    const Y: u8 = 3;
    let first = normal(
        (0, 0, 0),
        1,
        Some(equal(number(X), plus(number(Y), constant(5)))),
        vec![
            assign_integer(Y, minus(number(X), status(0))),
            assign_boolean(B, less(number(X), number(Y))),
            assign(E, false),
        ],
    );
    let second = normal(
        (0, 1, 1),
        0,
        Some(and(or(truth(false), not(is(B))), less(constant(-3), number(Y)))),
        vec![assign_integer(X, plus(minus(number(Y), constant(7)), status(0)))],
    );
    Design {
        variables: vec![external(), boolean_from(true), integer_from(3), integer_from(-2)],
        matrices: vec![matrix(2, vec![and(is(E), truth(true)), or(is(E), not(is(B)))])],
        cells: vec![first, second],
        invariant: or(
            is(B),
            not(equal(minus(number(X), number(Y)), plus(status(0), constant(-6)))),
        ),
        constraint: None,
    }
}

/// A lock that opens after the buttons 2, 0, 1. The search has to look at every order, so that a small budget is spent.
pub fn lock() -> Design {
    let press = |at: u8, button: u8| -> Cell {
        normal((0, at, button), at + 1, None, vec![assign(button, false)])
    };
    let buttons: Vec<Boolean> = (0..3).map(is).collect();
    Design {
        variables: vec![external(); 3],
        matrices: vec![matrix(4, buttons)],
        cells: vec![press(0, 2), press(1, 0), press(2, 1)],
        invariant: not(status_is(0, 3)),
        constraint: None,
    }
}

/// At the ends of the format: 32 variables, 8 matrices of 16 statuses, 64 movers. Matrix m counts up while its external m stands;
/// its last status is invalid then.
pub fn wide() -> Design {
    const MATRICES: u8 = 8;
    const STEPS: u8 = 7;
    let flag = |m: u8, s: u8| MATRICES + (3 * m + s) % 24;
    let count = |m: u8, s: u8| normal((m, s, 0), s + 1, None, vec![assign(flag(m, s), true)]);
    let cells = |m: u8| {
        let mut cells: Vec<Cell> = (0..STEPS).map(|s| count(m, s)).collect();
        cells.push(invalid((m, 15, 0)));
        cells
    };
    Design {
        variables: [vec![external(); 8], vec![boolean_from(false); 24]].concat(),
        matrices: (0..MATRICES).map(|m| matrix(16, vec![is(m)])).collect(),
        cells: (0..MATRICES).flat_map(cells).collect(),
        invariant: (1..MATRICES)
            .fold(not(status_is(0, 7)), |all, m| and(all, not(status_is(m, 7)))),
        constraint: None,
    }
}

/// Design A with a constraint that says of a step what the invariant says of a state: when the matrix has just moved back to
/// status 0, c is still below 2.
pub fn moved() -> Design {
    let moved_back = and(status_is(0, 1), next_status_is(0, 0));
    let below_two = less(next_number(1), constant(2));
    Design { constraint: Some(implies(moved_back, below_two)), ..design_a() }
}

/// Every step changes the state: within 100 choices only an idle step breaks that, and it does so at step 1 already.
pub fn no_idle() -> Design {
    const ALLOWED: u8 = 0;
    const COUNT: u8 = 1;
    let count = assign_integer(COUNT, plus(number(COUNT), constant(1)));
    let same_count = equal(number(COUNT), next_number(COUNT));
    Design {
        variables: vec![external(), integer_from(0)],
        matrices: vec![matrix(1, vec![is(ALLOWED)])],
        cells: vec![normal((0, 0, 0), 0, None, vec![count])],
        invariant: truth(true),
        constraint: Some(not(and(same_count, same(is(ALLOWED), is_next(ALLOWED))))),
    }
}

/// Externals 0 and 1, of which the second is raised from the start. The constraint is that external 0 is true next: choice 1 idles
/// and breaks it at step 1. A run that idles only where no mover is enabled raises external 0 first, and nothing lowers it: no such
/// run breaks this.
///
/// No file in which the two readings of an idle step give different answers is shorter. With one mover every list is strict, so there are
/// two at least. An external is the shortest mover, and the rest is as short as can be: a matrix of one event, no cell, and 2 bytes
/// each for event, invariant and constraint.
pub fn raised_next() -> Design {
    Design {
        variables: vec![external(), Variable { initial: 1, ..external() }],
        matrices: vec![matrix(1, vec![truth(true)])],
        cells: vec![],
        invariant: truth(true),
        constraint: Some(is_next(0)),
    }
}

/// The two lights of `crossing`: when one has just turned green, the other stands red. It never breaks.
pub fn crossing_turns() -> Design {
    let turns = |own: u8, other: u8| {
        implies(and(status_is(own, 0), next_status_is(own, 1)), next_status_is(other, 0))
    };
    Design { constraint: Some(and(turns(0, 1), turns(1, 0))), ..crossing() }
}

/// A cup costs 3 coins, so the coins taken are 3 times the cups sold; but once 3 coins are taken, a cup may be had for 2.
pub fn vending() -> Design {
    const TAKEN: u8 = 0;
    const CUPS: u8 = 1;
    let add = |v: u8, n: i16| assign_integer(v, plus(number(v), constant(n)));
    let sale = |coins: i16| vec![add(CUPS, 1), add(TAKEN, coins)];
    let cost = || times(3, number(CUPS));
    Design {
        variables: vec![integer_from(0); 2],
        matrices: vec![matrix(1, vec![truth(true), less(constant(2), cost())])],
        cells: vec![normal((0, 0, 0), 0, None, sale(3)), normal((0, 0, 1), 0, None, sale(2))],
        invariant: equal(number(TAKEN), cost()),
        constraint: None,
    }
}

/// Each step multiplies by -3, so the sign changes each time: 1300, -3900, 11700. Then -35100 wraps to 30436, which
/// breaks the invariant. The constraint wraps likewise, and is true of that step, too; but the step sets the mark.
pub fn minus_three() -> Design {
    const X: u8 = 0;
    const NEGATIVE: u8 = 1;
    let next = || times(-3, number(X));
    let action = vec![assign_integer(X, next()), assign_boolean(NEGATIVE, not(is(NEGATIVE)))];
    Design {
        variables: vec![integer_from(1_300), boolean_from(false)],
        matrices: vec![matrix(1, vec![truth(true)])],
        cells: vec![normal((0, 0, 0), 0, None, action)],
        invariant: same(less(number(X), constant(0)), is(NEGATIVE)),
        constraint: Some(equal(next_number(X), next())),
    }
}

/// A car park of one place, behind a barrier. A place shall stay free, but the guard lets a car take the last one. A run can meet a
/// cell whose status does not stand, whose event is false, whose guard is false, and which has no guard.
pub fn barrier() -> Design {
    const CAR: u8 = 0;
    const FREE: u8 = 1;
    const DOWN: u8 = 0;
    const UP: u8 = 1;
    let is_free = || less(constant(0), number(FREE));
    let take = assign_integer(FREE, minus(number(FREE), constant(1)));
    Design {
        variables: vec![external(), integer_from(1)],
        matrices: vec![matrix(2, vec![is(CAR), not(is(CAR))])],
        cells: vec![
            normal((0, DOWN, 0), UP, Some(is_free()), vec![take]),
            normal((0, UP, 0), UP, None, vec![assign(CAR, false)]),
            normal((0, UP, 1), DOWN, None, vec![]),
        ],
        invariant: is_free(),
        constraint: None,
    }
}

/// A counter at 32,767 that counts only where the external stands: a list that is not taken passes no end.
pub fn branch_taken() -> Design {
    const COUNTS: u8 = 0;
    const COUNT: u8 = 1;
    let count = assign_integer(COUNT, plus(number(COUNT), constant(1)));
    Design {
        variables: vec![external(), integer_from(i16::MAX)],
        matrices: vec![matrix(1, vec![truth(true)])],
        cells: vec![normal((0, 0, 0), 0, None, vec![when(is(COUNTS), vec![count], vec![])])],
        invariant: truth(true),
        constraint: None,
    }
}

/// A counter that starts again before it passes the end. Both guards and the invariant find the end by a sum that wraps, which sets no
/// mark: nothing ever breaks.
pub fn wrapping_guard() -> Design {
    const COUNT: u8 = 0;
    let next = || plus(number(COUNT), constant(1));
    let goes_on = || less(number(COUNT), next());
    let count = assign_integer(COUNT, next());
    let restart = assign_integer(COUNT, constant(0));
    Design {
        variables: vec![integer_from(i16::MAX - 1)],
        matrices: vec![matrix(1, vec![truth(true)])],
        cells: vec![
            normal((0, 0, 0), 0, Some(goes_on()), vec![count]),
            normal((0, 0, 0), 0, Some(not(goes_on())), vec![restart]),
        ],
        invariant: not(equal(next(), constant(0))),
        constraint: None,
    }
}

/// A number that is counted down, and negated by a product: -32,768 has no counterpart, so that both movers pass an end there.
pub fn negated() -> Design {
    const X: u8 = 0;
    let down = assign_integer(X, minus(number(X), constant(1)));
    let negate = assign_integer(X, times(-1, number(X)));
    Design {
        variables: vec![integer_from(-32_766)],
        matrices: vec![matrix(1, vec![truth(true), truth(true)])],
        cells: vec![
            normal((0, 0, 0), 0, None, vec![down]),
            normal((0, 0, 1), 0, None, vec![negate]),
        ],
        invariant: not(equal(number(X), constant(0))),
        constraint: None,
    }
}

/// The constraint says that a step counts by 1, wrapping, or changes nothing, which is true of every step. The step that sets the mark
/// breaks it all the same: its later state has the mark.
pub fn later_mark() -> Design {
    const COUNTS: u8 = 0;
    const COUNT: u8 = 1;
    let next = || plus(number(COUNT), constant(1));
    let counted = equal(next_number(COUNT), next());
    let kept = equal(next_number(COUNT), number(COUNT));
    Design {
        variables: vec![external(), integer_from(i16::MAX - 1)],
        matrices: vec![matrix(1, vec![is(COUNTS)])],
        cells: vec![normal((0, 0, 0), 0, None, vec![assign_integer(COUNT, next())])],
        invariant: truth(true),
        constraint: Some(or(counted, kept)),
    }
}

/// A file of the greatest length, by an invariant of constants that is true.
pub fn longest() -> Design {
    let mut design = Design { invariant: truth(true), ..crossing() };
    let rest = file_bytes(&design).len() - 2;
    design.invariant = true_of_length(MAX_FILE - rest);
    design
}

/// A true expression of so many bytes, at least 2.
pub fn true_of_length(length: usize) -> Boolean {
    match length {
        0..=2 => truth(true),
        3 => not(truth(false)),
        4 => not(not(truth(true))),
        _ => {
            let left = (length - 1) / 2;
            and(true_of_length(left), true_of_length(length - 1 - left))
        }
    }
}

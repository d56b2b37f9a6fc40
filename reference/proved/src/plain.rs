//! A plain program that reads a refutation, for benchmarks: n values and nothing else. It has no tests of its input, and like the
//! proved call it reads list and refutation where they stand, and goes on behind the unit that it found.

use reference::refute::Refuted;

const UNSET: u8 = 0;
const TRUE: u8 = 1;
const FALSE: u8 = 2;

/// REFUTE of a list and a refutation that are well formed; the values are those of its variables.
pub fn refute(list: &[i32], refutation: &[i32], values: &mut [u8]) -> Refuted {
    let (mut begin, mut answer) = (0, Refuted::Ended);
    while begin < refutation.len() {
        let end = begin + length(&refutation[begin..]);
        values.fill(UNSET);
        if set_false(&refutation[begin..end], values) && !reaches_all_false(list, &refutation[..begin], values) {
            answer = Refuted::Word(begin as u64);
            break;
        }
        if end == begin {
            answer = Refuted::Accepted;
            break;
        }
        begin = end + 1;
    }
    values.fill(UNSET);
    answer
}

/// The words before the 0 that closes the first clause.
fn length(words: &[i32]) -> usize {
    words.iter().position(|&word| word == 0).unwrap_or(words.len())
}

fn index(literal: i32) -> usize {
    literal.unsigned_abs() as usize - 1
}

/// The value with which a literal is true.
fn making_true(literal: i32) -> u8 {
    if literal > 0 {
        TRUE
    } else {
        FALSE
    }
}

/// False where the clause holds a literal and its negation.
fn set_false(clause: &[i32], values: &mut [u8]) -> bool {
    for &literal in clause {
        let value = &mut values[index(literal)];
        if *value == making_true(literal) {
            return false;
        }
        *value = making_true(-literal);
    }
    true
}

/// What is read of a clause, up to the word that decides it.
enum Found {
    AllFalse,
    Unit(i32),
    Nothing,
}

fn look_at(words: &[i32], mut at: usize, values: &[u8]) -> (Found, usize) {
    let mut unit = 0;
    while words[at] != 0 {
        let literal = words[at];
        let value = values[index(literal)];
        if value == making_true(literal) || (value == UNSET && unit != 0) {
            while words[at] != 0 {
                at += 1;
            }
            return (Found::Nothing, at + 1);
        }
        if value == UNSET {
            unit = literal;
        }
        at += 1;
    }
    let found = if unit == 0 { Found::AllFalse } else { Found::Unit(unit) };
    (found, at + 1)
}

/// Sets units, the clauses of the two lists taken by turns, until one is all false or a whole turn has found no unit.
fn reaches_all_false(list: &[i32], earlier: &[i32], values: &mut [u8]) -> bool {
    let mut read = 0;
    while read < list.len() + earlier.len() {
        for words in [list, earlier] {
            let mut at = 0;
            while at < words.len() && read < list.len() + earlier.len() {
                let (found, end) = look_at(words, at, values);
                read += end - at;
                at = end;
                match found {
                    Found::AllFalse => return true,
                    Found::Unit(literal) => {
                        values[index(literal)] = making_true(literal);
                        read = 0;
                    }
                    Found::Nothing => {}
                }
            }
        }
    }
    false
}

//! The frames and parts of a formula, and what they count to.

use super::circuit::{Circuit, TRUE};
use super::cost::{property, Costs, Gates};
use super::sink::{Count, Sink, Unseen, Writer};
use super::state::BitPlaces;
use crate::design::{refusal, CellKind, Design, Mover, Refusal};
use crate::pair::Pair;
use crate::query::{Claim, Query};
use crate::search::MAX_VARIABLE;

/// What SIZE answers.
#[derive(Clone, Copy, Debug, PartialEq, Eq)]
pub struct Size {
    pub state_bits: u64,
    pub property_gates: u64,
    pub movers: u64,
    pub step_gates: u64,
    pub variables: u64,
    pub clauses: u64,
    pub words: u64,
}

impl Size {
    /// Its numbers in document 01's order: S, P, w, G, n, clauses, words.
    pub fn numbers(&self) -> [u64; 7] {
        [
            self.state_bits,
            self.property_gates,
            self.movers,
            self.step_gates,
            self.variables,
            self.clauses,
            self.words,
        ]
    }

    /// F, the variables of a frame.
    pub fn frame_length(&self) -> u64 {
        self.state_bits + self.property_gates + self.movers + self.step_gates
    }

    /// The place among the values of frame 0's first flag; variable v is at v - 1.
    pub fn first_flag(&self) -> u64 {
        1 + self.state_bits + self.property_gates
    }
}

/// The formula of one query and bound. Every frame has the same shape, so the
/// gates of one frame are counted once. Its variables are at most
/// `MAX_VARIABLE`, so that each has a literal.
pub struct Formula<'a> {
    design: &'a Design,
    claim: Claim<'a>,
    bound: u64,
    bits: BitPlaces,
    movers: Vec<Mover>,
    gates: FrameGates,
}

/// The gates of a frame.
#[derive(Default)]
struct FrameGates {
    property: Gates,
    movers: Gates,
    /// They stand among the step gates.
    constraint: Gates,
}

impl FrameGates {
    fn new(query: Query<Design>, claim: &Claim, state_bits: u64, movers: &[Mover]) -> FrameGates {
        let costs = Costs::new(query.design, state_bits);
        let movers = movers.iter().map(|mover| costs.mover(*mover)).sum();
        let gates = FrameGates { movers, ..FrameGates::default() };
        match claim {
            Claim::Invariant(e) => FrameGates { property: property(e), ..gates },
            Claim::NoInvalidCell => FrameGates { property: costs.unreached(), ..gates },
            Claim::Constraint(e) => FrameGates { constraint: property(e), ..gates },
        }
    }

    fn step(&self) -> Gates {
        self.movers + self.constraint
    }
}

impl<'a> Formula<'a> {
    /// 13, 8, 14, then 19 for more variables than there are literals.
    pub fn new(query: Query<'a, Design>, bound: u64) -> Result<Formula<'a>, Refusal> {
        let claim = query.check_bound(bound)?;
        let bits = BitPlaces::new(query.design);
        let movers = query.design.movers();
        let gates = FrameGates::new(query, &claim, bits.total as u64, &movers);
        let formula = Formula { design: query.design, claim, bound, bits, movers, gates };
        if formula.variables() > MAX_VARIABLE {
            Err(refusal(19, 0))
        } else {
            Ok(formula)
        }
    }

    fn state_bits(&self) -> u64 {
        self.bits.total as u64
    }

    fn frame_length(&self) -> u64 {
        let movers = self.movers.len() as u64;
        self.state_bits() + self.gates.property.total() + movers + self.gates.step().total()
    }

    /// Below 2^32 for every design and bound, so u64 holds it before 19 is
    /// tested: at most 256 cells write an event of 255 bytes each; 15 products
    /// over a leaf have 47 bytes, so no expression has more than 15 * 1,280 / 47
    /// gates a byte and no action more than 15 * 1,442 / 47; and a mover's own
    /// gates are few. That is below 35 million gates a frame. A piece adds to
    /// property 0 alone, where invalid cells write no gates: below 21 million.
    pub fn variables(&self) -> u64 {
        let last_frame = self.state_bits() + self.gates.property.total();
        1 + self.bound * self.frame_length() + last_frame
    }

    pub fn last_part(&self) -> u64 {
        self.bound + 2
    }

    pub fn size(&self) -> Size {
        let count = self.count();
        Size {
            state_bits: self.state_bits(),
            property_gates: self.gates.property.total(),
            movers: self.movers.len() as u64,
            step_gates: self.gates.step().total(),
            variables: self.variables(),
            clauses: count.clauses,
            words: count.words,
        }
    }

    fn count(&self) -> Count {
        let last_frame = self.gates.property.count();
        let frames = self.full_frame_count().times(self.bound).plus(last_frame);
        self.first_part_count().plus(frames).plus(self.last_part_count())
    }

    /// Clauses and words of one part.
    pub fn part_count(&self, part: u64) -> Count {
        if part == 0 {
            self.first_part_count()
        } else if part <= self.bound {
            self.full_frame_count()
        } else if part == self.bound + 1 {
            self.gates.property.count()
        } else {
            self.last_part_count()
        }
    }

    fn first_part_count(&self) -> Count {
        let units = 1 + self.state_bits();
        Count { clauses: units, words: 2 * units }
    }

    fn last_part_count(&self) -> Count {
        Count { clauses: 1, words: self.judged_frames() + 1 }
    }

    fn full_frame_count(&self) -> Count {
        let movers = self.movers.len() as u64;
        let pairs = movers * (movers - 1) / 2;
        let ties = 2 * movers * self.state_bits();
        let flags = Count { clauses: 1 + pairs, words: movers + 1 + 3 * pairs };
        let ties = Count { clauses: ties, words: 4 * ties };
        let gates = (self.gates.property + self.gates.step()).count();
        gates.plus(flags).plus(ties)
    }

    /// Writes one part at the front of `words` and answers its length.
    pub fn write_part(&self, part: u64, words: &mut [i32]) -> u64 {
        let mut writer = Writer { words, at: 0 };
        self.write_clauses(part, &mut writer);
        writer.at as u64
    }

    /// Gives the clauses of one part to a sink, in order.
    pub fn write_clauses(&self, part: u64, sink: &mut impl Sink) {
        if part == 0 {
            self.write_first_part(sink);
        } else if part <= self.bound + 1 {
            self.write_frame(part - 1, sink);
        } else {
            self.write_last_part(sink);
        }
    }

    fn write_first_part(&self, sink: &mut impl Sink) {
        sink.clause(&[TRUE]);
        let state = self.frame_state(0);
        let initial = self.bits.initial(self.design);
        for (bit, value) in state.iter().zip(initial) {
            sink.clause(&[if value { *bit } else { -bit }]);
        }
    }

    fn write_frame(&self, frame: u64, sink: &mut impl Sink) {
        self.write_property(frame, sink);
        if frame == self.bound {
            return;
        }
        let flags = self.flags(frame);
        sink.clause(&flags);
        for (i, f) in flags.iter().enumerate() {
            for h in &flags[i + 1..] {
                sink.clause(&[-f, -h]);
            }
        }
        let results = self.write_movers(frame, sink);
        self.write_constraint(frame, sink);
        let next = self.frame_state(frame + 1);
        for (f, result) in flags.iter().zip(&results) {
            write_ties(*f, result, &next, sink);
        }
    }

    fn write_last_part(&self, sink: &mut impl Sink) {
        let first = self.first_literal();
        let frames = 0..self.judged_frames();
        let clause: Vec<i32> = frames.map(|j| -self.in_frame(first, j)).collect();
        sink.clause(&clause);
    }

    /// The frames that have a literal of the property: for a constraint only
    /// those that a step leads out of.
    fn judged_frames(&self) -> u64 {
        match &self.claim {
            Claim::Constraint(_) => self.bound,
            _ => self.bound + 1,
        }
    }

    /// The property's literal in frame 0.
    fn first_literal(&self) -> i32 {
        let state_literal = self.write_property(0, &mut Unseen);
        state_literal.or_else(|| self.write_constraint(0, &mut Unseen)).unwrap_or(TRUE)
    }

    /// A literal of frame 0 in another frame; the constants have no frame.
    fn in_frame(&self, literal: i32, frame: u64) -> i32 {
        if literal.abs() == TRUE {
            return literal;
        }
        literal + literal.signum() * (frame * self.frame_length()) as i32
    }

    fn frame_start(&self, frame: u64) -> u32 {
        (2 + frame * self.frame_length()) as u32
    }

    fn frame_state(&self, frame: u64) -> Vec<i32> {
        literals(self.frame_start(frame), self.bits.total)
    }

    /// The variable of a frame's first flag.
    fn first_flag(&self, frame: u64) -> u32 {
        self.frame_start(frame) + (self.state_bits() + self.gates.property.total()) as u32
    }

    fn flags(&self, frame: u64) -> Vec<i32> {
        literals(self.first_flag(frame), self.movers.len())
    }

    fn circuit<'s, S: Sink>(&'s self, first: u32, sink: &'s mut S) -> Circuit<'s, S> {
        Circuit { bits: &self.bits, next: first, sink }
    }

    /// The property's literal in a frame, where one state decides it.
    fn write_property(&self, frame: u64, sink: &mut impl Sink) -> Option<i32> {
        let state = self.frame_state(frame);
        let mut circuit = self.circuit(self.frame_start(frame) + self.bits.total as u32, sink);
        let holds = match &self.claim {
            Claim::Invariant(e) => circuit.truth(Pair::one(&state), e),
            Claim::NoInvalidCell => self.write_unreached(&mut circuit, &state),
            Claim::Constraint(_) => return None,
        };
        Some(circuit.and(holds, -state[self.bits.mark]))
    }

    fn write_unreached<S: Sink>(&self, circuit: &mut Circuit<S>, state: &[i32]) -> i32 {
        let mut chain = TRUE;
        for cell in self.design.cells.iter().filter(|c| c.kind == CellKind::Invalid) {
            let reached = circuit.at_place(self.design, state, cell);
            chain = circuit.and(chain, -reached);
        }
        chain
    }

    /// The variable of a frame's first step gate.
    fn first_step_gate(&self, frame: u64) -> u32 {
        self.first_flag(frame) + self.movers.len() as u32
    }

    /// The state bits after each mover.
    fn write_movers(&self, frame: u64, sink: &mut impl Sink) -> Vec<Vec<i32>> {
        let state = self.frame_state(frame);
        let mut circuit = self.circuit(self.first_step_gate(frame), sink);
        self.movers.iter().map(|mover| circuit.mover(self.design, &state, *mover)).collect()
    }

    /// The constraint's literal, where that is the property. Its gates follow
    /// those of the movers and read this frame and the next one, whose mark
    /// decides, too.
    fn write_constraint(&self, frame: u64, sink: &mut impl Sink) -> Option<i32> {
        let Claim::Constraint(e) = &self.claim else {
            return None;
        };
        let (earlier, next) = (self.frame_state(frame), self.frame_state(frame + 1));
        let first = self.first_step_gate(frame) + self.gates.movers.total() as u32;
        let mut circuit = self.circuit(first, sink);
        let holds = circuit.truth(Pair { earlier: &earlier[..], next: &next }, e);
        Some(circuit.and(holds, -next[self.bits.mark]))
    }

    /// The mover with the one flag of each frame.
    pub fn decode(&self, values: &[u8]) -> Result<Vec<u8>, Refusal> {
        let chosen = |frame: u64| {
            let first = self.first_flag(frame) as usize - 1;
            one_flag(&values[first..first + self.movers.len()])
        };
        (0..self.bound).map(|j| chosen(j).ok_or(refusal(18, j as usize))).collect()
    }
}

/// The literals of so many variables in a row.
fn literals(first: u32, count: usize) -> Vec<i32> {
    (first..first + count as u32).map(|variable| variable as i32).collect()
}

/// The index of the one 1 among zeros.
fn one_flag(flags: &[u8]) -> Option<u8> {
    let ones = flags.iter().filter(|&&f| f == 1).count();
    if ones != 1 || flags.iter().any(|&f| f > 1) {
        return None;
    }
    flags.iter().position(|&f| f == 1).map(|i| i as u8)
}

fn write_ties(flag: i32, result: &[i32], next: &[i32], sink: &mut impl Sink) {
    for (r, b) in result.iter().zip(next) {
        sink.clause(&[-flag, -r, *b]);
        sink.clause(&[-flag, *r, -b]);
    }
}

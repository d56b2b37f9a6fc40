//! Gates, and the integer circuits that are made of them.

use super::sink::Sink;
use super::state::{BitPlaces, INTEGER_WIDTH};

pub const TRUE: i32 = 1;
pub const FALSE: i32 = -1;

pub type Word = [i32; INTEGER_WIDTH];

pub fn constant_word(value: i16) -> Word {
    std::array::from_fn(|i| if value >> i & 1 == 1 { TRUE } else { FALSE })
}

fn negated(word: &Word) -> Word {
    word.map(|literal| -literal)
}

/// False below the lowest bit; the bits past the top are dropped.
fn shifted(word: &Word, by: usize) -> Word {
    std::array::from_fn(|i| if i < by { FALSE } else { word[i - by] })
}

/// The least and the largest operand whose exact product with the constant
/// fits 16 bits. Division drops what is behind the point, so that both lie
/// inside.
fn fitting_operands(constant: i16) -> (i16, i16) {
    let (least, largest) = (i16::MIN as i32, i16::MAX as i32);
    let constant = constant as i32;
    let (low, high) = match constant.signum() {
        0 => (least, largest),
        1 => (least / constant, largest / constant),
        _ => (largest / constant, least / constant),
    };
    // -1 fits with 32,768, too, which is no operand.
    (low as i16, high.min(largest) as i16)
}

/// The bits of a sum or difference, and its last two carries: the one into the
/// top bit and the one out of it.
pub struct Sum {
    pub word: Word,
    pub carries: [i32; 2],
}

/// Writes gates; each takes the next variable. Nothing is folded or shared.
pub struct Circuit<'a, S: Sink> {
    pub bits: &'a BitPlaces,
    /// After the last gate of the largest formula it is no i32.
    pub next: u32,
    pub sink: &'a mut S,
}

impl<S: Sink> Circuit<'_, S> {
    fn gate(&mut self) -> i32 {
        self.next += 1;
        (self.next - 1) as i32
    }

    pub fn and(&mut self, a: i32, b: i32) -> i32 {
        let g = self.gate();
        self.sink.clause(&[-g, a]);
        self.sink.clause(&[-g, b]);
        self.sink.clause(&[g, -a, -b]);
        g
    }

    pub fn or(&mut self, a: i32, b: i32) -> i32 {
        -self.and(-a, -b)
    }

    fn xor(&mut self, a: i32, b: i32) -> i32 {
        let g = self.gate();
        self.sink.clause(&[-g, a, b]);
        self.sink.clause(&[-g, -a, -b]);
        self.sink.clause(&[g, -a, b]);
        self.sink.clause(&[g, a, -b]);
        g
    }

    fn mux(&mut self, c: i32, a: i32, b: i32) -> i32 {
        let g = self.gate();
        self.sink.clause(&[-c, -a, g]);
        self.sink.clause(&[-c, a, -g]);
        self.sink.clause(&[c, -b, g]);
        self.sink.clause(&[c, b, -g]);
        g
    }

    pub fn muxes(&mut self, c: i32, a: &[i32], b: &[i32]) -> Vec<i32> {
        a.iter().zip(b).map(|(a, b)| self.mux(c, *a, *b)).collect()
    }

    pub fn sum(&mut self, a: &Word, b: &Word, carry: i32) -> Sum {
        let mut carries = [FALSE, carry];
        let mut word = [0; INTEGER_WIDTH];
        for i in 0..INTEGER_WIDTH {
            let c = carries[1];
            let p = self.xor(a[i], b[i]);
            word[i] = self.xor(p, c);
            let u = self.and(a[i], b[i]);
            let t = self.and(p, c);
            carries = [c, self.or(u, t)];
        }
        Sum { word, carries }
    }

    pub fn difference(&mut self, a: &Word, b: &Word) -> Sum {
        self.sum(a, &negated(b), TRUE)
    }

    /// The mark after a sum or difference: the exact value does not fit where
    /// the last two carries differ.
    pub fn mark_after_sum(&mut self, mark: i32, [before, last]: [i32; 2]) -> i32 {
        let outside = self.xor(before, last);
        self.or(mark, outside)
    }

    /// A sum for each bit of the constant from the lowest, also for one that is 0.
    pub fn product(&mut self, constant: i16, operand: &Word) -> Word {
        let none = [FALSE; INTEGER_WIDTH];
        (0..INTEGER_WIDTH).fold(none, |so_far, i| {
            let addend = if constant >> i & 1 == 1 { shifted(operand, i) } else { none };
            self.sum(&so_far, &addend, FALSE).word
        })
    }

    /// The mark after a product, also where every operand fits.
    pub fn mark_after_product(&mut self, mark: i32, constant: i16, operand: &Word) -> i32 {
        let (low, high) = fitting_operands(constant);
        let below = self.less(*operand, constant_word(low));
        let above = self.less(constant_word(high), *operand);
        let outside = self.or(below, above);
        self.or(mark, outside)
    }

    /// With the top bits negated, the signed order is the unsigned one.
    pub fn less(&mut self, mut a: Word, mut b: Word) -> i32 {
        a[15] = -a[15];
        b[15] = -b[15];
        let [_, last] = self.difference(&a, &b).carries;
        -last
    }

    pub fn equal(&mut self, a: &Word, b: &Word) -> i32 {
        let mut differ = [0; INTEGER_WIDTH];
        for i in 0..INTEGER_WIDTH {
            differ[i] = self.xor(a[i], b[i]);
        }
        differ.iter().fold(TRUE, |chain, d| self.and(chain, -d))
    }
}

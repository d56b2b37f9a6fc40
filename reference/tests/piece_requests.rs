//! What the generated requests must have among them about pieces: each wrong
//! implementation below is told by some of them, so a comparison would show it.

use reference::builder::{boolean_bytes, file_bytes};
use reference::design::{check, Design, Kind};
use reference::generator::Generator;
use reference::operations::Reference;
use reference::protocol::{bytes, hex, reply};
use reference::query::{CONSTRAINT, INVARIANT, MAX_PIECE, NO_INVALID_CELL};

const CALLS: [&str; 6] = ["replay", "size", "encode", "decode", "verdict", "trace"];
const BAD_PIECE: &str = "refused 8 at 0";

/// A generated request on an accepted design, and its right reply.
struct Request {
    operation: String,
    design: Design,
    piece: Vec<u8>,
    property: u64,
    rest: String,
    reply: String,
}

impl Request {
    /// `None` where CHECK refuses the design.
    fn new(text: &str) -> Option<Request> {
        let fields: Vec<&str> = text.splitn(5, ' ').collect();
        let [operation, d, piece, property, rest] = fields[..] else { panic!("{text}") };
        Some(Request {
            operation: operation.to_string(),
            design: check(&bytes(d)?).ok()?,
            piece: bytes(piece)?,
            property: property.parse().ok()?,
            rest: rest.to_string(),
            reply: reply(&mut Reference, text),
        })
    }

    /// The reply to the same request with another piece and property.
    fn reply_with(&self, piece: &[u8], property: u64) -> String {
        let file = hex(&file_bytes(&self.design));
        let (piece, Request { operation, rest, .. }) = (hex(piece), self);
        reply(&mut Reference, &format!("{operation} {file} {piece} {property} {rest}"))
    }

    fn has_property(&self) -> bool {
        let last = if self.design.constraint.is_some() { CONSTRAINT } else { NO_INVALID_CELL };
        self.property <= last
    }

    fn reads_piece(&self) -> bool {
        self.property == INVARIANT && !self.piece.is_empty()
    }

    fn bad_piece(&self) -> bool {
        let long = self.piece.len() > MAX_PIECE;
        !self.piece.is_empty() && (long || self.design.expression(&self.piece).is_none())
    }
}

/// The reply of a wrong implementation where it differs by its reading; `None`
/// where it is the right one. A refusal may lack its hashes.
type Wrong = fn(&Request) -> Option<String>;

fn refused_if(condition: bool) -> Option<String> {
    condition.then(|| BAD_PIECE.to_string())
}

/// The piece is the expression of this property, too.
fn read_for(request: &Request, property: u64) -> Option<String> {
    let reads = request.property == property && request.has_property();
    (reads && !request.piece.is_empty()).then(|| request.reply_with(&request.piece, INVARIANT))
}

/// The piece is not used for this property, but must be a good one.
fn tested_for(request: &Request, property: u64) -> Option<String> {
    refused_if(request.property == property && request.has_property() && request.bad_piece())
}

/// Variables' kinds are read at their places in the piece's bytes.
fn own_names(request: &Request) -> Option<String> {
    let mut design = request.design.clone();
    for (v, variable) in design.variables.iter_mut().enumerate() {
        variable.kind = match request.piece.get(3 * v) {
            Some(0) => Kind::Boolean,
            Some(1) => Kind::Integer,
            _ => Kind::External,
        };
    }
    refused_if(request.reads_piece() && design.expression(&request.piece).is_none())
}

/// The reply without the piece where that is one of these refusals.
fn after(request: &Request, refusal: &str) -> Option<String> {
    let plain = request.reply_with(&[], request.property);
    plain.starts_with(refusal).then_some(plain)
}

/// The file's invariant and the piece are joined by and.
fn joined(request: &Request) -> Option<String> {
    let invariant = boolean_bytes(&request.design.invariant);
    let both = [&[0x13], &invariant[..], &request.piece].concat();
    // A tree that has become too deep tells nothing.
    let taken = !request.bad_piece() && request.design.expression(&both).is_some();
    (request.reads_piece() && taken).then(|| request.reply_with(&both, INVARIANT))
}

/// The operators that read the next state are legal: a piece is taken where
/// the design's constraint might be.
fn next_state(request: &Request) -> Option<String> {
    let mut file = file_bytes(&Design { constraint: None, ..request.design.clone() });
    let trailer = file.split_off(file.len() - 16);
    let constraint = (file.len() as u16).to_le_bytes();
    let file = [&file[..], &request.piece, &constraint, &[2], &trailer[1..]].concat();
    let taken = request.reads_piece() && request.bad_piece() && check(&file).is_ok();
    taken.then(|| request.reply_with(&TRUE, INVARIANT))
}

/// A piece may be of any length.
fn any_length(request: &Request) -> Option<String> {
    let long = request.reads_piece() && request.piece.len() > MAX_PIECE;
    let taken = long && request.design.expression(&request.piece).is_some();
    taken.then(|| request.reply_with(&TRUE, INVARIANT))
}

/// An expression is enough, also where bytes follow it.
fn prefix(request: &Request) -> Option<String> {
    let expression = |length: &usize| request.design.expression(&request.piece[..*length]);
    let length = (1..request.piece.len().min(300)).find(|l| expression(l).is_some())?;
    request.reads_piece().then(|| request.reply_with(&request.piece[..length], INVARIANT))
}

/// An expression that every design takes.
const TRUE: [u8; 2] = [0x10, 1];

const WRONG: [(&str, Wrong); 17] = [
    ("read for property 1", |r| read_for(r, NO_INVALID_CELL)),
    ("read for property 2", |r| read_for(r, CONSTRAINT)),
    ("tested for property 1", |r| tested_for(r, NO_INVALID_CELL)),
    ("tested for property 2", |r| tested_for(r, CONSTRAINT)),
    ("names of the piece's own bytes", own_names),
    ("8 after 14", |r| after(r, "refused 14")),
    ("8 after all the rest", |r| after(r, "refused")),
    ("8 before 13", |r| refused_if(!r.has_property() && r.bad_piece())),
    ("an empty piece is refused", |r| refused_if(r.property == INVARIANT && r.piece.is_empty())),
    ("the invariant is joined", joined),
    ("never read", |r| Some(r.reply_with(&[], r.property))),
    ("a bad piece is none", |r| r.bad_piece().then(|| r.reply_with(&[], r.property))),
    ("the next state is read", next_state),
    ("any length", any_length),
    ("16,383 bytes at most", |r| refused_if(r.reads_piece() && r.piece.len() == MAX_PIECE)),
    ("a prefix is enough", prefix),
    ("another place", |r| {
        let rest = r.reply.strip_prefix(BAD_PIECE)?;
        Some(format!("refused 8 at {}{rest}", r.piece.len()))
    }),
];

/// At most so many requests of each call, of which so many must tell each wrong
/// implementation.
const REQUESTS: usize = 4_000;
const TOLD: usize = 3;

#[test]
fn generated_requests_tell_wrong_implementations() {
    for call in CALLS {
        let mut generator = Generator::new(41, &[call]).unwrap();
        let mut told = [0; WRONG.len()];
        for _ in 0..REQUESTS {
            let Some(request) = Request::new(&generator.request()) else { continue };
            for (told, (_, wrong)) in told.iter_mut().zip(WRONG).filter(|(told, _)| **told < TOLD) {
                let reply = wrong(&request);
                *told += reply.is_some_and(|r| !request.reply.starts_with(&r)) as usize;
            }
            if told.iter().all(|&count| count == TOLD) {
                break;
            }
        }
        for ((name, _), count) in WRONG.iter().zip(told) {
            assert_eq!(count, TOLD, "{call}: {name}");
        }
    }
}

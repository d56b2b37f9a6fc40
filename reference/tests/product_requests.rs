//! What the generated requests must have among them about products and refusal 19.

use reference::design::{check, Boolean, CellKind, Design, Integer, Statement};
use reference::generator::Generator;
use reference::operations::Reference;
use reference::protocol::{bytes, reply};
use std::collections::BTreeSet;

/// Where products stand, and with which constants.
#[derive(Default)]
struct Seen {
    places: BTreeSet<&'static str>,
    constants: BTreeSet<i16>,
}

impl Seen {
    fn integer(&mut self, e: &Integer, place: &'static str) {
        match e {
            Integer::Product(c, a) => {
                self.places.insert(place);
                self.constants.insert(*c);
                match **a {
                    Integer::Product(..) => self.places.insert("a product"),
                    Integer::Sum(..) | Integer::Difference(..) => self.places.insert("a sum"),
                    Integer::NextVariable(_) => self.places.insert("the next state"),
                    _ => false,
                };
                self.integer(a, place);
            }
            Integer::Sum(a, b) | Integer::Difference(a, b) => {
                self.integer(a, place);
                self.integer(b, place);
            }
            _ => {}
        }
    }

    fn boolean(&mut self, e: &Boolean, place: &'static str) {
        match e {
            Boolean::Not(a) => self.boolean(a, place),
            Boolean::And(a, b) | Boolean::Or(a, b) => {
                self.boolean(a, place);
                self.boolean(b, place);
            }
            Boolean::Equal(a, b) | Boolean::Less(a, b) => {
                self.integer(a, place);
                self.integer(b, place);
            }
            _ => {}
        }
    }

    fn list(&mut self, list: &[Statement]) {
        for statement in list {
            match statement {
                Statement::AssignInteger(_, e) => self.integer(e, "an assigned integer"),
                Statement::AssignBoolean(_, e) => self.boolean(e, "an assigned Boolean"),
                Statement::If(condition, then, other) => {
                    self.boolean(condition, "a condition");
                    self.list(then);
                    self.list(other);
                }
            }
        }
    }

    fn design(&mut self, design: &Design) {
        design.matrices.iter().flat_map(|m| &m.events).for_each(|e| self.boolean(e, "an event"));
        for cell in &design.cells {
            if let CellKind::Normal { guard, action, .. } = &cell.kind {
                guard.iter().for_each(|g| self.boolean(g, "a guard"));
                self.list(action);
            }
        }
        self.boolean(&design.invariant, "the invariant");
        design.constraint.iter().for_each(|c| self.boolean(c, "the constraint"));
    }
}

#[test]
fn products_stand_everywhere_in_accepted_files() {
    for operation in ["check", "step", "replay", "size", "encode"] {
        let mut generator = Generator::new(11, &[operation]).unwrap();
        let mut seen = Seen::default();
        for _ in 0..4_000 {
            let request = generator.request();
            let file = bytes(request.split(' ').nth(1).unwrap()).unwrap();
            check(&file).iter().for_each(|design| seen.design(design));
        }
        let wanted = [
            "a condition",
            "a guard",
            "a product",
            "a sum",
            "an assigned Boolean",
            "an assigned integer",
            "an event",
            "the constraint",
            "the invariant",
            "the next state",
        ];
        assert_eq!(seen.places.into_iter().collect::<Vec<_>>(), wanted, "{operation}");
        for edge in [i16::MIN, -1, 0, 1, i16::MAX, 3, -3, 256] {
            assert!(seen.constants.contains(&edge), "{operation}: never {edge}");
        }
    }
}

/// A verdict on a design with a product is answered, wherever the product stands.
#[test]
fn verdicts_on_products_are_answered() {
    let wanted = BTreeSet::from([
        "a guard",
        "a product",
        "an assigned integer",
        "an event",
        "the constraint",
        "the invariant",
    ]);
    let mut generator = Generator::new(14, &["verdict"]).unwrap();
    let mut answered = Seen::default();
    for _ in 0..10_000 {
        let request = generator.request();
        let file = bytes(request.split(' ').nth(1).unwrap()).unwrap();
        let Ok(design) = check(&file) else { continue };
        let mut seen = Seen::default();
        seen.design(&design);
        if seen.places.is_subset(&answered.places) {
            continue;
        }
        if reply(&mut Reference, &request).starts_with("ok ") {
            answered.design(&design);
        }
        if wanted.is_subset(&answered.places) {
            return;
        }
    }
    panic!("answered are only {:?}", answered.places);
}

/// Why an expression of products alone is refused; `None` where it is not.
fn fault(e: &[u8], depth: u32) -> Option<&'static str> {
    match e {
        [0x08] | [0x08, _] => Some("its constant is cut off"),
        [0x08, _, _] => Some("its operand is missing"),
        [0x08, _, _, 0x10..=0x17, ..] => Some("its operand is Boolean"),
        [0x08, _, _, rest @ ..] if depth == 16 && rest.len() == 3 => Some("it is too deep"),
        [0x08, _, _, rest @ ..] => fault(rest, depth + 1),
        [0x09, ..] => Some("its operator is the next one"),
        _ => None,
    }
}

/// The action of a cell that the bytes start with.
fn action_of(cell: &[u8]) -> Option<&[u8]> {
    let start = 8 + *cell.get(5)? as usize;
    let length = u16::from_le_bytes([*cell.get(6)?, *cell.get(7)?]) as usize;
    cell.get(start..start + length)
}

/// The bytes of an item's expression of a refused file, and a name of the item.
fn refused_expression(file: &[u8]) -> Option<(&'static str, &[u8])> {
    let refusal = check(file).err().filter(|r| matches!(r.number, 8 | 9))?;
    let field = |before_end: usize| {
        let at = file.len() - before_end;
        u16::from_le_bytes([file[at], file[at + 1]]) as usize
    };
    let version_2 = field(16) == 2;
    let items_end = file.len() - if version_2 { 18 } else { 16 };
    let constraint = if version_2 { field(18) } else { items_end };
    let (cells, invariant, at) = (field(6), field(2), refusal.place as usize);
    let rest = file.get(at..items_end)?;
    match refusal.number {
        8 if at < cells => Some(("an event", rest.get(1..1 + rest[0] as usize)?)),
        8 if at < invariant => Some(("a guard", rest.get(8..8 + rest[5] as usize)?)),
        // The count, the if, then its condition.
        9 => Some(("an action", action_of(rest)?.get(2..)?)),
        _ if at == invariant => Some(("the invariant", file.get(invariant..constraint)?)),
        _ => Some(("the constraint", file.get(constraint..items_end)?)),
    }
}

#[test]
fn near_products_are_asked_in_every_item() {
    let mut generator = Generator::new(12, &["check"]).unwrap();
    let mut seen = BTreeSet::new();
    for _ in 0..30_000 {
        let request = generator.request();
        let file = bytes(&request["check ".len()..]).unwrap();
        let Some((item, e)) = refused_expression(&file) else { continue };
        // In an action the end of the expression is not told: two empty lists follow.
        let e = if item == "an action" { e.strip_suffix(&[0, 0]).unwrap_or(e) } else { e };
        if let [0x16, 0x01, _, _, product @ ..] = e {
            seen.extend(fault(product, 2).map(|fault| (item, fault)));
        }
        if let [0x08, _, _, 0x01, _, _] = e {
            seen.insert((item, "it stands for a Boolean"));
        }
    }
    for item in ["an event", "a guard", "an action", "the invariant", "the constraint"] {
        for fault in [
            "its constant is cut off",
            "its operand is missing",
            "its operand is Boolean",
            "it is too deep",
            "its operator is the next one",
            "it stands for a Boolean",
        ] {
            assert!(seen.contains(&(item, fault)), "never asked: in {item}, {fault}");
        }
    }
}

/// The number of a request's refusal, or 0.
fn refusal_of(request: &str) -> u64 {
    let answer = reply(&mut Reference, request);
    let number = answer.strip_prefix("refused ").and_then(|rest| rest.split(' ').next());
    number.map_or(0, |n| n.parse().unwrap())
}

/// What is seen of an operation's requests on large designs: refusals' numbers, 0 for an answer, and whether ENCODE's part is over
/// the last one.
fn seen_at_the_limit(operation: &str, count: usize) -> BTreeSet<(u64, bool)> {
    let mut generator = Generator::new(13, &[operation]).unwrap();
    let mut seen = BTreeSet::new();
    for _ in 0..count {
        let request = generator.request();
        let fields: Vec<&str> = request.split(' ').collect();
        let number = |i: usize| fields[i].parse::<u64>().unwrap_or(0);
        // Files so long are mostly those of many gates; the bounds next to 19 are 68 to 85.
        if fields[1].len() > 8_000 && matches!(number(4), 68..=85 | 101) {
            let no_part = operation == "encode" && number(5) > number(4) + 2;
            seen.insert((refusal_of(&request), no_part));
        }
    }
    seen
}

#[test]
fn every_refusal_beside_19_is_met_at_the_limit() {
    for (operation, count, numbers) in [
        ("size", 6_000, &[0, 13, 14, 19][..]),
        ("encode", 8_000, &[0, 13, 14, 16, 19]),
        ("decode", 3_000, &[13, 14, 16, 19]),
        ("verdict", 2_000, &[14, 16, 19]),
    ] {
        let seen = seen_at_the_limit(operation, count);
        for number in numbers {
            assert!(seen.contains(&(*number, false)), "{operation}: never {number}");
        }
        for number in [14, 15, 19] {
            assert_eq!(
                seen.contains(&(number, true)),
                operation == "encode",
                "{operation}, {number}"
            );
        }
    }
}

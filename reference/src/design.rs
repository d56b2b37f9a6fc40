//! The design file of documents 01 and 02: bytes to a tree, with the refusals of CHECK.

pub const TRAILER_LENGTH: usize = 16;
/// A file of this version has a constraint.
pub const CONSTRAINT_VERSION: u16 = 2;
/// The constraint's offset, which stands before the trailer.
pub const CONSTRAINT_FIELD: usize = 2;
pub const MAX_FILE: usize = 16_384;
pub const MAX_DEPTH: u32 = 16;
pub const MAX_NESTED_IFS: u32 = 4;
pub const MAX_VARIABLES: usize = 32;
pub const MAX_MATRICES: usize = 8;
pub const MAX_CELLS: usize = 256;
pub const MAX_MOVERS: usize = 64;

/// A turned-back call: its number and its place.
#[derive(Clone, Copy, Debug, PartialEq, Eq)]
pub struct Refusal {
    pub number: u8,
    pub place: u64,
}

pub fn refusal(number: u8, place: usize) -> Refusal {
    Refusal { number, place: place as u64 }
}

#[derive(Clone, Copy, Debug, PartialEq, Eq)]
pub enum Kind {
    Boolean,
    Integer,
    External,
}

#[derive(Clone, Copy, Debug, PartialEq, Eq)]
pub struct Variable {
    pub kind: Kind,
    pub initial: i16,
}

#[derive(Clone, Debug, PartialEq, Eq)]
pub enum Integer {
    Constant(i16),
    Variable(u8),
    Status(u8),
    Sum(Box<Integer>, Box<Integer>),
    Difference(Box<Integer>, Box<Integer>),
    Product(i16, Box<Integer>),
    NextVariable(u8),
    NextStatus(u8),
}

#[derive(Clone, Debug, PartialEq, Eq)]
pub enum Boolean {
    Constant(bool),
    Variable(u8),
    Not(Box<Boolean>),
    And(Box<Boolean>, Box<Boolean>),
    Or(Box<Boolean>, Box<Boolean>),
    Equal(Integer, Integer),
    Less(Integer, Integer),
    NextVariable(u8),
}

#[derive(Clone, Debug, PartialEq, Eq)]
pub enum Statement {
    AssignInteger(u8, Integer),
    AssignBoolean(u8, Boolean),
    If(Boolean, Vec<Statement>, Vec<Statement>),
}

#[derive(Clone, Debug, PartialEq, Eq)]
pub struct Matrix {
    pub statuses: u8,
    pub events: Vec<Boolean>,
}

#[derive(Clone, Debug, PartialEq, Eq)]
pub enum CellKind {
    Normal { target: u8, guard: Option<Boolean>, action: Vec<Statement> },
    Invalid,
}

#[derive(Clone, Debug, PartialEq, Eq)]
pub struct Cell {
    pub matrix: u8,
    pub status: u8,
    pub event: u8,
    pub kind: CellKind,
}

#[derive(Clone, Debug, PartialEq, Eq)]
pub struct Design {
    pub variables: Vec<Variable>,
    pub matrices: Vec<Matrix>,
    pub cells: Vec<Cell>,
    pub invariant: Boolean,
    /// A file of version 2 has one.
    pub constraint: Option<Boolean>,
}

/// A mover is a normal cell or an external variable, by its index.
#[derive(Clone, Copy, Debug, PartialEq, Eq)]
pub enum Mover {
    Cell(usize),
    External(usize),
}

impl Design {
    /// Normal cells in file order, then externals in order.
    pub fn movers(&self) -> Vec<Mover> {
        let normal = |cell: &Cell| cell.kind != CellKind::Invalid;
        let external = |v: &Variable| v.kind == Kind::External;
        let cells = (0..self.cells.len()).filter(|&i| normal(&self.cells[i]));
        let externals = (0..self.variables.len()).filter(|&i| external(&self.variables[i]));
        cells.map(Mover::Cell).chain(externals.map(Mover::External)).collect()
    }

    pub fn event_of(&self, cell: &Cell) -> &Boolean {
        &self.matrices[cell.matrix as usize].events[cell.event as usize]
    }

    /// The one Boolean expression over a state of this design that fills the
    /// bytes. They need not be those of the design's own file.
    pub fn expression(&self, bytes: &[u8]) -> Option<Boolean> {
        whole_boolean(&Names::of_a_state(&self.variables, self.matrices.len()), bytes)
    }
}

/// CHECK: the tree of an accepted file, or the first refusal.
pub fn check(file: &[u8]) -> Result<Design, Refusal> {
    let trailer = read_trailer(file)?;
    let mut items = Items { file, at: 0, end: trailer.items_end };
    let variables = read_variables(&mut items, trailer.variables)?;
    items.section(trailer.matrices_at)?;
    let sizes = read_matrices(&mut items, trailer.matrices)?;
    items.section(trailer.events_at)?;
    let names = Names::of_a_state(&variables, sizes.len());
    let matrices = read_events(&mut items, &names, &sizes)?;
    items.section(trailer.cells_at)?;
    let cells = read_cells(&mut items, &names, &sizes, trailer.cells)?;
    items.section(trailer.invariant_at)?;
    let (invariant, constraint) = read_properties(&items, &names, trailer.constraint_at)?;
    let design = Design { variables, matrices, cells, invariant, constraint };
    let movers = design.movers().len();
    if movers == 0 || movers > MAX_MOVERS {
        return Err(refusal(10, file.len()));
    }
    Ok(design)
}

/// What stands at the end of the file: the trailer, and before it in version 2
/// the constraint's offset.
struct Trailer {
    variables: usize,
    matrices_at: usize,
    matrices: usize,
    events_at: usize,
    cells_at: usize,
    cells: usize,
    invariant_at: usize,
    constraint_at: Option<usize>,
    items_end: usize,
}

fn u16_at(file: &[u8], at: usize) -> u16 {
    u16::from_le_bytes([file[at], file[at + 1]])
}

/// The version and where the trailer starts; 1 where the file is too short for
/// its version, or too long.
fn read_version(file: &[u8]) -> Result<(u16, usize), Refusal> {
    let length = file.len();
    if !(TRAILER_LENGTH..=MAX_FILE).contains(&length) {
        return Err(refusal(1, length));
    }
    let at = length - TRAILER_LENGTH;
    let version = u16_at(file, at);
    if version == CONSTRAINT_VERSION && at < CONSTRAINT_FIELD {
        return Err(refusal(1, length));
    }
    Ok((version, at))
}

fn read_trailer(file: &[u8]) -> Result<Trailer, Refusal> {
    let (version, at) = read_version(file)?;
    let field = |i: usize| u16_at(file, at + 2 * i) as usize;
    let (items_end, constraint_at) = match version {
        1 => (at, None),
        CONSTRAINT_VERSION => {
            let end = at - CONSTRAINT_FIELD;
            (end, Some(u16_at(file, end) as usize))
        }
        _ => return Err(refusal(2, at)),
    };
    if field(1) > MAX_VARIABLES || !(1..=MAX_MATRICES).contains(&field(3)) || field(6) > MAX_CELLS {
        return Err(refusal(3, at));
    }
    Ok(Trailer {
        variables: field(1),
        matrices_at: field(2),
        matrices: field(3),
        events_at: field(4),
        cells_at: field(5),
        cells: field(6),
        invariant_at: field(7),
        constraint_at,
        items_end,
    })
}

/// The part of the file that has the items, read item by item.
struct Items<'a> {
    file: &'a [u8],
    at: usize,
    end: usize,
}

impl<'a> Items<'a> {
    fn section(&self, offset: usize) -> Result<(), Refusal> {
        if offset == self.at {
            Ok(())
        } else {
            Err(refusal(4, self.at))
        }
    }

    /// The next bytes of the item at `at`, without moving on.
    fn peek(&self, length: usize) -> Result<&'a [u8], Refusal> {
        if length > self.end - self.at {
            return Err(refusal(4, self.at));
        }
        Ok(&self.file[self.at..self.at + length])
    }

    fn take(&mut self, length: usize) -> Result<&'a [u8], Refusal> {
        let bytes = self.peek(length)?;
        self.at += length;
        Ok(bytes)
    }
}

fn read_variables(items: &mut Items, count: usize) -> Result<Vec<Variable>, Refusal> {
    let mut variables = Vec::new();
    for _ in 0..count {
        let place = items.at;
        let bytes = items.take(3)?;
        variables.push(read_variable(bytes).ok_or(refusal(5, place))?);
    }
    Ok(variables)
}

fn read_variable(bytes: &[u8]) -> Option<Variable> {
    let initial = i16::from_le_bytes([bytes[1], bytes[2]]);
    let kind = match bytes[0] {
        0 => Kind::Boolean,
        1 => Kind::Integer,
        2 => Kind::External,
        _ => return None,
    };
    if kind != Kind::Integer && initial != 0 && initial != 1 {
        return None;
    }
    Some(Variable { kind, initial })
}

/// Status count and event count of each matrix.
fn read_matrices(items: &mut Items, count: usize) -> Result<Vec<(u8, u8)>, Refusal> {
    let mut sizes = Vec::new();
    for _ in 0..count {
        let place = items.at;
        let bytes = items.take(2)?;
        if !(1..=16).contains(&bytes[0]) || !(1..=16).contains(&bytes[1]) {
            return Err(refusal(6, place));
        }
        sizes.push((bytes[0], bytes[1]));
    }
    Ok(sizes)
}

fn read_events(
    items: &mut Items,
    names: &Names,
    sizes: &[(u8, u8)],
) -> Result<Vec<Matrix>, Refusal> {
    let mut matrices = Vec::new();
    for &(statuses, count) in sizes {
        let mut events = Vec::new();
        for _ in 0..count {
            events.push(read_event(items, names)?);
        }
        matrices.push(Matrix { statuses, events });
    }
    Ok(matrices)
}

fn read_event(items: &mut Items, names: &Names) -> Result<Boolean, Refusal> {
    let place = items.at;
    let length = items.peek(1)?[0] as usize;
    let bytes = items.take(1 + length)?;
    whole_boolean(names, &bytes[1..]).ok_or(refusal(8, place))
}

fn read_cells(
    items: &mut Items,
    names: &Names,
    sizes: &[(u8, u8)],
    count: usize,
) -> Result<Vec<Cell>, Refusal> {
    let mut cells: Vec<Cell> = Vec::new();
    for _ in 0..count {
        let cell = read_cell(items, names, sizes, cells.last())?;
        cells.push(cell);
    }
    Ok(cells)
}

fn read_cell(
    items: &mut Items,
    names: &Names,
    sizes: &[(u8, u8)],
    before: Option<&Cell>,
) -> Result<Cell, Refusal> {
    let place = items.at;
    let header = items.peek(8)?;
    let guard_length = header[5] as usize;
    let action_length = u16::from_le_bytes([header[6], header[7]]) as usize;
    let bytes = items.take(8 + guard_length + action_length)?;
    if !fields_fit(header, sizes) || !order_fits(header, before) {
        return Err(refusal(7, place));
    }
    let (guard, action) = bytes[8..].split_at(guard_length);
    let kind = match header[3] {
        0 => read_normal(names, header[4], guard, action, place)?,
        _ => CellKind::Invalid,
    };
    Ok(Cell { matrix: header[0], status: header[1], event: header[2], kind })
}

fn fields_fit(header: &[u8], sizes: &[(u8, u8)]) -> bool {
    let Some(&(statuses, events)) = sizes.get(header[0] as usize) else {
        return false;
    };
    let empty = header[4..8].iter().all(|&b| b == 0);
    let kind_fits = match header[3] {
        0 => header[4] < statuses,
        1 => empty,
        _ => false,
    };
    header[1] < statuses && header[2] < events && kind_fits
}

/// Cells ascend; only normal ones may share a place.
fn order_fits(header: &[u8], before: Option<&Cell>) -> bool {
    let Some(before) = before else {
        return true;
    };
    let place = (header[0], header[1], header[2]);
    let place_before = (before.matrix, before.status, before.event);
    let both_normal = header[3] == 0 && before.kind != CellKind::Invalid;
    place > place_before || (place == place_before && both_normal)
}

fn read_normal(
    names: &Names,
    target: u8,
    guard: &[u8],
    action: &[u8],
    place: usize,
) -> Result<CellKind, Refusal> {
    let guard = match guard {
        [] => None,
        _ => Some(whole_boolean(names, guard).ok_or(refusal(8, place))?),
    };
    let action = whole_list(names, action).ok_or(refusal(9, place))?;
    Ok(CellKind::Normal { target, guard, action })
}

/// The invariant and, where there is one, the constraint. The invariant ends
/// where the constraint starts, so that offset is tested before it is read.
fn read_properties(
    items: &Items,
    names: &Names,
    constraint_at: Option<usize>,
) -> Result<(Boolean, Option<Boolean>), Refusal> {
    let Items { file, at, end } = *items;
    let middle = constraint_at.unwrap_or(end);
    if middle < at || middle > end {
        return Err(refusal(4, at));
    }
    let invariant = whole_boolean(names, &file[at..middle]).ok_or(refusal(8, at))?;
    if constraint_at.is_none() {
        return Ok((invariant, None));
    }
    let names = Names { next_state: true, ..*names };
    let constraint = whole_boolean(&names, &file[middle..end]).ok_or(refusal(8, middle))?;
    Ok((invariant, Some(constraint)))
}

/// What an expression may name: the variables and statuses of a state, and
/// only in the constraint those of the next state, too.
#[derive(Clone, Copy)]
struct Names<'a> {
    variables: &'a [Variable],
    matrices: usize,
    next_state: bool,
}

impl Names<'_> {
    fn of_a_state(variables: &[Variable], matrices: usize) -> Names<'_> {
        Names { variables, matrices, next_state: false }
    }

    fn kind(&self, variable: u8) -> Option<Kind> {
        self.variables.get(variable as usize).map(|v| v.kind)
    }
}

fn whole_boolean(names: &Names, bytes: &[u8]) -> Option<Boolean> {
    let mut reader = Reader { names, bytes, at: 0 };
    let tree = reader.boolean(1)?;
    reader.finished().then_some(tree)
}

fn whole_list(names: &Names, bytes: &[u8]) -> Option<Vec<Statement>> {
    let mut reader = Reader { names, bytes, at: 0 };
    let list = reader.list(0)?;
    reader.finished().then_some(list)
}

/// Reads one expression or action; `None` is any fault in it.
struct Reader<'a> {
    names: &'a Names<'a>,
    bytes: &'a [u8],
    at: usize,
}

impl Reader<'_> {
    fn finished(&self) -> bool {
        self.at == self.bytes.len()
    }

    fn byte(&mut self) -> Option<u8> {
        let byte = *self.bytes.get(self.at)?;
        self.at += 1;
        Some(byte)
    }

    fn operator(&mut self, depth: u32) -> Option<u8> {
        if depth > MAX_DEPTH {
            None
        } else {
            self.byte()
        }
    }

    fn integer(&mut self, depth: u32) -> Option<Integer> {
        match self.operator(depth)? {
            0x01 => self.constant().map(Integer::Constant),
            0x02 => self.integer_variable().map(Integer::Variable),
            0x03 => self.matrix().map(Integer::Status),
            0x04 => {
                let (a, b) = self.integers(depth)?;
                Some(Integer::Sum(Box::new(a), Box::new(b)))
            }
            0x05 => {
                let (a, b) = self.integers(depth)?;
                Some(Integer::Difference(Box::new(a), Box::new(b)))
            }
            0x06 if self.names.next_state => self.integer_variable().map(Integer::NextVariable),
            0x07 if self.names.next_state => self.matrix().map(Integer::NextStatus),
            0x08 => {
                let constant = self.constant()?;
                Some(Integer::Product(constant, Box::new(self.integer(depth + 1)?)))
            }
            _ => None,
        }
    }

    fn constant(&mut self) -> Option<i16> {
        Some(i16::from_le_bytes([self.byte()?, self.byte()?]))
    }

    fn integer_variable(&mut self) -> Option<u8> {
        let variable = self.byte()?;
        (self.names.kind(variable)? == Kind::Integer).then_some(variable)
    }

    fn matrix(&mut self) -> Option<u8> {
        let matrix = self.byte()?;
        ((matrix as usize) < self.names.matrices).then_some(matrix)
    }

    fn integers(&mut self, depth: u32) -> Option<(Integer, Integer)> {
        Some((self.integer(depth + 1)?, self.integer(depth + 1)?))
    }

    fn boolean(&mut self, depth: u32) -> Option<Boolean> {
        match self.operator(depth)? {
            0x10 => match self.byte()? {
                0 => Some(Boolean::Constant(false)),
                1 => Some(Boolean::Constant(true)),
                _ => None,
            },
            0x11 => self.boolean_variable().map(Boolean::Variable),
            0x12 => Some(Boolean::Not(Box::new(self.boolean(depth + 1)?))),
            0x13 => {
                let (a, b) = self.booleans(depth)?;
                Some(Boolean::And(Box::new(a), Box::new(b)))
            }
            0x14 => {
                let (a, b) = self.booleans(depth)?;
                Some(Boolean::Or(Box::new(a), Box::new(b)))
            }
            0x15 => self.integers(depth).map(|(a, b)| Boolean::Equal(a, b)),
            0x16 => self.integers(depth).map(|(a, b)| Boolean::Less(a, b)),
            0x17 if self.names.next_state => self.boolean_variable().map(Boolean::NextVariable),
            _ => None,
        }
    }

    fn boolean_variable(&mut self) -> Option<u8> {
        let variable = self.byte()?;
        (self.names.kind(variable)? != Kind::Integer).then_some(variable)
    }

    fn booleans(&mut self, depth: u32) -> Option<(Boolean, Boolean)> {
        Some((self.boolean(depth + 1)?, self.boolean(depth + 1)?))
    }

    /// `ifs` is the number of ifs around this list.
    fn list(&mut self, ifs: u32) -> Option<Vec<Statement>> {
        let count = self.byte()?;
        (0..count).map(|_| self.statement(ifs)).collect()
    }

    fn statement(&mut self, ifs: u32) -> Option<Statement> {
        match self.byte()? {
            0x20 => self.assignment(),
            0x21 if ifs < MAX_NESTED_IFS => {
                let condition = self.boolean(1)?;
                Some(Statement::If(condition, self.list(ifs + 1)?, self.list(ifs + 1)?))
            }
            _ => None,
        }
    }

    fn assignment(&mut self) -> Option<Statement> {
        let variable = self.byte()?;
        match self.names.kind(variable)? {
            Kind::Integer => Some(Statement::AssignInteger(variable, self.integer(1)?)),
            _ => Some(Statement::AssignBoolean(variable, self.boolean(1)?)),
        }
    }
}

//! Document 01 as a model, written from the paper: numbers, lines, the list of steps, walks and
//! reads. It shares nothing with the library under test.

use crate::faults::Fault;
use crate::script::{Answer, Call};

#[derive(Clone, Copy, Debug, PartialEq, Eq)]
pub enum Side {
    Left,
    Right,
}

use Side::{Left, Right};

impl Side {
    pub fn other(self) -> Side {
        match self {
            Left => Right,
            Right => Left,
        }
    }
}

/// Line, LEFT word, RIGHT word and the live page. Line 1 is also line 4.
pub const TABLE: [(u8, u32, u32, Side); 9] = [
    (1, 0xFFFF0000, 0xFFFFFFFF, Left),
    (2, 0xFFFF0000, 0xFF00FFFF, Left),
    (3, 0xFFFF0000, 0xFF000000, Left),
    (5, 0xFFFF0000, 0xFFFFFF00, Right),
    (6, 0xFF000000, 0xFFFFFF00, Right),
    (7, 0xFF000000, 0xFFFF0000, Right),
    (8, 0xFFFFFFFF, 0xFFFF0000, Right),
    (9, 0xFFFFFF00, 0xFFFF0000, Left),
    (10, 0xFFFFFF00, 0xFF000000, Left),
];

#[derive(Clone, Debug, PartialEq, Eq)]
pub struct Pages {
    pub left: Vec<u8>,
    pub right: Vec<u8>,
}

impl Pages {
    pub fn page(&self, side: Side) -> &[u8] {
        match side {
            Left => &self.left,
            Right => &self.right,
        }
    }

    fn page_mut(&mut self, side: Side) -> &mut [u8] {
        match side {
            Left => &mut self.left,
            Right => &mut self.right,
        }
    }
}

/// The management word of a page of 4 bytes or more.
pub fn word(page: &[u8]) -> u32 {
    u32::from_le_bytes([page[0], page[1], page[2], page[3]])
}

/// The live page of a line.
pub fn live_at(line: u8) -> Option<Side> {
    TABLE.iter().find(|row| row.0 == line).map(|row| row.3)
}

#[derive(Clone, Copy, Debug, PartialEq, Eq)]
pub enum Request {
    Save,
    Format,
}

#[derive(Clone, Copy)]
enum Step {
    Program {
        side: Side,
        cell: usize,
        to: u16,
    },
    /// An image cell, named by its place in the page; its number is that of the new image.
    Image {
        side: Side,
        cell: usize,
    },
    Erase(Side),
}

/// A step and the line of the pages before it.
#[derive(Clone, Copy)]
struct Entry {
    line: u8,
    step: Step,
}

fn program(line: u8, side: Side, cell: usize, to: u16) -> Entry {
    Entry { line, step: Step::Program { side, cell, to } }
}

fn erase(line: u8, side: Side) -> Entry {
    Entry { line, step: Step::Erase(side) }
}

/// A list of steps: some before the image cells, the image cells of a page, and some after them.
#[derive(Clone)]
pub struct List {
    before: Vec<Entry>,
    cells: usize,
    cells_line: u8,
    cells_side: Side,
    descending: bool,
    after: Vec<Entry>,
    /// The place of the deciding store, counted from 1; 0 if there are no steps.
    pub deciding: usize,
}

impl List {
    pub fn total(&self) -> usize {
        self.before.len() + self.cells + self.after.len()
    }

    fn entry(&self, place: usize) -> Option<Entry> {
        if let Some(entry) = self.before.get(place) {
            return Some(*entry);
        }
        let place = place - self.before.len();
        if place >= self.cells {
            return self.after.get(place - self.cells).copied();
        }
        let index = if self.descending { self.cells - 1 - place } else { place };
        let step = Step::Image { side: self.cells_side, cell: 4 + 2 * index };
        Some(Entry { line: self.cells_line, step })
    }
}

/// The rules of the paper, with at most one fault planted in them.
#[derive(Clone, Copy)]
pub struct Rules {
    pub fault: Option<Fault>,
}

impl Rules {
    pub fn has(self, fault: Fault) -> bool {
        self.fault == Some(fault)
    }

    /// Whether number 1 is not given.
    pub fn lengths_are_legal(self, left: usize, right: usize) -> bool {
        left == right && left % 2 == 0 && (8..=4096).contains(&left)
    }

    /// Numbers 1 to 4 of a request on pages of these lengths, in the table's order.
    pub fn number(self, left: usize, right: usize, offset: u32, length: u64) -> Option<u8> {
        if !self.lengths_are_legal(left, right) {
            return Some(1);
        }
        let (p, offset) = (left as u64, offset as u64);
        if self.has(Fault::ThreeBeforeTwo) && offset < 4 {
            return Some(3);
        }
        if offset % 2 == 1 || length % 2 == 1 {
            return Some(2);
        }
        if offset < 4 {
            return Some(3);
        }
        let mut end = offset + length;
        if self.has(Fault::SumWraps) {
            end &= 0xFFFF_FFFF;
        }
        (offset >= p || end > p).then_some(4)
    }

    /// The line of two pages of legal length.
    pub fn line(self, pages: &Pages) -> u8 {
        let spare = if self.has(Fault::SpareNotCompared) { 0xFF00_0000 } else { 0 };
        let words = (word(&pages.left) | spare, word(&pages.right) | spare);
        if self.has(Fault::TwoActivePages) && words == (0xFFFF0000, 0xFFFF0000) {
            return 3;
        }
        TABLE.iter().find(|row| (row.1, row.2) == words).map_or(0, |row| row.0)
    }

    fn is_erased(self, page: &[u8]) -> bool {
        if self.has(Fault::BlankWordIsErased) {
            return word(page) == 0xFFFFFFFF;
        }
        page.iter().all(|byte| *byte == 0xFF)
    }

    /// Erased-or-not as a walk keeps it: of both pages at line 0, of the page that isn't live
    /// elsewhere.
    pub fn erased(self, pages: &Pages, line: u8) -> bool {
        match live_at(line) {
            None => self.is_erased(&pages.left) && self.is_erased(&pages.right),
            Some(live) => self.is_erased(pages.page(live.other())),
        }
    }

    /// The list of steps of a request that is begun at this line.
    pub fn list(self, request: Request, p: usize, line: u8, erased: bool) -> List {
        match (request, live_at(line)) {
            (Request::Format, _) => self.list_of_format(line, erased),
            (Request::Save, None) => self.list_at_line_zero(p, erased),
            (Request::Save, Some(live)) => self.list_of_save(p, line, live, erased),
        }
    }

    fn list_of_format(self, line: u8, erased: bool) -> List {
        let none = line == 0 && erased;
        let steps = vec![program(line, Right, 2, 0x0000), erase(0, Left), erase(0, Right)];
        List {
            before: if none { Vec::new() } else { steps },
            cells: 0,
            cells_line: 0,
            cells_side: Left,
            descending: false,
            after: Vec::new(),
            deciding: if none { 0 } else { 1 },
        }
    }

    fn list_at_line_zero(self, p: usize, erased: bool) -> List {
        let mut before = Vec::new();
        if !erased {
            if !self.has(Fault::NoSpoilingStep) {
                before.push(program(0, Right, 2, 0x0000));
            }
            before.push(erase(0, Left));
            before.push(erase(0, Right));
        }
        let after = vec![
            program(0, Left, 0, 0x0000),
            program(1, Right, 2, 0xFF00),
            program(2, Right, 0, 0x0000),
        ];
        self.with_cells(before, p, 0, Left, after)
    }

    fn list_of_save(self, p: usize, line: u8, live: Side, erased: bool) -> List {
        let dead = live.other();
        // The lines of a live page: beside a marked page, beside a blank one, after the deciding
        // store, and after the formerly live page is invalidated.
        let (marked, blank, decided, invalidated) = match live {
            Left => (3, 1, 5, 6),
            Right => (7, 8, 9, 10),
        };
        let mut before = self.tidying(line);
        if self.has(Fault::LineTwoNotTidied) && line == 2 {
            before = vec![erase(2, dead)];
        } else if line != blank {
            before.push(erase(marked, dead));
        } else if !erased {
            before.push(erase(blank, dead));
        }
        let mark = if self.has(Fault::CommitMarksAtOnce) { 0x0000 } else { 0xFF00 };
        let after = vec![
            program(blank, dead, 0, mark),
            program(decided, live, 2, 0xFF00),
            program(invalidated, dead, 0, 0x0000),
        ];
        self.with_cells(before, p, blank, dead, after)
    }

    fn tidying(self, line: u8) -> Vec<Entry> {
        let mut steps = match line {
            2 => vec![program(2, Right, 0, 0x0000)],
            5 => vec![program(5, Left, 2, 0xFF00), program(6, Right, 0, 0x0000)],
            6 => vec![program(6, Right, 0, 0x0000)],
            9 => vec![program(9, Right, 2, 0xFF00), program(10, Left, 0, 0x0000)],
            10 => vec![program(10, Left, 0, 0x0000)],
            _ => vec![],
        };
        if self.has(Fault::TidyingSwapped) && steps.len() == 2 {
            steps.swap(0, 1);
            (steps[0].line, steps[1].line) = (line, 0);
        }
        steps
    }

    /// The list with the deciding store as the first step after the image cells.
    fn with_cells(
        self,
        before: Vec<Entry>,
        p: usize,
        line: u8,
        side: Side,
        after: Vec<Entry>,
    ) -> List {
        let cells = (p - 4) / 2;
        List {
            deciding: before.len() + cells + 1,
            before,
            cells,
            cells_line: line,
            cells_side: side,
            descending: self.has(Fault::CellsDescend),
            after,
        }
    }
}

/// A walk: what it keeps, and its list of steps, which follows from that.
#[derive(Clone)]
struct Walk {
    request: Request,
    p: usize,
    offset: u32,
    length: u64,
    line: u8,
    place: usize,
    list: List,
}

impl Walk {
    /// A walk on pages of legal length, at its first step.
    fn begin(rules: Rules, pages: &Pages, request: Request, offset: u32, length: u64) -> Walk {
        let (p, line) = (pages.left.len(), rules.line(pages));
        let list = rules.list(request, p, line, rules.erased(pages, line));
        Walk { request, p, offset, length, line, place: 0, list }
    }

    /// Number 6 by the lengths and kept numbers, before the list is looked at.
    fn misfits(&self, rules: Rules, pages: &Pages, data: &[u8]) -> bool {
        let (left, right) = (pages.left.len(), pages.right.len());
        let ended = self.place == self.list.total();
        let length_differs = data.len() as u64 != self.length;
        rules.number(left, right, self.offset, self.length).is_some()
            || left != self.p
            || (length_differs && !(ended && rules.has(Fault::EndedBeforeLength)))
            || (self.request == Request::Format && (self.offset, self.length) != (4, 0))
            || self.place > self.list.total()
    }

    fn step(&mut self, rules: Rules, pages: &mut Pages, data: &[u8]) -> Answer<'static> {
        if self.misfits(rules, pages, data) {
            return Answer::Number(6);
        }
        let Some(entry) = self.list.entry(self.place) else {
            return Answer::Ended;
        };
        if rules.line(pages) != entry.line || !self.store(rules, pages, data, entry.step) {
            return Answer::Number(6);
        }
        self.place += 1;
        Answer::Made
    }

    /// Makes a step; false, and nothing stored, if it would turn a 0 bit into a 1.
    fn store(&self, rules: Rules, pages: &mut Pages, data: &[u8], step: Step) -> bool {
        match step {
            Step::Erase(side) => {
                pages.page_mut(side).fill(0xFF);
                true
            }
            Step::Program { side, cell, to } => program_cell(pages.page_mut(side), cell, to),
            Step::Image { side, cell } => {
                let live = pages.page(side.other());
                let low = self.new_byte(rules, live, data, cell);
                let high = self.new_byte(rules, live, data, cell + 1);
                program_cell(pages.page_mut(side), cell, u16::from_le_bytes([low, high]))
            }
        }
    }

    /// The byte of the new image at this place of the page.
    fn new_byte(&self, rules: Rules, live: &[u8], data: &[u8], place: usize) -> u8 {
        let mut first = self.offset as usize;
        if rules.has(Fault::LaidFourTooLow) {
            first -= 4;
        }
        match place.checked_sub(first).and_then(|index| data.get(index)) {
            Some(byte) => *byte,
            None if self.line == 0 => 0xFF,
            None => live[place],
        }
    }
}

fn program_cell(page: &mut [u8], cell: usize, to: u16) -> bool {
    let old = u16::from_le_bytes([page[cell], page[cell + 1]]);
    if to & !old != 0 {
        return false;
    }
    page[cell..cell + 2].copy_from_slice(&(old & to).to_le_bytes());
    true
}

/// Two pages, and the walk in hand with the data of its save.
#[derive(Clone)]
pub struct Board {
    rules: Rules,
    pub pages: Pages,
    walk: Option<Walk>,
    held: Vec<u8>,
}

impl Board {
    /// The board after power is switched on: no walk is in hand.
    pub fn new(rules: Rules, pages: Pages) -> Board {
        Board { rules, pages, walk: None, held: Vec::new() }
    }

    /// Makes a call and puts its answers, one for each step of a call of kind 3, behind the others.
    pub fn make(&mut self, call: &Call, answers: &mut Vec<u8>) {
        match *call {
            Call::Save { offset, data } => {
                let number = self.number(offset, data.len() as u64);
                self.begin(number, Request::Save, offset, data).encode(answers)
            }
            Call::Format => {
                let (left, right) = (self.pages.left.len(), self.pages.right.len());
                let legal = self.rules.lengths_are_legal(left, right);
                let number = if legal { None } else { Some(1) };
                self.begin(number, Request::Format, 4, &[]).encode(answers)
            }
            Call::Steps { count } => (0..count).for_each(|_| self.step(None).encode(answers)),
            Call::StepWith { data } => self.step(Some(data)).encode(answers),
            Call::Read { offset, length } => match self.part(offset, length as u64) {
                Ok(part) => Answer::Part(part).encode(answers),
                Err(number) => Answer::Number(number).encode(answers),
            },
            Call::ReadInto { offset, output } => self.read_into(offset, output, answers),
            Call::Cut => {
                self.drop_walk();
                Answer::Nothing.encode(answers)
            }
        }
    }

    /// How many steps the walk in hand has; 0 with no walk.
    pub fn total(&self) -> u32 {
        self.walk.as_ref().map_or(0, |walk| walk.list.total() as u32)
    }

    fn number(&self, offset: u32, length: u64) -> Option<u8> {
        self.rules.number(self.pages.left.len(), self.pages.right.len(), offset, length)
    }

    fn drop_walk(&mut self) {
        self.walk = None;
        self.held.clear();
    }

    fn begin(
        &mut self,
        number: Option<u8>,
        request: Request,
        offset: u32,
        data: &[u8],
    ) -> Answer<'static> {
        if let Some(number) = number {
            if self.rules.has(Fault::RefusalDropsWalk) {
                self.drop_walk();
            }
            return Answer::Number(number);
        }
        let length = data.len() as u64;
        self.walk = Some(Walk::begin(self.rules, &self.pages, request, offset, length));
        self.held.clear();
        self.held.extend_from_slice(data);
        Answer::Begun
    }

    /// A step with the held data, or with these bytes; as many as the held ones are the held ones.
    fn step(&mut self, bytes: Option<&[u8]>) -> Answer<'static> {
        let Some(walk) = &mut self.walk else {
            return Answer::Nothing;
        };
        let own =
            |bytes: &[u8]| bytes.len() != self.held.len() || self.rules.has(Fault::OtherBytesTaken);
        let data = match bytes {
            Some(bytes) if own(bytes) => bytes,
            _ => &self.held,
        };
        walk.step(self.rules, &mut self.pages, data)
    }

    /// The asked part of the live page, or the number.
    fn part(&self, offset: u32, length: u64) -> Result<&[u8], u8> {
        if let Some(number) = self.number(offset, length) {
            return Err(number);
        }
        let live = live_at(self.rules.line(&self.pages));
        if live.is_none() && length == 0 && self.rules.has(Fault::EmptyReadIsLegal) {
            return Ok(&[]);
        }
        let page = self.pages.page(live.ok_or(5)?);
        // Only a planted fault asks for a part that isn't there.
        let (first, end) = (offset as usize, offset as usize + length as usize);
        Ok(page.get(first..end).unwrap_or(&[]))
    }

    fn read_into(&self, offset: u32, output: &[u8], answers: &mut Vec<u8>) {
        match self.part(offset, output.len() as u64) {
            Ok(part) => Answer::Output(0, part).encode(answers),
            Err(5) if !self.rules.has(Fault::OutputKeptAtLineZero) => {
                Answer::Output(5, &vec![0xFF; output.len()]).encode(answers)
            }
            Err(number) => Answer::Output(number, output).encode(answers),
        }
    }
}

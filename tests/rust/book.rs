//! The book of demand 3 of document 01, over the model's numbers, lines and lists.

use crate::model::{live_at, Pages, Request, Rules};
use crate::script::{Answer, Call};

/// The walk in hand as the book holds it; of a format, no offset and no data.
struct BookWalk {
    save: Option<(u32, Vec<u8>)>,
    total: usize,
    deciding: usize,
    made: usize,
}

/// The book of demand 3. It sees the pages at the start and at beginnings only.
pub struct Book {
    rules: Rules,
    lengths: (usize, usize),
    image: Option<Vec<u8>>,
    walk: Option<BookWalk>,
}

impl Book {
    pub fn new(rules: Rules, pages: &Pages) -> Book {
        let lengths = (pages.left.len(), pages.right.len());
        let legal = rules.lengths_are_legal(lengths.0, lengths.1);
        let live = if legal { live_at(rules.line(pages)) } else { None };
        let image = live.map(|side| pages.page(side)[4..].to_vec());
        Book { rules, lengths, image, walk: None }
    }

    /// Makes a call and puts its answers behind the others. The pages are looked at by beginnings
    /// only, and are those before the call.
    pub fn make(&mut self, call: &Call, pages: &Pages, answers: &mut Vec<u8>) {
        match *call {
            Call::Save { offset, data } => {
                let number = self.number(offset, data.len() as u64);
                self.begin(number, Some((offset, data)), pages).encode(answers)
            }
            Call::Format => {
                let legal = self.rules.lengths_are_legal(self.lengths.0, self.lengths.1);
                let number = if legal { None } else { Some(1) };
                self.begin(number, None, pages).encode(answers)
            }
            Call::Steps { count } => (0..count).for_each(|_| self.step(None).encode(answers)),
            Call::StepWith { data } => self.step(Some(data.len())).encode(answers),
            Call::Read { offset, length } => match self.part(offset, length as u64) {
                Ok(part) => Answer::Part(part).encode(answers),
                Err(number) => Answer::Number(number).encode(answers),
            },
            Call::ReadInto { offset, output } => match self.part(offset, output.len() as u64) {
                Ok(part) => Answer::Output(0, part).encode(answers),
                Err(5) => Answer::Output(5, &vec![0xFF; output.len()]).encode(answers),
                Err(number) => Answer::Output(number, output).encode(answers),
            },
            Call::Cut => {
                self.walk = None;
                Answer::Nothing.encode(answers)
            }
        }
    }

    fn number(&self, offset: u32, length: u64) -> Option<u8> {
        self.rules.number(self.lengths.0, self.lengths.1, offset, length)
    }

    fn begin(
        &mut self,
        number: Option<u8>,
        save: Option<(u32, &[u8])>,
        pages: &Pages,
    ) -> Answer<'static> {
        if let Some(number) = number {
            return Answer::Number(number);
        }
        let line = self.rules.line(pages);
        let request = if save.is_some() { Request::Save } else { Request::Format };
        let erased = self.rules.erased(pages, line);
        let list = self.rules.list(request, self.lengths.0, line, erased);
        self.walk = Some(BookWalk {
            save: save.map(|(offset, data)| (offset, data.to_vec())),
            total: list.total(),
            deciding: list.deciding,
            made: 0,
        });
        Answer::Begun
    }

    /// A step with the held data, or with data of this length.
    fn step(&mut self, length: Option<usize>) -> Answer<'static> {
        let Some(walk) = &mut self.walk else {
            return Answer::Nothing;
        };
        let held = walk.save.as_ref().map_or(0, |(_, data)| data.len());
        if length.is_some_and(|length| length != held) {
            return Answer::Number(6);
        }
        if walk.made == walk.total {
            return Answer::Ended;
        }
        walk.made += 1;
        if walk.made == walk.deciding {
            self.image = match &walk.save {
                None => None,
                Some((offset, data)) => {
                    let blank = || vec![0xFF; self.lengths.0 - 4];
                    let mut image = self.image.take().unwrap_or_else(blank);
                    let first = *offset as usize - 4;
                    image[first..first + data.len()].copy_from_slice(data);
                    Some(image)
                }
            };
        }
        Answer::Made
    }

    fn part(&self, offset: u32, length: u64) -> Result<&[u8], u8> {
        if let Some(number) = self.number(offset, length) {
            return Err(number);
        }
        let image = self.image.as_ref().ok_or(5)?;
        let first = offset as usize - 4;
        Ok(&image[first..first + length as usize])
    }
}

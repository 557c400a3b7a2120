//! Walks that are cut after every step and begun again.

use crate::cases::{
    case_name, data, group, pages, pairs, read_all, saves, whole_walk, Dirt, Group, Job, Request,
    DIRT,
};
use crate::compare::{Case, Checker, Outcome};
use crate::model::{Board, Pages};
use crate::script::{encode, room, Call, Wanted, MADE};

/// A walk from its beginning to one step past its end, cut after every step.
struct Cuts<'a> {
    start: &'a Pages,
    request: &'a Request,
    /// The requests that are begun after each cut and stepped to one past their end.
    again: &'a [&'a Request],
    name: &'a dyn Fn() -> String,
}

impl Cuts<'_> {
    fn check(&self, checker: &mut Checker) -> Outcome {
        let mut board = Board::new(checker.rules, self.start.clone());
        let mut answers = Vec::new();
        board.make(&self.request.call(), &mut answers);
        let mut steps = 0;
        loop {
            self.cut(checker, &board, &answers, steps)?;
            for request in self.again {
                self.begin_again(checker, &board.pages, request, steps)?;
            }
            if steps > 0 && answers.last() != Some(&MADE) {
                return Ok(());
            }
            board.make(&Call::Steps { count: 1 }, &mut answers);
            steps += 1;
        }
    }

    /// The library walks from the start; the model has walked as far already.
    fn cut(&self, checker: &mut Checker, board: &Board, answers: &[u8], steps: u32) -> Outcome {
        let output = data(board.pages.left.len() - 4);
        let tail = read_all(&output);
        let mut script = encode(&[self.request.call(), Call::Steps { count: steps }, Call::Cut]);
        script.extend_from_slice(&encode(&tail));
        let (mut after, mut wanted) = (board.clone(), answers.to_vec());
        after.make(&Call::Cut, &mut wanted);
        tail.iter().for_each(|call| after.make(call, &mut wanted));
        let name = || format!("{}, cut after {steps} steps", (self.name)());
        let out = room(&script) as usize;
        let case = Case { name: &name, pages: self.start, script: &script, out };
        checker.compare(&case, &Wanted::replayed(wanted, after.pages))
    }

    fn begin_again(
        &self,
        checker: &mut Checker,
        pages: &Pages,
        request: &Request,
        steps: u32,
    ) -> Outcome {
        let name = || {
            let again = request.name();
            format!("{}, cut after {steps} steps, then {again} to its end", (self.name)())
        };
        whole_walk(checker, &name, pages, request).map(|_| ())
    }
}

/// All pairs, all dirt of both pages, all requests, cut after every step, begun again with the same
/// request and with the other kind.
pub fn cuts_of_short_pages(p: usize) -> Group {
    let job = move |words| -> Job {
        Box::new(move |checker| {
            for (left, right) in DIRT.iter().flat_map(|left| DIRT.map(|right| (*left, right))) {
                cut_all_requests(checker, p, words, (left, right), &saves(p))?;
            }
            Ok(())
        })
    };
    group(format!("cut after every step, P = {p}"), pairs().into_iter().map(job).collect())
}

fn cut_all_requests(
    checker: &mut Checker,
    p: usize,
    words: (u32, u32),
    dirt: (Dirt, Dirt),
    saves: &[Request],
) -> Outcome {
    let start = pages(p, words, dirt);
    let middle = &saves[saves.len() / 2];
    for request in saves {
        let name = || case_name(p, words, dirt, request);
        let again = [request, &Request::Format];
        Cuts { start: &start, request, again: &again, name: &name }.check(checker)?;
    }
    let request = &Request::Format;
    let name = || case_name(p, words, dirt, request);
    Cuts { start: &start, request, again: &[request, middle], name: &name }.check(checker)
}

/// As with short pages, but of the saves one at the end or one of the whole image, and each replay
/// at one edge in turn.
pub fn cuts_of_long_pages() -> Group {
    let p = 4096;
    let mut jobs: Vec<Job> = Vec::new();
    for words in pairs() {
        for (index, left) in [Dirt::Clean, Dirt::Full].into_iter().enumerate() {
            for (other, right) in [Dirt::Clean, Dirt::Full].into_iter().enumerate() {
                let save = saves(p).swap_remove(if index == other { 2 } else { 3 });
                let saves = vec![save];
                jobs.push(Box::new(move |checker| {
                    checker.in_turn(true);
                    let outcome = cut_all_requests(checker, p, words, (left, right), &saves);
                    checker.in_turn(false);
                    outcome
                }));
            }
        }
    }
    group("cut after every step, P = 4096 (edges in turn)", jobs)
}

/// At P = 8 a cut, the request begun again and cut again after every step, and a third time whole.
pub fn second_cuts() -> Group {
    let job = |words| -> Job {
        Box::new(move |checker| {
            for dirt in [(Dirt::Clean, Dirt::Full), (Dirt::Full, Dirt::Clean)] {
                second_cuts_of(checker, words, dirt)?;
            }
            Ok(())
        })
    };
    group("cut twice, P = 8", pairs().into_iter().map(job).collect())
}

fn second_cuts_of(checker: &mut Checker, words: (u32, u32), dirt: (Dirt, Dirt)) -> Outcome {
    let save = Request::Save(6, data(2));
    let other = Request::Save(4, vec![0xA5; 4]);
    let start = pages(8, words, dirt);
    for first in [&save, &Request::Format] {
        for steps in 0..9 {
            let script = encode(&[first.call(), Call::Steps { count: steps }]);
            let name = || format!("{}, cut after {steps}", case_name(8, words, dirt, first));
            let middle = checker.replay(&name, &start, &script, 0)?;
            for second in [&save, &other, &Request::Format] {
                let name = || format!("{}, then {}", name(), second.name());
                let again = [&other, &Request::Format];
                Cuts { start: &middle, request: second, again: &again, name: &name }
                    .check(checker)?;
            }
        }
    }
    Ok(())
}

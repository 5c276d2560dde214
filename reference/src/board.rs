//! A powered board and its moves (docs/MOVES.md).

use crate::layout::{Act, Par, PointId, Program};
use crate::numbers::Kind;
use crate::tree::Operator;
use crate::unfolding::{Code, Copied};
use std::collections::VecDeque;

#[derive(Clone, Copy, Debug, PartialEq, Eq)]
pub enum Local {
    Idle,
    Running(PointId),
    Parted(PointId),
    Finished,
    Poisoned,
}

/// A move, in the order of names.
#[derive(Clone, Copy, Debug, PartialEq, Eq, PartialOrd, Ord)]
pub enum Move {
    Step { place: usize },
    Close { place: usize },
    Meet { home: usize },
    Poison { place: usize, home: usize },
}

#[derive(Clone, Copy, Debug, PartialEq, Eq)]
pub enum Verdict {
    Finished,
    Deadlock,
    Moving,
}

/// The words still to come at each of the eight ports.
pub type Bank = [VecDeque<u32>; 8];

/// All that moves change.
#[derive(Clone, Debug, PartialEq, Eq)]
pub struct State {
    pub locals: Vec<Local>,
    pub marks: Vec<Option<usize>>,
    pub cells: Vec<u32>,
    pub steps: Vec<u64>,
    pub meets: Vec<u64>,
    pub moves: u64,
    pub bank: Bank,
}

/// The places, a bit for each.
fn bits(set: u64) -> impl Iterator<Item = usize> {
    (0..64).filter(move |place| set >> place & 1 == 1)
}

fn has(set: u64, place: usize) -> bool {
    set >> place & 1 == 1
}

#[derive(Clone, Debug)]
pub struct Board<'p> {
    pub program: &'p Program,
    pub kind: Kind,
    pub state: State,
}

impl<'p> Board<'p> {
    pub fn power(program: &'p Program, kind: Kind, bank: Bank) -> Self {
        let places = program.places.len();
        let mut locals = vec![Local::Idle; places];
        locals[0] = Local::Running(program.places[0].start);
        let state = State {
            locals,
            marks: vec![None; places],
            cells: vec![0; program.cells.len()],
            steps: vec![0; places],
            meets: vec![0; program.cells.len()],
            moves: 0,
            bank,
        };
        Board { program, kind, state }
    }

    fn act(&self, point: PointId) -> &'p Act {
        &self.program.points[point].act
    }

    /// The home that a running place before a next waits for.
    pub fn waits(&self, place: usize) -> Option<usize> {
        match self.state.locals[place] {
            Local::Running(point) => match self.act(point) {
                Act::Next { home, .. } => Some(*home),
                _ => None,
            },
            _ => None,
        }
    }

    /// The offset of the statement at which a place stands.
    pub fn stands_at(&self, place: usize) -> Option<usize> {
        match self.state.locals[place] {
            Local::Running(point) | Local::Parted(point) => self.program.points[point].offset,
            _ => None,
        }
    }

    fn places_where(&self, test: impl Fn(Local) -> bool) -> u64 {
        let locals = self.state.locals.iter().enumerate();
        locals.fold(0, |set, (place, local)| set | u64::from(test(*local)) << place)
    }

    fn live(&self) -> u64 {
        self.places_where(|local| !matches!(local, Local::Idle | Local::Finished))
    }

    fn busy(&self) -> u64 {
        self.places_where(|local| matches!(local, Local::Running(_) | Local::Parted(_)))
    }

    /// The live places that know a home.
    fn live_knowing(&self, home: usize) -> u64 {
        self.program.knows[home] & self.live()
    }

    /// The places that are ready for a home. Children stand after their
    /// parents, so that going backward finds them first.
    fn ready(&self, home: usize) -> u64 {
        let live_knowing = self.live_knowing(home);
        let mut ready = 0;
        for place in (0..self.state.locals.len()).rev() {
            let is_ready = match self.state.locals[place] {
                Local::Running(_) => self.waits(place) == Some(home),
                Local::Parted(_) => {
                    let children = self.program.places[place].children & live_knowing;
                    children != 0 && children & !ready == 0
                }
                _ => false,
            };
            ready |= u64::from(is_ready) << place;
        }
        ready
    }

    /// The places that are spoiled for a home.
    fn spoiled(&self, home: usize) -> u64 {
        let live_knowing = self.live_knowing(home);
        let mut spoiled = 0;
        for place in (0..self.state.locals.len()).rev() {
            let is_spoiled = match self.state.locals[place] {
                Local::Poisoned => true,
                Local::Parted(_) if self.state.marks[place] == Some(0) => {
                    let children = self.program.places[place].children & live_knowing;
                    children == 0 || children & spoiled != 0
                }
                _ => false,
            };
            let knows = has(self.program.knows[home], place);
            spoiled |= u64::from(is_spoiled && knows) << place;
        }
        spoiled
    }

    /// The places that the readiness of a place for a home counts.
    fn counted(&self, place: usize, home: usize) -> u64 {
        let live_knowing = self.live_knowing(home);
        let mut counted = 1 << place;
        for place in place..self.state.locals.len() {
            if has(counted, place) && matches!(self.state.locals[place], Local::Parted(_)) {
                counted |= self.program.places[place].children & live_knowing;
            }
        }
        counted
    }

    /// The permitted moves in the order of names, found one after the other.
    pub fn permitted(&self) -> impl Iterator<Item = Move> + '_ {
        let closes = std::iter::once_with(|| self.closes()).flatten();
        let meets = std::iter::once_with(|| self.meets()).flatten();
        let poisons = std::iter::once_with(|| self.poisons()).flatten();
        self.steps().chain(closes).chain(meets).chain(poisons)
    }

    fn steps(&self) -> impl Iterator<Item = Move> + '_ {
        let places = 0..self.state.locals.len();
        let steps = places.filter(|place| {
            matches!(self.state.locals[*place], Local::Running(_)) && self.waits(*place).is_none()
        });
        steps.map(|place| Move::Step { place })
    }

    fn closes(&self) -> Vec<Move> {
        let busy = self.busy();
        let parted = self.places_where(|local| matches!(local, Local::Parted(_)));
        let closes = bits(parted).filter(|place| self.program.places[*place].children & busy == 0);
        closes.map(|place| Move::Close { place }).collect()
    }

    /// The homes that some place waits for, in order: there is no readiness
    /// for another.
    fn awaited(&self) -> Vec<usize> {
        let places = 0..self.state.locals.len();
        let mut homes: Vec<usize> = places.filter_map(|place| self.waits(place)).collect();
        homes.sort();
        homes.dedup();
        homes
    }

    fn meets(&self) -> Vec<Move> {
        let declarer = |home: usize| self.program.cells[home].place;
        let mut homes = self.awaited();
        homes.retain(|home| has(self.ready(*home), declarer(*home)));
        homes.into_iter().map(|home| Move::Meet { home }).collect()
    }

    fn poisons(&self) -> Vec<Move> {
        let mut poisons = Vec::new();
        for home in self.awaited() {
            let spoiled = self.spoiled(home) & self.live();
            let ready = self.ready(home) & self.program.knows[home];
            for place in bits(ready) {
                if self.siblings(place) & spoiled != 0 {
                    poisons.push(Move::Poison { place, home });
                }
            }
        }
        poisons.sort();
        poisons
    }

    fn siblings(&self, place: usize) -> u64 {
        let parent = self.program.places[place].parent;
        parent.map_or(0, |parent| self.program.places[parent].children & !(1 << place))
    }

    pub fn verdict(&self) -> Verdict {
        if self.state.locals[0] == Local::Finished {
            Verdict::Finished
        } else if self.permitted().next().is_none() {
            Verdict::Deadlock
        } else {
            Verdict::Moving
        }
    }

    /// Makes a permitted move.
    pub fn make(&mut self, made: Move) {
        self.state.moves += 1;
        match made {
            Move::Step { place } => self.step(place),
            Move::Close { place } => self.close(place),
            Move::Meet { home } => self.meet(home),
            Move::Poison { place, home } => self.poison(place, home),
        }
    }

    fn step(&mut self, place: usize) {
        let Local::Running(point) = self.state.locals[place] else {
            panic!("only a running place steps");
        };
        self.state.steps[place] += 1;
        self.state.locals[place] = match self.act(point) {
            Act::End => Local::Finished,
            Act::Var { cell, next } => {
                self.state.cells[*cell] = 0;
                Local::Running(*next)
            }
            Act::Set { cell, code, next } => {
                self.state.cells[*cell] = self.value(code);
                Local::Running(*next)
            }
            Act::Pass { next } => Local::Running(*next),
            Act::Decide { code, yes, no } => {
                Local::Running(if self.value(code) != 0 { *yes } else { *no })
            }
            Act::Call { copies, next } => {
                self.copy(copies);
                Local::Running(*next)
            }
            Act::Take { port, cell, next, other } => {
                let went = self.take(*port, *cell);
                Local::Running(if went { *next } else { *other })
            }
            Act::Par(par) => self.part(point, par),
            Act::Throw { catch } => Local::Running(*catch),
            Act::ThrowAbove { place: target, number } => self.throw(place, *target, *number),
            Act::Next { .. } => panic!("a place before a next does not step"),
        };
    }

    fn value(&self, code: &[Code]) -> u32 {
        let mut stack: Vec<u32> = Vec::new();
        for item in code {
            let word = match item {
                Code::Cell(cell) => self.state.cells[*cell],
                Code::Word(word) => *word,
                Code::Operator(Operator::Negate) => {
                    let word = stack.pop().expect("an operand");
                    self.kind.difference(0, word)
                }
                Code::Operator(operator) => {
                    let right = stack.pop().expect("an operand");
                    let left = stack.pop().expect("an operand");
                    self.operate(*operator, left, right)
                }
            };
            stack.push(word);
        }
        stack.pop().expect("a value")
    }

    fn operate(&self, operator: Operator, left: u32, right: u32) -> u32 {
        match operator {
            Operator::Equal => u32::from(left == right),
            Operator::Less => u32::from(self.kind.less(left, right)),
            Operator::Plus => self.kind.sum(left, right),
            Operator::Minus => self.kind.difference(left, right),
            Operator::Times => self.kind.product(left, right),
            Operator::Negate => panic!("a sign has one operand"),
        }
    }

    /// Copies words, all from the values before.
    fn copy(&mut self, copies: &[Copied]) {
        let words: Vec<u32> = copies.iter().map(|copy| self.state.cells[copy.from]).collect();
        for (copy, word) in copies.iter().zip(words) {
            self.state.cells[copy.to] = word;
        }
    }

    /// Takes a word into a cell; tells whether the else block is skipped.
    fn take(&mut self, port: usize, cell: usize) -> bool {
        match self.state.bank[port].pop_front() {
            Some(word) if self.kind.is_number(word) => {
                self.state.cells[cell] = word;
                true
            }
            _ => false,
        }
    }

    fn part(&mut self, point: PointId, par: &Par) -> Local {
        self.copy(&par.copies);
        for branch in &par.branches {
            self.state.locals[*branch] = Local::Running(self.program.places[*branch].start);
        }
        Local::Parted(point)
    }

    fn lower_mark(&mut self, place: usize, number: usize) {
        let mark = self.state.marks[place];
        self.state.marks[place] = Some(mark.map_or(number, |mark| mark.min(number)));
    }

    fn throw(&mut self, thrower: usize, target: usize, number: usize) -> Local {
        let mut above = self.program.places[thrower].parent.expect("a place above");
        while above != target {
            self.lower_mark(above, 0);
            above = self.program.places[above].parent.expect("a place above");
        }
        self.lower_mark(target, number);
        Local::Poisoned
    }

    fn close(&mut self, place: usize) {
        let Local::Parted(point) = self.state.locals[place] else {
            panic!("only a parted place closes");
        };
        let Act::Par(par) = self.act(point) else {
            panic!("a parted place stands at a par");
        };
        self.state.locals[place] = match self.state.marks[place] {
            None => Local::Running(par.after),
            Some(0) => Local::Poisoned,
            Some(number) => Local::Running(par.catches[number - 1]),
        };
        self.state.marks[place] = None;
        for child in bits(self.program.places[place].children) {
            self.state.locals[child] = Local::Idle;
        }
    }

    fn meet(&mut self, home: usize) {
        let word = self.state.cells[home];
        for place in bits(self.counted(self.program.cells[home].place, home)) {
            if let Local::Running(point) = self.state.locals[place] {
                let Act::Next { cell, next, .. } = self.act(point) else {
                    panic!("a counted running place waits");
                };
                self.state.cells[*cell] = word;
                self.state.locals[place] = Local::Running(*next);
            }
        }
        self.state.meets[home] += 1;
    }

    fn poison(&mut self, place: usize, home: usize) {
        for place in bits(self.counted(place, home)) {
            match self.state.locals[place] {
                Local::Running(_) => self.state.locals[place] = Local::Poisoned,
                Local::Parted(_) => self.lower_mark(place, 0),
                _ => panic!("a counted place waits or is parted"),
            }
        }
    }
}

#[cfg(test)]
mod tests {
    use super::*;
    use crate::clear;
    use crate::random::Random;
    use crate::runs;

    fn rested(text: &str, last: bool) -> State {
        let program = clear(text.as_bytes(), Kind::Binary).expect("accepted");
        let mut board = Board::power(&program, Kind::Binary, Bank::default());
        for _ in 0..10_000 {
            let moves: Vec<Move> = board.permitted().collect();
            assert!(moves.windows(2).all(|pair| pair[0] < pair[1]), "in the order of names");
            let Some(chosen) = (if last { moves.last() } else { moves.first() }) else { break };
            board.make(*chosen);
        }
        board.state
    }

    fn cells(text: &str) -> Vec<u32> {
        let first = rested(text, false);
        assert_eq!(first, rested(text, true), "the order does not matter");
        first.cells
    }

    #[test]
    fn the_boards_of_the_page_on_moves() {
        assert_eq!(cells("main { var a; a = 1; par { a = 2; next a; } { next a; }; }"), [2, 2]);
        let lesser = "main { var i; try { try { par { throw T; } { throw U; }; }
            catch (T) { } i = i + 1; } catch (U) { } }";
        assert_eq!(cells(lesser), [0]);
        let waiting = "main { var i; try { par { know i; throw T; } { i = 1; next i; i = 2; }; }
            catch (T) { } }";
        assert_eq!(cells(waiting)[0], 1);
        assert_eq!(cells(&waiting.replace("next i;", ""))[0], 2);
        let zero = "main { var i; try { par { try { par { throw U; } { throw T; }; }
            catch (U) { } i = 1; } { know i; }; } catch (T) { } }";
        assert_eq!(cells(zero)[0], 0);
        let through = "main { var a; var i; try { par { know a; throw T; } { par { par { next a; }
            { next a; }; i = 1; } { next a; }; }; } catch (T) { } }";
        assert_eq!(cells(through)[1], 0);
    }

    #[test]
    fn a_throw_poisons_inside_its_own_try() {
        let text = "main { var a; par { try { par { know a; throw T; } { next a; }; }
            catch (T) { } next a; } { next a; }; }";
        let state = rested(text, false);
        assert_eq!(state, rested(text, true));
        assert_eq!(state.locals[0], Local::Finished);
        assert_eq!(state.meets[0], 1);
    }

    #[test]
    fn readiness_does_not_look_at_marks() {
        let text = "main { var a; try { par { par { next a; } { throw T; }; } { next a; }; }
            catch (T) { } }";
        let state = rested(text, false);
        assert_eq!(state, rested(text, true));
        assert_eq!(state.meets[0], 1);
    }

    #[test]
    fn crossed_nexts_deadlock_and_finished_ones_do_not_count() {
        let crossed = "main { var a; var b; par { next a; next b; } { next b; next a; }; }";
        assert_eq!(rested(crossed, false).moves, 3);
        let early = "main { var a; par { next a; next a; } { next a; }; }";
        assert_eq!(rested(early, false).locals[0], Local::Finished);
    }

    #[test]
    fn arguments_are_the_values_before_the_call() {
        let text = "proc p(x, y, &z) { z = x * 10 + y; }
            main { var a; var b; a = 1; b = 2; p(b, a, a); }";
        assert_eq!(cells(text), [21, 2, 2, 1]);
    }

    #[test]
    fn a_word_that_is_no_number_is_used_up() {
        let text = b"main { var a; a = 5; take 3 a else { a = a + 1; } take 3 a else { } }";
        let program = clear(text, Kind::Decimal).expect("accepted");
        let mut bank = Bank::default();
        bank[3] = VecDeque::from([0xA, 0x12]);
        let mut board = Board::power(&program, Kind::Decimal, bank);
        let first_only = |board: &mut Board, moves: usize| {
            for _ in 0..moves {
                let first = board.permitted().next().expect("a move");
                board.make(first);
            }
        };
        first_only(&mut board, 4);
        assert_eq!(board.state.cells[0], 0x6);
        first_only(&mut board, 1);
        assert_eq!(board.state.cells[0], 0x12);
        assert!(board.state.bank[3].is_empty());
    }

    #[test]
    fn tries_are_numbered_through_calls() {
        let text = "proc p(&x) { try { par { throw U; } { while (1) { } }; } catch (T) { } }
            main { var x; try { try { p(x); } catch (U) { } } catch (V) { } }";
        let program = clear(text.as_bytes(), Kind::Binary).expect("accepted");
        let mut board = Board::power(&program, Kind::Binary, Bank::default());
        let mut random = Random::new(3);
        runs::run(&mut board, 100, |_| random.next() as u32, |_, _| {});
        assert_eq!(board.state.marks[0], Some(2));
        assert_eq!(board.state.locals[1], Local::Poisoned);
    }
}

//! The unfolded text laid out as points, places and cells (docs/MOVES.md).
//!
//! A point is where a statement stands, or the end of a place. Blocks are
//! entered and left without a move, so that plain blocks have no point and
//! each statement leads to the next point that there is.

use crate::unfolding::{self, Branch, Code, Copied, Statement, Unfolded};

pub type PointId = usize;

#[derive(Debug)]
pub struct Point {
    /// Where its statement stands in the text; none for the end of a place.
    pub offset: Option<usize>,
    pub act: Act,
}

#[derive(Debug)]
pub enum Act {
    End,
    Var {
        cell: usize,
        next: PointId,
    },
    Set {
        cell: usize,
        code: Vec<Code>,
        next: PointId,
    },
    Next {
        cell: usize,
        home: usize,
        next: PointId,
    },
    /// Only leads on: know, and try into its first block.
    Pass {
        next: PointId,
    },
    /// If and while.
    Decide {
        code: Vec<Code>,
        yes: PointId,
        no: PointId,
    },
    Call {
        copies: Vec<Copied>,
        next: PointId,
    },
    Take {
        port: usize,
        cell: usize,
        next: PointId,
        other: PointId,
    },
    Par(Par),
    /// A throw to a try of its own place.
    Throw {
        catch: PointId,
    },
    /// A throw to the try with this number at a place above.
    ThrowAbove {
        place: usize,
        number: usize,
    },
}

#[derive(Debug)]
pub struct Par {
    pub branches: Vec<usize>,
    pub copies: Vec<Copied>,
    pub after: PointId,
    /// The catch blocks of the tries that are open here in this place, the
    /// outermost first.
    pub catches: Vec<PointId>,
}

#[derive(Debug, Default)]
pub struct Place {
    pub parent: Option<usize>,
    pub start: PointId,
    /// Its children, a bit for each.
    pub children: u64,
}

#[derive(Debug)]
pub struct Cell {
    pub home: usize,
    /// Of a home, the place that declared it.
    pub place: usize,
}

#[derive(Debug)]
pub struct Program {
    pub points: Vec<Point>,
    pub places: Vec<Place>,
    pub cells: Vec<Cell>,
    /// For each home the places that know it, a bit for each.
    pub knows: Vec<u64>,
}

pub fn lay_out(unfolded: &Unfolded) -> Program {
    let cells = unfolded.cells.iter().map(|cell| Cell { home: cell.home, place: cell.place });
    let program = Program {
        points: Vec::new(),
        places: (0..unfolded.places).map(|_| Place::default()).collect(),
        cells: cells.collect(),
        knows: vec![0; unfolded.cells.len()],
    };
    let mut layout = Layout { program, tries: Vec::new() };
    layout.place(0, &unfolded.main);
    layout.program
}

struct Try<'t> {
    name: &'t str,
    place: usize,
    catch: PointId,
}

struct Layout<'t> {
    program: Program,
    /// The tries open around what is laid out, the outermost first.
    tries: Vec<Try<'t>>,
}

impl<'t> Layout<'t> {
    fn add(&mut self, offset: Option<usize>, act: Act) -> PointId {
        self.program.points.push(Point { offset, act });
        self.program.points.len() - 1
    }

    fn place(&mut self, place: usize, block: &[Statement<'t>]) {
        let end = self.add(None, Act::End);
        self.program.places[place].start = self.block(block, place, end);
    }

    /// Lays out a block from its end, and tells the point that it begins with.
    fn block(&mut self, block: &[Statement<'t>], place: usize, next: PointId) -> PointId {
        block.iter().rev().fold(next, |next, statement| self.statement(statement, place, next))
    }

    fn statement(&mut self, statement: &Statement<'t>, place: usize, next: PointId) -> PointId {
        use unfolding::Act as Source;
        let act = match &statement.act {
            Source::Plain(block) => return self.block(block, place, next),
            Source::While(code, block) => {
                return self.while_point(statement.offset, code, block, place, next)
            }
            Source::Var(cell) => Act::Var { cell: *cell, next },
            Source::Next(binding) => Act::Next { cell: binding.own, home: binding.home, next },
            Source::Know => Act::Pass { next },
            Source::Throw(name) => self.throw(name, place),
            Source::Set(cell, code) => Act::Set { cell: *cell, code: code.clone(), next },
            Source::Call(call) => {
                let next = self.block(&call.block, place, next);
                Act::Call { copies: call.copies.clone(), next }
            }
            Source::If(code, then, other) => {
                let yes = self.block(then, place, next);
                let no = self.block(other, place, next);
                Act::Decide { code: code.clone(), yes, no }
            }
            Source::Try(tried, name, catch) => {
                let catch = self.block(catch, place, next);
                self.tries.push(Try { name, place, catch });
                let next = self.block(tried, place, next);
                self.tries.pop();
                Act::Pass { next }
            }
            Source::Take(port, cell, other) => {
                let other = self.block(other, place, next);
                Act::Take { port: *port, cell: *cell, next, other }
            }
            Source::Par(branches) => self.par(branches, place, next),
        };
        self.add(Some(statement.offset), act)
    }

    /// The block of a while leads back to the while.
    fn while_point(
        &mut self,
        offset: usize,
        code: &[Code],
        block: &[Statement<'t>],
        place: usize,
        next: PointId,
    ) -> PointId {
        let point = self.add(Some(offset), Act::End);
        let yes = self.block(block, place, point);
        self.program.points[point].act = Act::Decide { code: code.to_vec(), yes, no: next };
        point
    }

    fn throw(&self, name: &str, place: usize) -> Act {
        let nearest = self.tries.iter().rposition(|open| open.name == name);
        let nearest = nearest.expect("throws are checked before layout");
        let target = &self.tries[nearest];
        if target.place == place {
            return Act::Throw { catch: target.catch };
        }
        let upto = self.tries[..=nearest].iter();
        let number = upto.filter(|open| open.place == target.place).count();
        Act::ThrowAbove { place: target.place, number }
    }

    fn par(&mut self, branches: &[Branch<'t>], place: usize, after: PointId) -> Act {
        let here = self.tries.iter().filter(|open| open.place == place);
        let catches = here.map(|open| open.catch).collect();
        for branch in branches {
            self.program.places[branch.place].parent = Some(place);
            self.program.places[place].children |= 1 << branch.place;
            for home in &branch.homes {
                self.program.knows[*home] |= 1 << branch.place;
            }
            self.place(branch.place, &branch.block);
        }
        Act::Par(Par {
            branches: branches.iter().map(|branch| branch.place).collect(),
            copies: branches.iter().flat_map(|branch| branch.copies.clone()).collect(),
            after,
            catches,
        })
    }
}

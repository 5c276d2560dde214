//! Stage 4: the tree becomes the unfolded text, in which each call is followed
//! by its procedure's block and names stand for cells (docs/UNFOLDING.md).

use crate::numbers::Kind;
use crate::refusal::{refuse, Cause, Refusal};
use crate::tree::{Expression, Form, Item, Name, Operator, Parameter, Procedure, Tree};
use std::collections::HashMap;

pub const MOST_STATEMENTS: usize = 1_024;
pub const MOST_PLACES: usize = 64;
pub const MOST_CELLS: usize = 128;

/// What a name stands for.
#[derive(Clone, Copy, Debug, PartialEq, Eq)]
pub struct Binding {
    pub own: usize,
    pub home: usize,
}

#[derive(Debug)]
pub struct Cell<'t> {
    pub home: usize,
    /// The name that brought it.
    pub name: Name<'t>,
    /// The place that it was brought in; of a home, the place that declared it.
    pub place: usize,
}

#[derive(Clone, Copy, Debug, PartialEq, Eq)]
pub enum Code {
    Cell(usize),
    Word(u32),
    Operator(Operator),
}

/// A word that is copied from one own cell into another.
#[derive(Clone, Copy, Debug, PartialEq, Eq)]
pub struct Copied {
    pub from: usize,
    pub to: usize,
}

#[derive(Debug)]
pub struct Branch<'t> {
    pub place: usize,
    /// The homes of the variables that it got.
    pub homes: Vec<usize>,
    /// The own cells of its parent that it writes.
    pub writes: Vec<usize>,
    /// The new cells and what they are copies of.
    pub copies: Vec<Copied>,
    pub block: Block<'t>,
}

pub type Block<'t> = Vec<Statement<'t>>;

#[derive(Debug)]
pub struct Statement<'t> {
    pub offset: usize,
    pub act: Act<'t>,
}

#[derive(Debug)]
pub enum Act<'t> {
    Var(usize),
    Next(Binding),
    Know,
    Throw(&'t str),
    Set(usize, Vec<Code>),
    Call(Call<'t>),
    Plain(Block<'t>),
    If(Vec<Code>, Block<'t>, Block<'t>),
    While(Vec<Code>, Block<'t>),
    Try(Block<'t>, &'t str, Block<'t>),
    Take(usize, usize, Block<'t>),
    Par(Vec<Branch<'t>>),
}

#[derive(Debug)]
pub struct Call<'t> {
    pub copies: Vec<Copied>,
    /// The own cells given by reference.
    pub references: Vec<usize>,
    pub block: Block<'t>,
}

#[derive(Debug)]
pub struct Unfolded<'t> {
    pub main: Block<'t>,
    pub statements: usize,
    pub places: usize,
    pub cells: Vec<Cell<'t>>,
}

/// The unfolded text of a tree whose names have been checked.
pub fn unfold<'t>(tree: &Tree<'t>, kind: Kind) -> Result<Unfolded<'t>, Refusal> {
    let procedures = tree.procedures.iter().map(|p| (p.name.text, p)).collect();
    let mut unfolder =
        Unfolder { procedures, kind, statements: 0, places: 1, begun_places: 1, cells: Vec::new() };
    let main = unfolder.block(&tree.main, &mut Scope::new(0))?;
    let Unfolder { statements, places, cells, .. } = unfolder;
    Ok(Unfolded { main, statements, places, cells })
}

/// The names visible at a point of the unfolded text, and the place it is in.
struct Scope<'t> {
    place: usize,
    names: Vec<(&'t str, Binding)>,
}

impl<'t> Scope<'t> {
    fn new(place: usize) -> Self {
        Scope { place, names: Vec::new() }
    }

    fn find(&self, name: &str) -> Option<Binding> {
        self.names.iter().find(|(known, _)| *known == name).map(|(_, binding)| *binding)
    }

    fn binding(&self, name: Name<'t>) -> Binding {
        self.find(name.text).expect("names are checked before unfolding")
    }
}

/// A variable that a branch got: its first occurrence and whether it is written.
struct Got<'t> {
    name: Name<'t>,
    written: bool,
}

struct Unfolder<'p, 't> {
    procedures: HashMap<&'t str, &'p Procedure<'t>>,
    kind: Kind,
    statements: usize,
    /// The places that statements so far have brought.
    places: usize,
    /// The places whose branches have begun.
    begun_places: usize,
    cells: Vec<Cell<'t>>,
}

impl<'t> Unfolder<'_, 't> {
    fn block(
        &mut self,
        block: &[crate::tree::Statement<'t>],
        scope: &mut Scope<'t>,
    ) -> Result<Block<'t>, Refusal> {
        let before = scope.names.len();
        let mut statements = Vec::with_capacity(block.len());
        for statement in block {
            let act = self.act(statement.offset, &statement.form, scope)?;
            statements.push(Statement { offset: statement.offset, act });
        }
        scope.names.truncate(before);
        Ok(statements)
    }

    /// Counts a statement with the places and cells that it brings.
    fn count(&mut self, offset: usize, places: usize, cells: usize) -> Result<(), Refusal> {
        self.statements += 1;
        self.places += places;
        let over = self.statements > MOST_STATEMENTS
            || self.places > MOST_PLACES
            || self.cells.len() + cells > MOST_CELLS;
        if over {
            return refuse(Cause::OverLimit, offset);
        }
        Ok(())
    }

    /// Brings a cell of its own, a copy of a variable of the scope.
    fn copy_cell(&mut self, name: Name<'t>, of: Binding, place: usize) -> Binding {
        let own = self.cells.len();
        self.cells.push(Cell { home: of.home, name, place });
        Binding { own, home: of.home }
    }

    fn act(
        &mut self,
        offset: usize,
        form: &Form<'t>,
        scope: &mut Scope<'t>,
    ) -> Result<Act<'t>, Refusal> {
        match form {
            Form::Var(name) => return self.var(offset, *name, scope),
            Form::Call(name, arguments) => return self.call(offset, *name, arguments, scope),
            Form::Par(branches) => return self.par(offset, branches, scope),
            _ => self.count(offset, 0, 0)?,
        }
        Ok(match form {
            Form::Next(name) => Act::Next(scope.binding(*name)),
            Form::Know(_) => Act::Know,
            Form::Throw(name) => Act::Throw(name.text),
            Form::Set(name, items) => Act::Set(scope.binding(*name).own, self.code(items, scope)),
            Form::Plain(block) => Act::Plain(self.block(block, scope)?),
            Form::If(condition, then, other) => {
                let code = self.code(condition, scope);
                let then = self.block(then, scope)?;
                Act::If(code, then, self.block(other, scope)?)
            }
            Form::While(condition, block) => {
                let code = self.code(condition, scope);
                Act::While(code, self.block(block, scope)?)
            }
            Form::Try(tried, name, catch) => {
                let tried = self.block(tried, scope)?;
                Act::Try(tried, name.text, self.block(catch, scope)?)
            }
            Form::Take(port, target, other) => {
                let own = scope.binding(*target).own;
                Act::Take(port.value as usize, own, self.block(other, scope)?)
            }
            Form::Var(_) | Form::Call(..) | Form::Par(_) => unreachable!("handled above"),
        })
    }

    fn code(&self, items: &Expression<'t>, scope: &Scope<'t>) -> Vec<Code> {
        let code = |item: &Item<'t>| match item {
            Item::Variable(name) => Code::Cell(scope.binding(*name).own),
            Item::Literal(number) => {
                Code::Word(self.kind.literal(number.value).expect("literals are checked"))
            }
            Item::Operator(operator) => Code::Operator(*operator),
        };
        items.iter().map(code).collect()
    }

    fn var(
        &mut self,
        offset: usize,
        name: Name<'t>,
        scope: &mut Scope<'t>,
    ) -> Result<Act<'t>, Refusal> {
        self.count(offset, 0, 1)?;
        let own = self.cells.len();
        self.cells.push(Cell { home: own, name, place: scope.place });
        scope.names.push((name.text, Binding { own, home: own }));
        Ok(Act::Var(own))
    }

    fn call(
        &mut self,
        offset: usize,
        name: Name<'t>,
        arguments: &[Name<'t>],
        scope: &Scope<'t>,
    ) -> Result<Act<'t>, Refusal> {
        let procedure = self.procedures[name.text];
        let by_value = |parameter: &&Parameter| !parameter.by_reference;
        self.count(offset, 0, procedure.parameters.iter().filter(by_value).count())?;
        let mut inside = Scope::new(scope.place);
        let mut copies = Vec::new();
        let mut references = Vec::new();
        for (parameter, argument) in procedure.parameters.iter().zip(arguments) {
            let given = scope.binding(*argument);
            let binding = if parameter.by_reference {
                references.push(given.own);
                given
            } else {
                let new = self.copy_cell(parameter.name, given, scope.place);
                copies.push(Copied { from: given.own, to: new.own });
                new
            };
            inside.names.push((parameter.name.text, binding));
        }
        let block = self.block(&procedure.block, &mut inside)?;
        Ok(Act::Call(Call { copies, references, block }))
    }

    fn par(
        &mut self,
        offset: usize,
        branches: &[crate::tree::Block<'t>],
        scope: &Scope<'t>,
    ) -> Result<Act<'t>, Refusal> {
        let gets: Vec<Vec<Got>> = branches.iter().map(|block| self.gets(block, scope)).collect();
        let read = gets.iter().flatten().filter(|got| !got.written).count();
        self.count(offset, branches.len(), read)?;
        let first_cell = self.cells.len();
        for got in gets.iter().flatten().filter(|got| !got.written) {
            // The place is known only when the branch begins.
            self.copy_cell(got.name, scope.binding(got.name), usize::MAX);
        }
        let mut new_cell = first_cell;
        let mut unfolded = Vec::new();
        for (block, got) in branches.iter().zip(&gets) {
            unfolded.push(self.branch(block, got, &mut new_cell, scope)?);
        }
        Ok(Act::Par(unfolded))
    }

    fn branch(
        &mut self,
        block: &crate::tree::Block<'t>,
        gets: &[Got<'t>],
        new_cell: &mut usize,
        parent: &Scope<'t>,
    ) -> Result<Branch<'t>, Refusal> {
        let place = self.begun_places;
        self.begun_places += 1;
        let mut scope = Scope::new(place);
        let (mut homes, mut writes, mut copies) = (Vec::new(), Vec::new(), Vec::new());
        for got in gets {
            let mut binding = parent.binding(got.name);
            if got.written {
                writes.push(binding.own);
            } else {
                copies.push(Copied { from: binding.own, to: *new_cell });
                binding.own = *new_cell;
                self.cells[*new_cell].place = place;
                *new_cell += 1;
            }
            homes.push(binding.home);
            scope.names.push((got.name.text, binding));
        }
        let block = self.block(block, &mut scope)?;
        Ok(Branch { place, homes, writes, copies, block })
    }

    /// The variables of the scope that occur in a branch, by first occurrence.
    fn gets(&self, block: &crate::tree::Block<'t>, scope: &Scope<'t>) -> Vec<Got<'t>> {
        let mut occurrences = Vec::new();
        self.occurrences(block, &mut occurrences);
        let mut gets: Vec<Got> = Vec::new();
        for (name, written) in occurrences {
            if let Some(got) = gets.iter_mut().find(|got| got.name.text == name.text) {
                got.written |= written;
            } else if scope.find(name.text).is_some() {
                gets.push(Got { name, written });
            }
        }
        gets
    }

    /// Every use of a variable in a block, in the order of the text, and
    /// whether it writes. No declaration hides a visible variable, so that a
    /// name which is visible outside is that variable everywhere inside.
    fn occurrences(&self, block: &crate::tree::Block<'t>, found: &mut Vec<(Name<'t>, bool)>) {
        for statement in block {
            match &statement.form {
                Form::Var(_) | Form::Throw(_) => {}
                Form::Next(name) | Form::Know(name) => found.push((*name, false)),
                Form::Set(name, items) => {
                    found.push((*name, true));
                    reads(items, found);
                }
                Form::Call(name, arguments) => {
                    let parameters = &self.procedures[name.text].parameters;
                    let given = parameters.iter().zip(arguments);
                    found.extend(given.map(|(parameter, name)| (*name, parameter.by_reference)));
                }
                Form::Plain(block) => self.occurrences(block, found),
                Form::If(condition, then, other) => {
                    reads(condition, found);
                    self.occurrences(then, found);
                    self.occurrences(other, found);
                }
                Form::While(condition, block) => {
                    reads(condition, found);
                    self.occurrences(block, found);
                }
                Form::Try(tried, _, catch) => {
                    self.occurrences(tried, found);
                    self.occurrences(catch, found);
                }
                Form::Take(_, target, other) => {
                    found.push((*target, true));
                    self.occurrences(other, found);
                }
                Form::Par(branches) => {
                    branches.iter().for_each(|branch| self.occurrences(branch, found));
                }
            }
        }
    }
}

fn reads<'t>(items: &Expression<'t>, found: &mut Vec<(Name<'t>, bool)>) {
    for item in items {
        if let Item::Variable(name) = item {
            found.push((*name, false));
        }
    }
}

#[cfg(test)]
mod tests {
    use super::*;
    use crate::{clear, unfold_text};

    fn sizes(text: &str) -> (usize, usize, usize) {
        let unfolded = unfold_text(text.as_bytes(), Kind::Binary).expect("accepted");
        (unfolded.statements, unfolded.places, unfolded.cells.len())
    }

    fn homes(text: &str) -> Vec<usize> {
        let unfolded = unfold_text(text.as_bytes(), Kind::Binary).expect("accepted");
        unfolded.cells.iter().map(|cell| cell.home).collect()
    }

    fn refused(text: &str) -> Option<(u32, usize)> {
        let refusal = clear(text.as_bytes(), Kind::Binary).err()?;
        Some((refusal.cause as u32, refusal.offset))
    }

    #[test]
    fn the_example_unfolds_as_shown() {
        let text = "proc add(x, &y) { y = y + x; }
            main { var a; var b; par { add(a, b); } { next a; }; }";
        assert_eq!(sizes(text), (6, 3, 5));
        assert_eq!(homes(text), [0, 1, 0, 0, 0]);
    }

    #[test]
    fn a_par_brings_its_cells_before_what_is_inside() {
        let text = "main { var a; var b; par { var c; know b; know a; } { var d; know a; }; }";
        let unfolded = unfold_text(text.as_bytes(), Kind::Binary).expect("accepted");
        let names: Vec<&str> = unfolded.cells.iter().map(|cell| cell.name.text).collect();
        assert_eq!(names, ["a", "b", "b", "a", "a", "c", "d"]);
        let places: Vec<usize> = unfolded.cells.iter().map(|cell| cell.place).collect();
        assert_eq!(places, [0, 0, 1, 1, 2, 1, 2]);
    }

    #[test]
    fn a_variable_written_inside_is_no_copy_outside() {
        let text = "main { var a; par { know a; par { a = 1; } { know a; }; } { }; }";
        assert_eq!(homes(text), [0, 0]);
    }

    #[test]
    fn inner_branches_come_before_the_next_sibling() {
        let text = "main { par { par { } { }; } { par { } { }; }; }";
        let unfolded = unfold_text(text.as_bytes(), Kind::Binary).expect("accepted");
        let Act::Par(outer) = &unfolded.main[0].act else { panic!("a par") };
        let Act::Par(inner) = &outer[1].block[0].act else { panic!("a par") };
        assert_eq!((outer[0].place, outer[1].place), (1, 4));
        assert_eq!((inner[0].place, inner[1].place), (5, 6));
    }

    #[test]
    fn statements_pass_a_limit_where_they_stand() {
        let main = |count: usize| format!("main {{ {}}}", "{ } ".repeat(count));
        assert_eq!(refused(&main(1024)), None);
        assert_eq!(refused(&main(1025)), Some((19, 7 + 4 * 1024)));
        let twice = "proc a() { { } { } } proc b() { a(); a(); a(); a(); } main { ";
        let text = format!("{twice}{}}}", "b(); ".repeat(79));
        let last_call_in_b = twice.rfind("a();").expect("a call");
        assert_eq!(refused(&text), Some((19, last_call_in_b)));
        let text = format!("{twice}{}}}", "b(); ".repeat(78));
        assert_eq!(refused(&text), None);
    }

    #[test]
    fn places_and_cells_pass_their_limits() {
        let pars = |count: usize, last: &str| {
            format!("main {{ {}par {last}; }}", "par { } { } { }; ".repeat(count))
        };
        assert_eq!(refused(&pars(20, "{ } { } { }")), None);
        assert_eq!(refused(&pars(20, "{ } { } { } { }")), Some((19, 7 + 17 * 20)));
        let vars = |count: usize| format!("main {{ {}}}", "{ var a; } ".repeat(count));
        assert_eq!(refused(&vars(128)), None);
        assert_eq!(refused(&vars(129)), Some((19, 7 + 11 * 128 + 2)));
    }

    #[test]
    fn what_is_not_called_passes_no_limit() {
        let unused = format!("proc p() {{ {}}} main {{ }}", "{ } ".repeat(1100));
        assert_eq!(refused(&unused), None);
    }
}

//! Stage 3: what names stand for, argument counts, literals and ports
//! (docs/NAMES.md).

use crate::numbers::Kind;
use crate::refusal::{refuse, Cause, Refusal};
use crate::tree::*;
use std::collections::HashMap;

pub const PORTS: u64 = 8;

/// Passes a tree, or refuses it at the first fault in the order of the text.
pub fn check(tree: &Tree, kind: Kind) -> Result<(), Refusal> {
    let mut checker = Checker { kind, parameter_counts: HashMap::new(), visible: Vec::new() };
    for procedure in &tree.procedures {
        checker.procedure(procedure)?;
    }
    checker.block(&tree.main)
}

struct Checker<'t> {
    kind: Kind,
    /// The procedures whose text has ended.
    parameter_counts: HashMap<&'t str, usize>,
    /// The variables visible here.
    visible: Vec<&'t str>,
}

impl<'t> Checker<'t> {
    fn procedure(&mut self, procedure: &Procedure<'t>) -> Result<(), Refusal> {
        let name = procedure.name;
        if self.parameter_counts.contains_key(name.text) {
            return refuse(Cause::Redeclared, name.offset);
        }
        for parameter in &procedure.parameters {
            self.declare(parameter.name)?;
        }
        self.block(&procedure.block)?;
        self.visible.clear();
        self.parameter_counts.insert(name.text, procedure.parameters.len());
        Ok(())
    }

    fn declare(&mut self, name: Name<'t>) -> Result<(), Refusal> {
        if self.visible.contains(&name.text) {
            return refuse(Cause::Redeclared, name.offset);
        }
        self.visible.push(name.text);
        Ok(())
    }

    fn used(&self, name: Name<'t>) -> Result<(), Refusal> {
        if self.visible.contains(&name.text) {
            Ok(())
        } else {
            refuse(Cause::NotVisible, name.offset)
        }
    }

    fn block(&mut self, block: &Block<'t>) -> Result<(), Refusal> {
        let before = self.visible.len();
        for statement in block {
            self.statement(statement)?;
        }
        self.visible.truncate(before);
        Ok(())
    }

    fn statement(&mut self, statement: &Statement<'t>) -> Result<(), Refusal> {
        match &statement.form {
            Form::Var(name) => self.declare(*name),
            Form::Next(name) | Form::Know(name) => self.used(*name),
            Form::Throw(_) => Ok(()),
            Form::Set(name, expression) => {
                self.used(*name)?;
                self.expression(expression)
            }
            Form::Call(name, arguments) => self.call(*name, arguments),
            Form::Plain(block) => self.block(block),
            Form::If(condition, then, other) => {
                self.expression(condition)?;
                self.block(then)?;
                self.block(other)
            }
            Form::While(condition, block) => {
                self.expression(condition)?;
                self.block(block)
            }
            Form::Try(tried, _, catch) => {
                self.block(tried)?;
                self.block(catch)
            }
            Form::Take(port, target, other) => self.take(*port, *target, other),
            Form::Par(branches) => branches.iter().try_for_each(|branch| self.block(branch)),
        }
    }

    fn call(&mut self, name: Name<'t>, arguments: &[Name<'t>]) -> Result<(), Refusal> {
        match self.parameter_counts.get(name.text) {
            None => refuse(Cause::NotVisible, name.offset),
            Some(count) if *count != arguments.len() => refuse(Cause::ArgumentCount, name.offset),
            Some(_) => arguments.iter().try_for_each(|argument| self.used(*argument)),
        }
    }

    fn take(&mut self, port: Number, target: Name<'t>, other: &Block<'t>) -> Result<(), Refusal> {
        if port.value >= PORTS {
            return refuse(Cause::OutOfRange, port.offset);
        }
        self.used(target)?;
        self.block(other)
    }

    fn expression(&self, items: &Expression<'t>) -> Result<(), Refusal> {
        for item in items {
            match item {
                Item::Variable(name) => self.used(*name)?,
                Item::Literal(number) if self.kind.literal(number.value).is_none() => {
                    return refuse(Cause::OutOfRange, number.offset);
                }
                Item::Literal(_) | Item::Operator(_) => {}
            }
        }
        Ok(())
    }
}

#[cfg(test)]
mod tests {
    use super::*;
    use crate::{grammar, reading};

    fn refused_as(text: &str, kind: Kind) -> Option<(u32, usize)> {
        let tokens = reading::read(text.as_bytes()).expect("readable");
        let tree = grammar::parse(&tokens).expect("parsed");
        let refusal = check(&tree, kind).err()?;
        Some((refusal.cause as u32, refusal.offset))
    }

    fn refused(text: &str) -> Option<(u32, usize)> {
        refused_as(text, Kind::Binary)
    }

    #[test]
    fn variables_are_visible_to_the_end_of_their_block() {
        assert_eq!(refused("main { { var a; } next a; }"), Some((15, 23)));
        assert_eq!(refused("main { { var a; } var a; }"), None);
        assert_eq!(refused("main { var a; { var a; } }"), Some((16, 20)));
        assert_eq!(refused("proc p() { next a; } main { var a; }"), Some((15, 16)));
        assert_eq!(refused("main { par { var a; } { know a; }; }"), Some((15, 29)));
        assert_eq!(refused("proc p(a, a) { } main { }"), Some((16, 10)));
        assert_eq!(refused("proc p(a) { } proc q(a) { } main { var a; }"), None);
    }

    #[test]
    fn procedures_are_visible_once_ended() {
        assert_eq!(refused("proc p() { p(); } main { }"), Some((15, 11)));
        assert_eq!(refused("proc p() { } proc p() { } main { }"), Some((16, 18)));
        assert_eq!(refused("proc p(a) { } main { p(b, c); }"), Some((17, 21)));
        assert_eq!(refused("proc p(a) { } main { p(b); }"), Some((15, 23)));
        assert_eq!(refused("proc p(p) { p = p; } main { var p; p(p); }"), None);
    }

    #[test]
    fn numbers_are_looked_at_where_they_stand() {
        assert_eq!(refused("main { a = 2147483648; }"), Some((15, 7)));
        assert_eq!(refused("main { var a; a = 2147483648 + b; }"), Some((18, 18)));
        assert_eq!(refused("main { var a; a = 100000000; }"), None);
        assert_eq!(refused_as("main { var a; a = 100000000; }", Kind::Decimal), Some((18, 18)));
        assert_eq!(refused("main { take 8 a else { } }"), Some((18, 12)));
        assert_eq!(refused("main { take 07 a else { } }"), Some((15, 15)));
    }
}

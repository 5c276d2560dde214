//! Stage 5: the rules of sharing, over the unfolded text (docs/SHARING.md).

use crate::refusal::{refuse, Cause, Refusal};
use crate::unfolding::{Act, Block, Branch, Statement, Unfolded};

/// Passes an unfolded text, or refuses it at its first statement at fault.
pub fn check(unfolded: &Unfolded) -> Result<(), Refusal> {
    check_block(&unfolded.main, &mut Vec::new())
}

/// `tries` are the names of the tries open around the block.
fn check_block<'t>(block: &Block<'t>, tries: &mut Vec<&'t str>) -> Result<(), Refusal> {
    block.iter().try_for_each(|statement| check_statement(statement, tries))
}

fn check_statement<'t>(statement: &Statement<'t>, tries: &mut Vec<&'t str>) -> Result<(), Refusal> {
    let offset = statement.offset;
    match &statement.act {
        Act::Throw(name) if !tries.contains(name) => refuse(Cause::Uncaught, offset),
        Act::Call(call) => {
            if has_twice(&call.references) {
                return refuse(Cause::ReferencedTwice, offset);
            }
            check_block(&call.block, tries)
        }
        Act::Par(branches) => {
            check_par(offset, branches)?;
            branches.iter().try_for_each(|branch| check_block(&branch.block, tries))
        }
        Act::Try(tried, name, catch) => {
            tries.push(name);
            check_block(tried, tries)?;
            tries.pop();
            check_block(catch, tries)
        }
        act => blocks(act).into_iter().try_for_each(|block| check_block(block, tries)),
    }
}

fn check_par(offset: usize, branches: &[Branch]) -> Result<(), Refusal> {
    let writes: Vec<usize> =
        branches.iter().flat_map(|branch| branch.writes.iter().copied()).collect();
    if has_twice(&writes) {
        return refuse(Cause::WrittenTwice, offset);
    }
    let mut taken = 0u8;
    for branch in branches {
        let ports = ports(&branch.block);
        if taken & ports != 0 {
            return refuse(Cause::PortTwice, offset);
        }
        taken |= ports;
    }
    Ok(())
}

/// A branch names each variable once, so that a cell found twice in a list of
/// several branches is written by two of them.
fn has_twice(cells: &[usize]) -> bool {
    (1..cells.len()).any(|index| cells[..index].contains(&cells[index]))
}

/// The ports that a block takes from, a bit for each.
fn ports(block: &Block) -> u8 {
    block.iter().fold(0, |found, statement| {
        let own = match &statement.act {
            Act::Take(port, ..) => 1 << port,
            _ => 0,
        };
        let inside = blocks(&statement.act).into_iter().map(ports);
        inside.fold(found | own, |all, some| all | some)
    })
}

/// The blocks that belong to a statement.
fn blocks<'a, 't>(act: &'a Act<'t>) -> Vec<&'a Block<'t>> {
    match act {
        Act::Var(_) | Act::Next(_) | Act::Know | Act::Throw(_) | Act::Set(..) => Vec::new(),
        Act::Call(call) => vec![&call.block],
        Act::Plain(block) | Act::While(_, block) | Act::Take(_, _, block) => vec![block],
        Act::If(_, then, other) => vec![then, other],
        Act::Try(tried, _, catch) => vec![tried, catch],
        Act::Par(branches) => branches.iter().map(|branch| &branch.block).collect(),
    }
}

#[cfg(test)]
mod tests {
    use crate::{clear, numbers::Kind};

    fn refused(text: &str) -> Option<(u32, usize)> {
        let refusal = clear(text.as_bytes(), Kind::Binary).err()?;
        Some((refusal.cause as u32, refusal.offset))
    }

    #[test]
    fn a_variable_is_written_in_one_branch() {
        let text = |second: &str| {
            format!("proc set(&x) {{ x = 1; }} main {{ var a; par {{ set(a); }} {{ {second} }}; }}")
        };
        assert_eq!(refused(&text("know a;")), None);
        assert_eq!(refused(&text("a = 2;")), Some((20, 38)));
        assert_eq!(refused(&text("take 0 a else { }")), Some((20, 38)));
        assert_eq!(refused("main { par { var b; b = 1; } { var b; b = 1; }; }"), None);
        assert_eq!(refused("main { var a; par { a = 1; } { }; par { } { a = 1; }; }"), None);
    }

    #[test]
    fn a_copy_is_no_write_of_the_argument() {
        let text = "proc p(x) { x = 1; } main { var a; par { p(a); } { p(a); }; }";
        assert_eq!(refused(text), None);
    }

    #[test]
    fn a_call_is_given_a_variable_once_by_reference() {
        assert_eq!(refused("proc p(&x, &y) { } main { var a; p(a, a); }"), Some((21, 33)));
        assert_eq!(refused("proc p(&x, y) { } main { var a; p(a, a); }"), None);
    }

    #[test]
    fn ports_are_numbers_and_seen_through_calls() {
        let text = "proc p(&x) { take 07 x else { } }
            main { var a; var b; par { p(a); } { while (0) { take 7 b else { } } }; }";
        assert_eq!(refused(text), Some((22, 67)));
        let both = "main { var a; par { take 1 a else { } } { take 1 a else { } }; }";
        assert_eq!(refused(both), Some((20, 14)));
    }

    #[test]
    fn throws_need_an_open_try() {
        assert_eq!(refused("main { throw T; }"), Some((23, 7)));
        assert_eq!(refused("main { try { } catch (T) { throw T; } }"), Some((23, 27)));
        let text = "proc p() { throw T; } main { try { par { p(); } { }; } catch (T) { } }";
        assert_eq!(refused(text), None);
        assert_eq!(refused("proc p() { throw T; } main { }"), None);
    }

    #[test]
    fn the_earlier_statement_counts() {
        let text = "proc p(&x, &y) { throw T; } main { var a; throw U; p(a, a); }";
        assert_eq!(refused(text), Some((23, 42)));
        let text = "main { var a; par { par { a = 1; } { a = 1; }; throw T; } { }; }";
        assert_eq!(refused(text), Some((20, 20)));
    }
}

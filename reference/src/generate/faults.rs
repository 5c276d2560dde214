//! Texts that are to be refused, with faults of every number at early and late
//! places, often more than one.

use super::author::{self, Author, Scope};
use super::words;
use crate::random::Random;
use crate::reading::MOST_BYTES;

/// A fault to plant after so many statements.
#[derive(Clone)]
pub struct Fault {
    pub number: u32,
    pub after: usize,
}

pub fn text(random: &mut Random) -> Vec<u8> {
    let count = random.weighted(&[0, 6, 3, 1]);
    let numbers: Vec<u32> = (0..count).map(|_| random.between(11, 23) as u32).collect();
    let planted = numbers.iter().filter(|number| **number >= 14);
    let faults = planted.map(|number| Fault { number: *number, after: random.below(40) });
    let faults: Vec<Fault> = faults.collect();
    let mut tokens = author::tokens(random, faults);
    for number in &numbers {
        match number {
            12 => bad_token(&mut tokens, random),
            13 => wrong_token(&mut tokens, random),
            _ => {}
        }
    }
    let mut text = words::written(&tokens, random);
    if numbers.contains(&11) {
        too_long(&mut text, random);
    }
    text
}

/// A place among the tokens: early, late or anywhere.
fn position(tokens: &[String], random: &mut Random) -> usize {
    let near = random.below(6).min(tokens.len());
    match random.below(3) {
        0 => near,
        1 => tokens.len() - near,
        _ => random.below(tokens.len() + 1),
    }
}

fn bad_token(tokens: &mut Vec<String>, random: &mut Random) {
    let bad = [
        "_x",
        "\t",
        "\r",
        "#",
        "abcdefghijklmnopq",
        "12345678901",
        "\u{0}",
        "\u{7f}",
        "é",
        "a_b",
        "!",
        "==>",
        ">",
        "00000000000",
        ".",
        "\"",
        "|",
        "a1234567890123456",
    ];
    let at = position(tokens, random);
    tokens.insert(at, random.pick(&bad).to_string());
}

fn wrong_token(tokens: &mut Vec<String>, random: &mut Random) {
    let fixed = [
        ";", ",", "(", ")", "{", "}", "=", "==", "+", "-", "*", "<", "&", "var", "next", "take",
        "if", "else", "while", "par", "try", "catch", "throw", "proc", "main", "x", "7", "know",
    ];
    let at = position(tokens, random);
    match random.below(4) {
        0 if at < tokens.len() => {
            tokens.remove(at);
        }
        1 if at < tokens.len() => tokens[at] = random.pick(&fixed).to_string(),
        2 => tokens.truncate(at),
        _ => tokens.insert(at, random.pick(&fixed).to_string()),
    }
}

fn too_long(text: &mut Vec<u8>, random: &mut Random) {
    let fill = random.one(b" \n{a1#");
    let length = MOST_BYTES + random.between(1, 40);
    text.resize(length.max(text.len()), fill);
}

/// Procedures that later faults will need.
pub fn before_procedures(faults: &[Fault], author: &mut Author) {
    let has = |number: u32| faults.iter().any(|fault| fault.number == number);
    if has(21) {
        author.put("proc both ( & x , y , & z ) { x = y ; z = y ; }");
    }
    if has(22) {
        author.put("proc from3 ( & x ) { if ( 0 ) { take 03 x else { } } else { } }");
    }
    if has(19) {
        big_procedures(author);
    }
    if has(16) && author.random.once_in(5) {
        let twice = ["proc dup ( a , & a ) { }", "proc dup ( ) { } proc dup ( b ) { }"];
        let text = author.random.one(&twice);
        author.put(text);
    }
    if has(15) && author.random.once_in(5) {
        let unseen =
            ["proc own ( ) { own ( ) ; }", "proc early ( ) { late ( ) ; } proc late ( ) { }"];
        let text = author.random.one(&unseen);
        author.put(text);
    }
}

/// Procedures of which each calls the one before it twice or more.
fn big_procedures(author: &mut Author) {
    let seeds = ["{ }", "var a ;", "par { } { } ;", "var a ; par { know a ; } { a = 1 ; } ;", ""];
    let seed = author.random.one(&seeds);
    author.put(&format!("proc big0 ( ) {{ {seed} }}"));
    let levels = author.random.between(4, 40);
    let times = author.random.between(2, 3);
    for level in 1..=levels {
        let call = format!("big{} ( ) ; ", level - 1);
        author.put(&format!("proc big{level} ( ) {{ {} }}", call.repeat(times)));
    }
    author.put(&format!("proc big ( ) {{ big{levels} ( ) ; }}"));
}

/// Writes a statement or a few that have the fault.
pub fn plant(number: u32, author: &mut Author, scope: &Scope) {
    match number {
        14 => too_deep(author),
        15 => not_visible(author, scope),
        16 => redeclared(author, scope),
        17 => argument_count(author, scope),
        18 => out_of_range(author, scope),
        19 => author.put("big ( ) ;"),
        20 => written_twice(author, scope),
        21 => referenced_twice(author, scope),
        22 => port_twice(author, scope),
        23 => uncaught(author),
        _ => {}
    }
}

fn too_deep(author: &mut Author) {
    let depth = author.random.between(16, 18).saturating_sub(author.open);
    let text = match author.random.below(4) {
        0 => format!("if ( {}1{} ) {{ }} else {{ }}", "( ".repeat(depth), " )".repeat(depth)),
        1 => format!("while ( 0 ) {} {}", "{ ".repeat(depth), "} ".repeat(depth)),
        2 => format!("{}while ( ( 0 ) ) {{ }} {}", "{ ".repeat(depth), "} ".repeat(depth)),
        _ => format!("{} {}", "{ ".repeat(depth + 1), "} ".repeat(depth + 1)),
    };
    author.put(&text);
}

fn visible(author: &mut Author, scope: &Scope) -> Option<String> {
    let names = &scope.variables;
    (!names.is_empty()).then(|| author.random.pick(names).name.clone())
}

fn not_visible(author: &mut Author, scope: &Scope) {
    let known = visible(author, scope).unwrap_or("q9".to_string());
    let text = match author.random.below(9) {
        0 => "next q9 ;".to_string(),
        1 => "know q9 ;".to_string(),
        2 => format!("q9 = {known} ;"),
        3 => format!("{known} = 1 + q9 ;"),
        4 => "nobody ( ) ;".to_string(),
        5 => format!("nobody ( {known} , q9 ) ;"),
        6 => "take 0 q9 else { }".to_string(),
        7 => "{ var q9 ; } know q9 ;".to_string(),
        _ => "par { var q9 ; } { know q9 ; } ;".to_string(),
    };
    author.put(&text);
}

fn redeclared(author: &mut Author, scope: &Scope) {
    let text = match visible(author, scope) {
        Some(name) if author.random.once_in(2) => format!("var {name} ;"),
        Some(name) => format!("par {{ }} {{ {{ var {name} ; }} }} ;"),
        None => "{ var q9 ; while ( q9 ) { var q9 ; } }".to_string(),
    };
    author.put(&text);
}

fn argument_count(author: &mut Author, scope: &Scope) {
    if author.procedures.is_empty() {
        return not_visible(author, scope);
    }
    let procedure = author.random.pick(&author.procedures).clone();
    let count = procedure.by_reference.len();
    let wrong = if author.random.once_in(2) { count + 1 } else { count.saturating_sub(1) };
    let wrong = if author.random.once_in(6) { 30 } else { wrong };
    let name = visible(author, scope).unwrap_or("q9".to_string());
    let arguments = vec![name; wrong].join(" , ");
    author.put(&format!("{} ( {arguments} ) ;", procedure.name));
}

fn out_of_range(author: &mut Author, scope: &Scope) {
    let name = visible(author, scope).unwrap_or("q9".to_string());
    let literals = ["2147483648", "4294967295", "4294967296", "9999999999", "100000000"];
    let literal = author.random.one(&literals);
    let ports = ["8", "08", "9", "16", "255", "256", "263", "4294967296", "9999999999"];
    let port = author.random.one(&ports);
    let text = match author.random.below(4) {
        0 => format!("take {port} {name} else {{ }}"),
        1 => format!("if ( - {literal} ) {{ }} else {{ }}"),
        2 => format!("while ( 0 * ( 1 + {literal} ) ) {{ }}"),
        _ => format!("{name} = {literal} ;"),
    };
    author.put(&text);
}

fn written_twice(author: &mut Author, scope: &Scope) {
    let name = author.new_name(scope);
    let writes = [
        format!("{name} = 1 ;"),
        format!("take 0 {name} else {{ }}"),
        format!("while ( 0 ) {{ {name} = 2 ; }}"),
        format!("par {{ {name} = 3 ; }} {{ know {name} ; }} ;"),
        format!("try {{ }} catch ( T ) {{ {name} = 1 ; }}"),
    ];
    let first = author.random.pick(&writes).clone();
    let second = author.random.pick(&writes).clone();
    let between = if author.random.once_in(2) { "{ }" } else { "" };
    author.put(&format!("{{ var {name} ; par {{ {first} }} {between} {{ {second} }} ; }}"));
}

fn referenced_twice(author: &mut Author, scope: &Scope) {
    let name = author.new_name(scope);
    let nested = author.random.once_in(3);
    let call = format!("both ( {name} , {name} , {name} ) ;");
    let call = if nested { format!("par {{ {call} }} {{ know {name} ; }} ;") } else { call };
    author.put(&format!("{{ var {name} ; {call} }}"));
}

fn port_twice(author: &mut Author, scope: &Scope) {
    let name = author.new_name(scope);
    let takes = [
        format!("take 3 {name} else {{ }}"),
        format!("from3 ( {name} ) ;"),
        format!("take 4 {name} else {{ from3 ( {name} ) ; }}"),
        format!("while ( 0 ) {{ take 0000000003 {name} else {{ }} }}"),
    ];
    let first = author.random.pick(&takes).clone();
    let second = author.random.pick(&takes).clone();
    let text = if author.random.once_in(3) {
        // Here the variable is written twice as well, and comes first.
        format!("{{ var {name} ; par {{ {first} }} {{ {second} }} ; }}")
    } else {
        format!("par {{ var {name} ; {first} }} {{ var {name} ; {second} }} ;")
    };
    author.put(&text);
}

fn uncaught(author: &mut Author) {
    let texts = [
        "throw Nobody ;",
        "if ( 0 ) { throw Nobody ; } else { }",
        "try { throw Some ; } catch ( Some ) { throw Some ; }",
        "try { throw t ; } catch ( Nobody ) { }",
        "try { par { throw Nobody ; } { throw Some ; } ; } catch ( Some ) { }",
    ];
    let text = author.random.one(&texts);
    author.put(text);
}

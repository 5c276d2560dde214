//! Texts just below, at and just past every limit.

use super::{author, words};
use crate::random::Random;
use crate::reading::MOST_BYTES;

pub fn text(random: &mut Random) -> Vec<u8> {
    let text = match random.below(14) {
        0 => return length(random),
        1 | 2 => brackets(random),
        3 => parameters(random),
        4 => branches(random),
        5 => statements(random),
        6 => places(random),
        7 => cells(random),
        8 => doubling(random),
        9 => literals(random),
        10 => long_tokens(random),
        11 => call_chain(random),
        12 => long_expression(random),
        _ => tiny(random),
    };
    let mut tokens = Vec::new();
    words::put(&mut tokens, &text);
    let mut written = words::written(&tokens, random);
    if written.len() > MOST_BYTES {
        // What stands in the text is wanted, and not only its length.
        written = tokens.join(" ").into_bytes();
    }
    written
}

/// A text padded to about the greatest length.
fn length(random: &mut Random) -> Vec<u8> {
    let mut text = author::text(random);
    let wanted = random.between(MOST_BYTES - 2, MOST_BYTES + 2);
    let missing = wanted.saturating_sub(text.len());
    let blank = random.one(b" \n");
    let blanks = vec![blank; missing];
    match random.below(3) {
        0 => text.extend(blanks),
        1 => drop(text.splice(0..0, blanks)),
        _ => {
            let breaks = text.iter().position(|byte| *byte == b' ').unwrap_or(0);
            text.splice(breaks..breaks, blanks);
        }
    }
    text
}

/// Brackets of all sorts, up to 18 open at once.
fn brackets(random: &mut Random) -> String {
    let mut open = 1;
    let deepest = random.between(14, 18);
    let (mut before, mut after) = ("main { var x ; ".to_string(), " }".to_string());
    let inside = random.below(4);
    while open + inside < deepest {
        let (start, end) = random.one(&[
            ("{", "}"),
            ("while ( 0 ) {", "}"),
            ("if ( ( 1 ) ) { } else {", "}"),
            ("try {", "} catch ( T ) { }"),
            ("try { } catch ( T ) {", "}"),
            ("par { } {", "} ;"),
            ("take 0 x else {", "}"),
        ]);
        before += start;
        before.push(' ');
        after = format!(" {end}{after}");
        open += 1;
    }
    let parentheses = ("( ".repeat(inside), " )".repeat(inside));
    let innermost = match random.below(6) {
        0 => "p ( x ) ;".to_string(),
        1 => format!("if ( {}1{} ) {{ }} else {{ }}", parentheses.0, parentheses.1),
        2 => "if x".to_string(),
        3 => "try { } catch ( T ) { }".to_string(),
        _ => format!("x = {}x{} ;", parentheses.0, parentheses.1),
    };
    format!("proc p ( a ) {{ }} {before}{innermost}{after}")
}

fn listed(count: usize, item: impl Fn(usize) -> String) -> String {
    (0..count).map(item).collect::<Vec<_>>().join(" , ")
}

fn parameters(random: &mut Random) -> String {
    let count = random.between(6, 10);
    let given = if random.once_in(4) { random.between(6, 12) } else { count };
    let by_reference = random.below(512);
    let parameter = |index: usize| match by_reference >> index & 1 {
        1 => format!("& v{index}"),
        _ => format!("v{index}"),
    };
    let vars: String =
        (0..12).map(|index| format!("var v{index} ; v{index} = {index} ; ")).collect();
    let body: String = (1..count).map(|index| format!("v0 = v0 * 2 + v{index} ; ")).collect();
    format!(
        "proc p ( {} ) {{ {body} }} main {{ {vars} p ( {} ) ; }}",
        listed(count, parameter),
        listed(given, |index| format!("v{index}"))
    )
}

fn branches(random: &mut Random) -> String {
    let count = random.weighted(&[1, 1, 1, 0, 0, 0, 0, 1, 3, 3, 1]);
    let bodies = ["next a ;", "know a ;", "", "var b ; b = a ; next a ;"];
    let blocks: String = (0..count).map(|_| format!("{{ {} }} ", random.pick(&bodies))).collect();
    format!("main {{ var a ; par {blocks} ; }}")
}

/// Unfolds to about 1,024 statements, written out or through calls.
fn statements(random: &mut Random) -> String {
    let wanted = random.between(1021, 1027);
    let body = random.between(0, 40);
    let item = random.one(&["{ }", "know x ;", "x = 1 ;", "{ { } }"]);
    let each = if item == "{ { } }" { 2 } else { 1 };
    let call = 1 + body * each;
    let calls = (wanted - 1) / call;
    let calls = if random.once_in(3) { random.below(calls + 1) } else { calls };
    let calls = calls.min(900);
    let rest = (wanted - 1 - calls * call).min(2000);
    let mut parts: Vec<&str> = vec!["p ( x ) ;"; calls];
    let at = random.below(calls + 1);
    parts.splice(at..at, vec!["{ }"; rest]);
    let procedure = format!("proc p ( & x ) {{ {} }}", format!("{item} ").repeat(body));
    format!("{procedure} main {{ var x ; {} }}", parts.join(" "))
}

/// About 64 places, through calls or not.
fn places(random: &mut Random) -> String {
    let wanted = random.one(&[62, 63, 64, 64, 65, 65, 66]);
    let width = random.between(2, 8);
    let blocks = "{ } ".repeat(width);
    let through = random.once_in(2);
    let mut text = format!("proc p ( ) {{ par {blocks} ; }} main {{ ");
    let mut places = 1;
    while places + width <= wanted {
        text += if through { "p ( ) ; ".to_string() } else { format!("par {blocks} ; ") }.as_str();
        places += width;
    }
    if wanted - places >= 2 {
        text += &format!("par {} ; ", "{ } ".repeat(wanted - places));
    }
    text + "}"
}

/// About 128 cells, by vars, by-value parameters and branches that read.
fn cells(random: &mut Random) -> String {
    let wanted = random.between(125, 130);
    let mut text = "proc p ( a , b , c ) { } proc q ( a ) { var b ; p ( a , b , a ) ; } \
        proc r ( & a , b ) { par { a = b ; } { know a ; next b ; } ; } main { var x ; "
        .to_string();
    let mut cells = 1;
    let mut places = 1;
    while cells < wanted {
        let (part, brings) = random.one(&[
            ("{ var y ; } ", 1),
            ("p ( x , x , x ) ; ", 3),
            ("q ( x ) ; ", 5),
            ("r ( x , x ) ; ", 4),
            ("par { know x ; next x ; } { know x ; } ; ", 2),
            ("par { x = x + 1 ; } { know x ; } ; ", 1),
        ]);
        if cells + brings > wanted || (part.len() > 20 && places > 60) {
            text += "{ var z ; } ";
            cells += 1;
            continue;
        }
        places += if part.starts_with("par") || part.starts_with('r') { 2 } else { 0 };
        text += part;
        cells += brings;
    }
    text + "}"
}

/// Procedures that call the one before twice: more statements than could be
/// written down.
fn doubling(random: &mut Random) -> String {
    let levels = random.between(3, 60);
    let called = random.below(levels + 1);
    let seeds =
        ["", "{ }", "x = x + 1 ;", "var y ; know y ;", "par { } { know x ; } ;", "throw T ;"];
    let mut text = format!("proc d0 ( & x ) {{ {} }} ", random.pick(&seeds));
    for level in 1..=levels {
        let before = level - 1;
        text += &format!("proc d{level} ( & x ) {{ d{before} ( x ) ; d{before} ( x ) ; }} ");
    }
    text + &format!("main {{ var x ; d{called} ( x ) ; }}")
}

fn literals(random: &mut Random) -> String {
    let literals = [
        "2147483646",
        "2147483647",
        "2147483648",
        "99999998",
        "99999999",
        "100000000",
        "0",
        "0000000000",
        "0099999999",
        "4294967295",
        "4294967296",
        "9999999999",
        "1",
        "0000000007",
    ];
    let mut text = "main { var x ; var y ; ".to_string();
    for _ in 0..random.between(1, 6) {
        let some = if random.once_in(3) { literals.len() } else { 2 };
        let literal = random.one(&literals[..some]);
        let operator = random.one(&["+", "-", "*", "<", "=="]);
        text += &match random.below(5) {
            0 => format!("x = {literal} ; "),
            1 => format!("x = x {operator} {literal} ; "),
            2 => format!("y = - {literal} {operator} x ; "),
            3 => format!("take {} x else {{ x = {literal} ; }} ", random.below(9)),
            _ => format!("y = y {operator} x {operator} y ; "),
        };
    }
    text + "}"
}

fn long_tokens(random: &mut Random) -> String {
    let letters = random.between(14, 18);
    let digits = random.between(9, 12);
    let name: String = "abcdefghij1234567890".chars().take(letters).collect();
    let number = format!("{}1", "0".repeat(digits - 1));
    match random.below(4) {
        0 => format!("main {{ var {name} ; {name} = 1 ; }}"),
        // A number and a name with no blank between them.
        1 => format!("main {{ var {name} ; take 7{name} else {{ }} }}"),
        2 => format!("main {{ var x ; x = {number} ; take {number} x else {{ }} }}"),
        _ => format!(
            "proc {name} ( ) {{ }} main {{ try {{ {name} ( ) ; }} catch ( {name} ) {{ }} }}"
        ),
    }
}

/// Procedures of which each calls the one before.
fn call_chain(random: &mut Random) -> String {
    let count = random.between(2, 430);
    let by_value = random.once_in(3);
    let sign = if by_value { "" } else { "&" };
    let mut text = format!("proc c0 ( {sign} x ) {{ x = x + 1 ; }} ");
    for number in 1..=count {
        text += &format!("proc c{number} ( {sign} x ) {{ c{} ( x ) ; }} ", number - 1);
    }
    text + &format!("main {{ var x ; c{count} ( x ) ; }}")
}

fn long_expression(random: &mut Random) -> String {
    let operators = random.between(10, 2500);
    let mut text = "proc p ( & x ) { x = x ".to_string();
    for _ in 0..operators {
        text += random.one(&["+ x ", "- 1 ", "* x ", "+ 7 ", "< 3 ", "== x ", "- - x "]);
    }
    let calls = random.between(1, 200);
    text + &format!("; }} main {{ var x ; x = 3 ; {} }}", "p ( x ) ; ".repeat(calls))
}

fn tiny(random: &mut Random) -> String {
    let texts = [
        "",
        "main",
        "main {",
        "main { }",
        "main { } main { }",
        "proc",
        "proc p",
        "proc p ( ) { }",
        "main { ; }",
        "main { { } }",
        "main { next x ; }",
        "main ( )",
        "{ }",
        "x",
        "7",
        "==",
        "main { var a ; next a ; next a ; }",
        "main { par { } ; }",
        "main { while ( 1 ) { } }",
    ];
    random.pick(&texts).to_string()
}

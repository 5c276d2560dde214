//! Boards with many places that have much to do.

use super::words;
use crate::random::Random;

pub fn text(random: &mut Random) -> Vec<u8> {
    let text = match random.below(4) {
        0 => pipeline(random),
        1 => crowd(random),
        2 => loops(random),
        _ => deaf_crowd(random),
    };
    let mut tokens = Vec::new();
    words::put(&mut tokens, &text);
    words::written(&tokens, random)
}

/// A source, some stages that each hand on what they get, and a sink.
fn pipeline(random: &mut Random) -> String {
    let stages = random.between(1, 18);
    let words = random.between(1, 40);
    let mut text = "proc g ( b , & c ) { while ( 1 ) { next b ; c = b ; next c ; } } \
        proc f0 ( i , & o ) { g ( i , o ) ; } "
        .to_string();
    for stage in 1..=stages {
        let before = stage - 1;
        text += &format!(
            "proc f{stage} ( i , & o ) {{ var c ; \
             par {{ g ( i , c ) ; }} {{ f{before} ( c , o ) ; }} ; }} "
        );
    }
    text += "proc source ( & a ) { while ( 0 < a ) { a = a - 1 ; next a ; } throw T ; } \
        proc sink ( b , & n ) { while ( 1 - ( b == 0 ) ) { next b ; n = n + 1 ; } } ";
    text + &format!(
        "main {{ var a ; a = {words} ; var b ; b = 1 ; var n ; \
         par {{ try {{ par {{ source ( a ) ; }} {{ f{stages} ( a , b ) ; }} ; }} catch ( T ) {{ }} }} \
         {{ sink ( b , n ) ; }} ; }}"
    )
}

/// Two layers of branches that all meet on one variable again and again.
fn crowd(random: &mut Random) -> String {
    let ends = random.once_in(2);
    let condition = if ends { format!("a < {}", random.between(1, 30)) } else { "1".to_string() };
    let reader = format!("while ( {condition} ) {{ next a ; }}");
    let writer = format!("while ( {condition} ) {{ a = a + 1 ; next a ; }}");
    let outer = random.between(2, 7);
    let inner = random.between(2, 7);
    let mut text = "main { var a ; par ".to_string();
    for branch in 0..outer {
        let first = if branch == 0 { &writer } else { &reader };
        text += &format!("{{ par {{ {first} }} ");
        text += &format!("{{ {reader} }} ").repeat(inner - 1);
        text += "; } ";
    }
    text + "; }"
}

/// Branches that compute and share nothing.
fn deaf_crowd(random: &mut Random) -> String {
    let outer = random.between(2, 8);
    let inner = random.between(2, 6);
    let times = random.between(1, 60);
    let leaf = format!("{{ var i ; while ( i < {times} ) {{ i = i + 1 ; }} }} ");
    let branch = format!("{{ par {} ; }} ", leaf.repeat(inner));
    format!("main {{ par {} ; }}", branch.repeat(outer))
}

/// Loops in loops, ending after about ten thousand moves, more or less.
fn loops(random: &mut Random) -> String {
    let (outer, inner) = (random.between(2, 60), random.between(2, 60));
    format!(
        "proc add ( x , & s ) {{ s = s * 3 + x ; }} \
         main {{ var i ; var j ; var s ; while ( i < {outer} ) {{ j = 0 ; \
         while ( j < {inner} ) {{ add ( j , s ) ; j = j + 1 ; }} i = i + 1 ; }} }}"
    )
}

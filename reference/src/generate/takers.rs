//! Texts that take again and again.

use super::words;
use crate::random::Random;

pub fn text(random: &mut Random) -> Vec<u8> {
    let branches = random.between(1, 4);
    let ports: Vec<usize> = (0..branches).map(|branch| 2 * branch + random.below(2)).collect();
    let bodies: Vec<String> = ports.iter().map(|port| taker(*port, random)).collect();
    let body = match branches {
        1 => bodies[0].clone(),
        _ => format!("par {{ {} }} ;", bodies.join(" } { ")),
    };
    let procedure = "proc fetch ( & x , & misses ) { take 0 x else { misses = misses + 1 ; } } ";
    let text = format!("{procedure} main {{ {body} }}");
    let mut tokens = Vec::new();
    words::put(&mut tokens, &text);
    words::written(&tokens, random)
}

/// Takes from a port, adds up what came, and counts how often nothing came.
fn taker(port: usize, random: &mut Random) -> String {
    let times = random.between(1, 8);
    let take = match port {
        0 if random.once_in(2) => "fetch ( x , m ) ;".to_string(),
        _ => format!("take {port} x else {{ m = m + 1 ; }}"),
    };
    let end = random.one(&["", "throw Dry ;", "x = 0 - 1 ;"]);
    let again = match end {
        "throw Dry ;" => {
            format!(
                "try {{ take {port} x else {{ throw Dry ; }} }} catch ( Dry ) {{ m = m * 10 ; }}"
            )
        }
        _ => end.to_string(),
    };
    format!(
        "var i ; var x ; var s ; var m ; \
         while ( i < {times} ) {{ {take} s = s * 3 + x ; {again} i = i + 1 ; }}"
    )
}

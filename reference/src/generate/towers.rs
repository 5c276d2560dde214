//! Tall texts: tries and pars nested through calls, with throws from the
//! bottom and places beside it that wait, finish or stay stuck.

use super::words;
use crate::random::Random;

#[derive(Clone)]
enum Level {
    Try(String),
    Par,
    Plain,
}

pub fn text(random: &mut Random) -> Vec<u8> {
    let levels = levels(random);
    let mut tower = Tower { random, levels, places: 1, cells: 2, depth: 0, procedures: 0 };
    let text = tower.build();
    let mut tokens = Vec::new();
    words::put(&mut tokens, &text);
    words::written(&tokens, random)
}

/// The levels, the outermost first.
fn levels(random: &mut Random) -> Vec<Level> {
    let tall = random.once_in(3);
    let count = if tall { random.between(20, 150) } else { random.between(3, 40) };
    let common = ["T", "U", "V"];
    let mut levels = Vec::new();
    for index in 0..count {
        let kind = if tall { random.weighted(&[12, 0, 1]) } else { random.weighted(&[4, 3, 1]) };
        levels.push(match kind {
            0 if random.once_in(3) => Level::Try(random.one(&common).to_string()),
            0 => Level::Try(format!("E{index}")),
            1 => Level::Par,
            _ => Level::Plain,
        });
    }
    levels.extend(vec![Level::Par; random.between(1, 2)]);
    levels
}

/// Two variables, x and y, go down the tower, written by whatever leads down.
struct Tower<'r> {
    random: &'r mut Random,
    levels: Vec<Level>,
    places: usize,
    cells: usize,
    /// About how many brackets the part written so far has open at once.
    depth: usize,
    procedures: usize,
}

impl Tower<'_> {
    /// Builds from the bottom up; what becomes too deep goes into a procedure.
    fn build(&mut self) -> String {
        let mut procedures = String::new();
        let mut inner = self.bottom();
        for level in (0..self.levels.len()).rev() {
            if self.depth > 8 {
                let name = format!("t{}", self.procedures);
                self.procedures += 1;
                procedures += &format!("proc {name} ( & x , & y ) {{ {inner} }} ");
                inner = format!("{name} ( x , y ) ;");
                self.depth = 1;
            }
            inner = self.level(level, &inner);
            self.depth += 1;
        }
        format!("{procedures} main {{ var x ; var y ; {inner} }}")
    }

    fn variable(&mut self) -> &'static str {
        self.random.one(&["x", "x", "y"])
    }

    /// A try of a level further out.
    fn exception(&mut self, level: usize) -> Option<String> {
        let names: Vec<String> = self.levels[..level]
            .iter()
            .filter_map(|level| match level {
                Level::Try(name) => Some(name.clone()),
                _ => None,
            })
            .collect();
        let deep = names.len() > 9 && self.random.once_in(2);
        let from = if deep { names.len() - names.len() / 4 } else { 0 };
        (!names.is_empty()).then(|| self.random.pick(&names[from..]).clone())
    }

    fn throw(&mut self, level: usize) -> String {
        self.exception(level).map_or(String::new(), |name| format!("throw {name} ;"))
    }

    fn bottom(&mut self) -> String {
        let throw = match self.random.below(6) {
            0 => "know x ;".to_string(),
            _ => self.throw(self.levels.len()),
        };
        let before = ["", "x = 7 ;", "x = x + 1 ; next x ;", "next x ;", "next y ;"];
        format!("{} {throw}", self.random.one(&before))
    }

    fn level(&mut self, level: usize, inner: &str) -> String {
        match self.levels[level].clone() {
            Level::Try(name) => {
                let after = if self.random.once_in(4) { "x = x * 2 ;" } else { "" };
                let caught = self.caught(level, &name);
                format!("try {{ {inner} {after} }} catch ( {name} ) {{ {caught} }}")
            }
            Level::Par => self.par(level, inner),
            Level::Plain => {
                let ends = ["", "know x ;", "next x ;", "next y ;", "y = x - 1 ;"];
                format!("x = x + 1 ; {inner} {}", self.random.one(&ends))
            }
        }
    }

    /// A catch block; it may throw to another try, or on to an outer one of
    /// the same name.
    fn caught(&mut self, level: usize, own: &str) -> String {
        let mut outer = self.levels[..level].iter();
        let again = outer.any(|level| matches!(level, Level::Try(name) if name == own));
        match self.exception(level) {
            Some(_) if again && self.random.once_in(3) => format!("x = {level} ; throw {own} ;"),
            Some(name) if self.random.once_in(4) => format!("x = {level} ; throw {name} ;"),
            _ => format!("x = x + {level} ;"),
        }
    }

    fn par(&mut self, level: usize, inner: &str) -> String {
        if self.places > 56 || self.cells > 108 {
            return inner.to_string();
        }
        self.places += 2;
        let mut branches = vec![inner.to_string(), self.beside(level)];
        if self.random.once_in(5) {
            self.places += 1;
            branches.push(self.beside(level));
        }
        if self.random.once_in(2) {
            branches.swap(0, 1);
        }
        format!("par {{ {} }} ;", branches.join(" } { "))
    }

    /// A branch beside the one that leads down; it only reads.
    fn beside(&mut self, level: usize) -> String {
        let (one, other) = (self.variable(), self.variable());
        self.cells += 2;
        let room = self.places < 50 && self.cells < 90;
        match self.random.weighted(&[2, 2, 4, 2, 2, 3, 1, 2, 3]) {
            0 => String::new(),
            1 => format!("know {one} ;"),
            2 => format!("next {one} ;"),
            3 => format!("next {one} ; next {other} ;"),
            4 if room => self.stuck(),
            5 => format!("{} {}", self.before(), self.throw(level)),
            6 => "while ( 1 ) { }".to_string(),
            7 if room => {
                self.places += 2;
                self.cells += 2;
                format!("par {{ next {one} ; }} {{ next {other} ; }} ;")
            }
            8 if room => self.thrower_inside(level),
            _ => format!("know {one} ; next {other} ;"),
        }
    }

    fn before(&mut self) -> String {
        let name = self.variable();
        match self.random.below(3) {
            0 => String::new(),
            1 => format!("know {name} ;"),
            _ => format!("next {name} ;"),
        }
    }

    /// Statements that never end and wait for nothing that others know.
    fn stuck(&mut self) -> String {
        self.places += 2;
        self.cells += 6;
        "var d ; var e ; par { next d ; next e ; } { next e ; next d ; } ;".to_string()
    }

    /// A par that throws, beside a branch that reads, is stuck or is done.
    fn thrower_inside(&mut self, level: usize) -> String {
        self.places += 2;
        self.cells += 2;
        let throw = self.throw(level);
        let other = if self.random.once_in(2) { self.stuck() } else { self.before() };
        let (before, after) = (self.before(), self.variable());
        format!("{before} par {{ {throw} }} {{ {other} }} ; know {after} ;")
    }
}

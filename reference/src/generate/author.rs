//! An author of texts that keep the rules, as far as it can tell: it knows
//! what is visible, who may write what, which ports are free and which tries
//! are open.

use super::faults::{self, Fault};
use super::words;
use crate::random::Random;

pub const EXCEPTIONS: [&str; 6] = ["T", "U", "V", "a", "Main", "LongestException"];

const SHORT_NAMES: [&str; 14] =
    ["a", "b", "c", "d", "e", "f", "g", "h", "x", "y", "z", "A", "i0", "T"];
const OTHER_NAMES: [&str; 8] =
    ["main1", "Par", "nextt", "abcdefghijklmnop", "Q123456789012345", "ifx", "p0", "takeN"];

/// The text of a whole program that keeps the rules.
pub fn text(random: &mut Random) -> Vec<u8> {
    let tokens = tokens(random, Vec::new());
    words::written(&tokens, random)
}

/// The tokens of a program in which the given faults are planted.
pub fn tokens(random: &mut Random, faults: Vec<Fault>) -> Vec<String> {
    let size = match random.below(12) {
        0..=4 => random.between(1, 12),
        5..=9 => random.between(10, 50),
        10 => random.between(40, 120),
        _ => random.between(100, 250),
    };
    let mut author = Author::new(random, size, faults);
    author.program();
    author.tokens
}

#[derive(Clone)]
pub struct Variable {
    pub name: String,
    pub writable: bool,
}

/// What a block may use.
#[derive(Clone)]
pub struct Scope {
    pub variables: Vec<Variable>,
    /// The ports that may be taken from, a bit for each.
    ports: u8,
    /// The names of the open tries.
    tries: Vec<&'static str>,
}

/// About how much a body unfolds to.
#[derive(Clone, Copy, Default)]
struct Cost {
    statements: usize,
    places: usize,
    cells: usize,
}

impl Cost {
    fn add(&mut self, statements: usize, places: usize, cells: usize) {
        self.statements += statements;
        self.places += places;
        self.cells += cells;
    }
}

#[derive(Clone)]
pub struct Procedure {
    pub name: String,
    pub by_reference: Vec<bool>,
    ports: u8,
    /// The exceptions that it throws and does not catch.
    escapes: Vec<&'static str>,
    cost: Cost,
    /// It is one next of its first parameter.
    waits: bool,
}

pub struct Author<'r> {
    pub random: &'r mut Random,
    pub tokens: Vec<String>,
    pub procedures: Vec<Procedure>,
    pub open: usize,
    faults: Vec<Fault>,
    /// How many statements may still be written.
    left: usize,
    written: usize,
    weights: [usize; 14],
    /// What is known so far of the body that is being written.
    cost: Cost,
    most: Cost,
    taken: u8,
    escapes: Vec<&'static str>,
    inside_procedure: bool,
}

impl<'r> Author<'r> {
    fn new(random: &'r mut Random, size: usize, faults: Vec<Fault>) -> Self {
        let mut weights = [5, 10, 3, 2, 2, 6, 1, 5, 3, 0, 4, 3, 4, 6];
        for _ in 0..3 {
            let favoured = random.below(weights.len());
            weights[favoured] *= random.between(0, 4);
        }
        weights[9] = usize::from(random.once_in(12));
        Author {
            random,
            tokens: Vec::new(),
            procedures: Vec::new(),
            open: 0,
            faults,
            left: size,
            written: 0,
            weights,
            cost: Cost::default(),
            most: Cost { statements: 200, places: 14, cells: 30 },
            taken: 0,
            escapes: Vec::new(),
            inside_procedure: true,
        }
    }

    pub fn put(&mut self, text: &str) {
        words::put(&mut self.tokens, text);
    }

    fn opened(&mut self, bracket: &str) {
        self.put(bracket);
        self.open += 1;
    }

    fn closed(&mut self, bracket: &str) {
        self.put(bracket);
        self.open -= 1;
    }

    fn program(&mut self) {
        faults::before_procedures(&self.faults.clone(), self);
        if self.random.once_in(2) {
            self.waiting_procedures();
        }
        for _ in 0..self.random.weighted(&[3, 3, 2, 2, 1, 1]) {
            self.procedure();
        }
        self.inside_procedure = false;
        self.cost = Cost::default();
        self.most = Cost { statements: 1000, places: 60, cells: 100 };
        self.left = self.left.max(3);
        self.put("main");
        self.opened("{");
        let mut scope = Scope { variables: Vec::new(), ports: 255, tries: Vec::new() };
        self.first_variables(&mut scope);
        while self.left > 0 {
            self.statement(&mut scope);
        }
        for fault in std::mem::take(&mut self.faults) {
            faults::plant(fault.number, self, &scope);
        }
        self.closed("}");
    }

    /// Procedures that are one next, by value and by reference.
    fn waiting_procedures(&mut self) {
        self.put("proc wait ( x ) { next x ; } proc meet ( & x ) { next x ; }");
        for (name, by_reference) in [("wait", false), ("meet", true)] {
            self.procedures.push(Procedure {
                name: name.to_string(),
                by_reference: vec![by_reference],
                ports: 0,
                escapes: Vec::new(),
                cost: Cost { statements: 1, places: 0, cells: usize::from(!by_reference) },
                waits: true,
            });
        }
    }

    fn procedure(&mut self) {
        let name = self.procedure_name();
        let count = self.random.weighted(&[2, 4, 4, 2, 1, 0, 0, 0, 1]);
        let by_reference: Vec<bool> = (0..count).map(|_| self.random.once_in(2)).collect();
        let mut scope = Scope { variables: Vec::new(), ports: 255, tries: Vec::new() };
        self.put(&format!("proc {name} ("));
        for (index, by_reference) in by_reference.iter().enumerate() {
            let parameter = self.new_name(&scope);
            let comma = if index > 0 { "," } else { "" };
            let sign = if *by_reference { "&" } else { "" };
            self.put(&format!("{comma} {sign} {parameter}"));
            scope.variables.push(Variable { name: parameter, writable: true });
        }
        self.put(")");
        self.cost = Cost::default();
        self.cost.add(0, 0, by_reference.iter().filter(|by| !**by).count());
        self.taken = 0;
        self.escapes.clear();
        let share = self.random.between(1, 8).min(self.left);
        self.block_of(share, &scope);
        let (ports, cost) = (self.taken, self.cost);
        let escapes = self.escapes.clone();
        self.procedures.push(Procedure { name, by_reference, ports, escapes, cost, waits: false });
    }

    fn procedure_name(&mut self) -> String {
        let number = self.procedures.len();
        let name = self.random.pick(&SHORT_NAMES).to_string();
        let known = self.procedures.iter().any(|procedure| procedure.name == name);
        if known {
            format!("p{number}")
        } else {
            name
        }
    }

    /// A name that is not visible.
    pub fn new_name(&mut self, scope: &Scope) -> String {
        let visible = |name: &str| scope.variables.iter().any(|known| known.name == name);
        for _ in 0..4 {
            let pool: &[&str] = if self.random.once_in(12) { &OTHER_NAMES } else { &SHORT_NAMES };
            let name = self.random.one(pool);
            if !visible(name) {
                return name.to_string();
            }
        }
        let mut number = scope.variables.len();
        while visible(&format!("v{number}")) {
            number += 1;
        }
        format!("v{number}")
    }

    fn first_variables(&mut self, scope: &mut Scope) {
        for _ in 0..self.random.between(0, 4) {
            self.var(scope);
        }
    }

    /// A block of about so many statements.
    fn block_of(&mut self, count: usize, scope: &Scope) {
        self.opened("{");
        let mut inner = scope.clone();
        for _ in 0..count {
            if self.left == 0 {
                break;
            }
            self.statement(&mut inner);
        }
        self.closed("}");
    }

    fn small_block(&mut self, scope: &Scope) {
        let count = self.random.weighted(&[2, 5, 4, 2, 1]);
        self.block_of(count, scope);
    }

    pub fn statement(&mut self, scope: &mut Scope) {
        self.left = self.left.saturating_sub(1);
        self.written += 1;
        if let Some(due) = self.faults.iter().position(|fault| fault.after <= self.written) {
            let fault = self.faults.remove(due);
            faults::plant(fault.number, self, scope);
        }
        self.cost.add(1, 0, 0);
        if self.open > 12 {
            return self.simple(scope);
        }
        match self.random.weighted(&self.weights.clone()) {
            0 => self.var(scope),
            1 => self.set(scope),
            2 => self.of_variable("next", scope),
            3 => self.of_variable("know", scope),
            4 => self.throw(scope),
            5 => self.call(scope),
            6 => self.small_block(scope),
            7 => self.if_statement(scope),
            8 => self.counted_loop(scope),
            9 => self.free_loop(scope),
            10 => self.try_statement(scope),
            11 => self.take(scope),
            12 => self.par(scope),
            _ => self.rounds(scope),
        }
    }

    fn simple(&mut self, scope: &mut Scope) {
        match self.random.below(4) {
            0 => self.var(scope),
            1 => self.of_variable("know", scope),
            _ => self.set(scope),
        }
    }

    fn var(&mut self, scope: &mut Scope) {
        if self.cost.cells >= self.most.cells {
            return self.put("{ }");
        }
        let name = self.new_name(scope);
        self.declare(&name, true, scope);
    }

    fn declare(&mut self, name: &str, writable: bool, scope: &mut Scope) {
        self.put(&format!("var {name} ;"));
        self.cost.add(0, 0, 1);
        scope.variables.push(Variable { name: name.to_string(), writable });
    }

    fn any_variable(&mut self, scope: &Scope) -> Option<String> {
        let names = &scope.variables;
        (!names.is_empty()).then(|| self.random.pick(names).name.clone())
    }

    fn writable_variable(&mut self, scope: &Scope) -> Option<String> {
        let writable = scope.variables.iter().filter(|variable| variable.writable);
        let names: Vec<&Variable> = writable.collect();
        (!names.is_empty()).then(|| self.random.pick(&names).name.clone())
    }

    fn set(&mut self, scope: &mut Scope) {
        let Some(name) = self.writable_variable(scope) else {
            return self.var(scope);
        };
        self.put(&format!("{name} ="));
        self.expression(scope, 3);
        self.put(";");
    }

    fn of_variable(&mut self, word: &str, scope: &mut Scope) {
        match self.any_variable(scope) {
            Some(name) => self.put(&format!("{word} {name} ;")),
            None => self.var(scope),
        }
    }

    pub fn expression(&mut self, scope: &Scope, depth: usize) {
        self.operand(scope, depth);
        let more = self.random.weighted(&[5, 4, 2, 1]);
        for _ in 0..more {
            let operators = ["+", "-", "*", "<", "==", "+", "-"];
            let operator = self.random.one(&operators);
            self.put(operator);
            self.operand(scope, depth);
        }
    }

    fn operand(&mut self, scope: &Scope, depth: usize) {
        if self.random.once_in(8) {
            self.put("-");
        }
        match self.random.below(8) {
            0 if depth > 0 && self.open < 15 => {
                self.opened("(");
                self.expression(scope, depth - 1);
                self.closed(")");
            }
            1..=3 => self.literal(),
            _ => match self.any_variable(scope) {
                Some(name) => self.put(&name),
                None => self.literal(),
            },
        }
    }

    fn literal(&mut self) {
        let rare = ["99999999", "2147483647", "007", "65536", "46341", "0000000001", "12345678"];
        let text = match self.random.below(10) {
            0 => self.random.pick(&rare).to_string(),
            1 => self.random.below(100_000_000).to_string(),
            _ => self.random.below(6).to_string(),
        };
        self.put(&text);
    }

    fn condition(&mut self, scope: &Scope) {
        self.opened("(");
        self.expression(scope, 2);
        self.closed(")");
    }

    fn if_statement(&mut self, scope: &Scope) {
        self.put("if");
        self.condition(scope);
        self.small_block(scope);
        self.put("else");
        self.small_block(scope);
    }

    /// A loop that ends: nothing but its last statement writes its counter.
    fn counted_loop(&mut self, scope: &mut Scope) {
        if self.cost.cells >= self.most.cells {
            return self.put("{ }");
        }
        let counter = self.new_name(scope);
        self.declare(&counter, false, scope);
        self.cost.add(2, 0, 0);
        let times = self.random.between(1, 4);
        self.put(&format!("while ( {counter} < {times} )"));
        self.opened("{");
        let mut inner = scope.clone();
        for _ in 0..self.random.weighted(&[1, 4, 3, 1]) {
            self.statement(&mut inner);
        }
        self.put(&format!("{counter} = {counter} + 1 ;"));
        self.closed("}");
    }

    /// A loop that may well go on for ever.
    fn free_loop(&mut self, scope: &Scope) {
        self.put("while");
        if self.random.once_in(2) {
            self.put("( 1 )");
        } else {
            self.condition(scope);
        }
        self.small_block(scope);
    }

    fn throw(&mut self, scope: &mut Scope) {
        let Some(name) = self.exception(scope) else {
            return self.try_statement(scope);
        };
        if self.random.once_in(2) && self.open < 13 {
            self.put("if");
            self.condition(scope);
            self.put(&format!("{{ throw {name} ; }} else {{ }}"));
            self.cost.add(1, 0, 0);
        } else {
            self.put(&format!("throw {name} ;"));
        }
    }

    /// An exception that may be thrown here.
    fn exception(&mut self, scope: &Scope) -> Option<&'static str> {
        if self.inside_procedure && self.random.once_in(3) {
            let name = self.random.one(&EXCEPTIONS);
            if !scope.tries.contains(&name) {
                self.escapes.push(name);
            }
            return Some(name);
        }
        (!scope.tries.is_empty()).then(|| self.random.one(&scope.tries))
    }

    fn try_statement(&mut self, scope: &Scope) {
        let name = self.random.one(&EXCEPTIONS);
        let mut inner = scope.clone();
        inner.tries.push(name);
        self.put("try");
        self.opened("{");
        for _ in 0..self.random.weighted(&[1, 3, 3, 2]) {
            self.statement(&mut inner);
        }
        if self.random.once_in(2) {
            self.rounds(&mut inner);
            self.cost.add(1, 0, 0);
        }
        self.closed("}");
        self.put(&format!("catch ( {name} )"));
        self.small_block(scope);
    }

    fn take(&mut self, scope: &mut Scope) {
        let free: Vec<usize> = (0..8).filter(|port| scope.ports >> port & 1 == 1).collect();
        let target = self.writable_variable(scope);
        let (Some(target), false) = (target, free.is_empty()) else {
            return self.set(scope);
        };
        let port = self.random.one(&free);
        self.taken |= 1 << port;
        let zero = if self.random.once_in(10) { "0" } else { "" };
        self.put(&format!("take {zero}{port} {target} else"));
        self.small_block(scope);
    }

    fn may_call(&self, procedure: &Procedure, scope: &Scope) -> bool {
        let caught = procedure.escapes.iter().all(|name| scope.tries.contains(name));
        let writable = scope.variables.iter().filter(|variable| variable.writable).count();
        let references = procedure.by_reference.iter().filter(|by| **by).count();
        let given = procedure.by_reference.is_empty() || !scope.variables.is_empty();
        let fits = self.cost.statements + procedure.cost.statements <= self.most.statements
            && self.cost.places + procedure.cost.places <= self.most.places
            && self.cost.cells + procedure.cost.cells <= self.most.cells;
        let ports = procedure.ports & !scope.ports == 0;
        (caught || self.inside_procedure) && writable >= references && given && fits && ports
    }

    fn call(&mut self, scope: &mut Scope) {
        let all = self.procedures.clone();
        let fitting: Vec<&Procedure> =
            all.iter().filter(|procedure| self.may_call(procedure, scope)).collect();
        if fitting.is_empty() {
            return self.set(scope);
        }
        let procedure = self.random.one(&fitting);
        let arguments = self.arguments(procedure, scope);
        self.put(&format!("{} ( {} ) ;", procedure.name, arguments.join(" , ")));
        self.noted_call(procedure, scope);
    }

    fn noted_call(&mut self, procedure: &Procedure, scope: &Scope) {
        let cost = procedure.cost;
        self.cost.add(cost.statements, cost.places, cost.cells);
        self.taken |= procedure.ports;
        let escapes = procedure.escapes.iter().filter(|name| !scope.tries.contains(name));
        self.escapes.extend(escapes);
    }

    fn arguments(&mut self, procedure: &Procedure, scope: &Scope) -> Vec<String> {
        let writable = scope.variables.iter().filter(|variable| variable.writable);
        let mut free: Vec<String> = writable.map(|variable| variable.name.clone()).collect();
        let mut arguments = Vec::new();
        for by_reference in &procedure.by_reference {
            arguments.push(if *by_reference {
                free.remove(self.random.below(free.len()))
            } else {
                self.any_variable(scope).unwrap_or_default()
            });
        }
        arguments
    }

    /// What each branch of a par may do: a variable and a port go to one
    /// branch at most.
    fn shares(&mut self, scope: &Scope, branches: usize) -> Vec<Scope> {
        let mut shares = vec![scope.clone(); branches];
        for index in 0..scope.variables.len() {
            let owner = self.random.below(branches + 1);
            for (branch, share) in shares.iter_mut().enumerate() {
                share.variables[index].writable &= branch == owner;
            }
        }
        for port in 0..8 {
            let owner = self.random.below(branches);
            for (branch, share) in shares.iter_mut().enumerate() {
                share.ports &= if branch == owner { 255 } else { !(1 << port) };
            }
        }
        shares
    }

    fn branch_count(&mut self) -> usize {
        2 + self.random.weighted(&[12, 6, 3, 1, 1, 0, 1])
    }

    fn par(&mut self, scope: &mut Scope) {
        let branches = self.branch_count();
        if self.cost.places + branches > self.most.places || self.cost.cells > self.most.cells {
            return self.set(scope);
        }
        self.cost.add(0, branches, branches);
        self.put("par");
        for share in self.shares(scope, branches) {
            self.small_block(&share);
        }
        self.put(";");
    }

    /// A par whose branches go through the same nexts, now and then not.
    fn rounds(&mut self, scope: &mut Scope) {
        let branches = self.branch_count();
        let over = self.cost.places + branches > self.most.places;
        if over || self.cost.cells + branches > self.most.cells || self.open > 12 {
            return self.set(scope);
        }
        if scope.variables.is_empty() || self.random.once_in(4) {
            self.var(scope);
            self.cost.add(1, 0, 0);
        }
        let count = self.random.between(1, 3);
        let homes: Vec<String> = (0..count).filter_map(|_| self.any_variable(scope)).collect();
        self.cost.add(branches * count, branches, branches);
        self.put("par");
        for share in self.shares(scope, branches) {
            self.rounds_branch(&homes, share);
        }
        self.put(";");
    }

    fn rounds_branch(&mut self, homes: &[String], mut scope: Scope) {
        self.opened("{");
        for home in homes {
            if self.random.once_in(2) && self.left > 0 {
                self.statement(&mut scope);
            }
            let writes = scope.variables.iter().any(|known| known.name == *home && known.writable);
            if writes && self.random.once_in(2) {
                self.put(&format!("{home} ="));
                self.expression(&scope, 1);
                self.put(";");
                self.cost.add(1, 0, 0);
            }
            match self.random.below(16) {
                0 => self.throw(&mut scope),
                1 => {}
                2 => self.put(&format!("know {home} ;")),
                _ => self.meeting(home, &scope),
            }
        }
        self.closed("}");
    }

    /// A next, or a call of a procedure that is one.
    fn meeting(&mut self, home: &str, scope: &Scope) {
        let waiting: Vec<Procedure> =
            self.procedures.iter().filter(|procedure| procedure.waits).cloned().collect();
        if waiting.is_empty() || !self.random.once_in(3) {
            return self.put(&format!("next {home} ;"));
        }
        let writable = scope.variables.iter().any(|known| known.name == home && known.writable);
        let procedure = &waiting[usize::from(writable && self.random.once_in(2))];
        self.put(&format!("{} ( {home} ) ;", procedure.name));
        self.noted_call(procedure, scope);
    }
}

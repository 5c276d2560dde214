//! Stage 2: tokens become a tree (docs/GRAMMAR.md).

use crate::reading::{Class, Token};
use crate::refusal::{refuse, Cause, Refusal};
use crate::tree::*;

pub const MOST_BRACKETS: usize = 16;
pub const MOST_PARAMETERS: usize = 8;
pub const MOST_BRANCHES: usize = 8;

/// The operators, loosest first.
const LEVELS: [&[(&str, Operator)]; 4] = [
    &[("==", Operator::Equal)],
    &[("<", Operator::Less)],
    &[("+", Operator::Plus), ("-", Operator::Minus)],
    &[("*", Operator::Times)],
];

/// The tree of a list of tokens, of which the last is the end.
pub fn parse<'t>(tokens: &[Token<'t>]) -> Result<Tree<'t>, Refusal> {
    let mut parser = Parser { tokens, at: 0, open: 0 };
    let mut procedures = Vec::new();
    while parser.sees("proc") {
        procedures.push(parser.procedure()?);
    }
    parser.fixed("main")?;
    let main = parser.block()?;
    if parser.here().class != Class::End {
        return parser.not_allowed();
    }
    Ok(Tree { procedures, main })
}

struct Parser<'k, 't> {
    tokens: &'k [Token<'t>],
    at: usize,
    /// How many brackets are open.
    open: usize,
}

impl<'t> Parser<'_, 't> {
    fn here(&self) -> Token<'t> {
        self.tokens[self.at]
    }

    fn sees(&self, spelling: &str) -> bool {
        self.here().class == Class::Fixed && self.here().text == spelling
    }

    fn not_allowed<T>(&self) -> Result<T, Refusal> {
        refuse(Cause::NotAllowed, self.here().offset)
    }

    /// Passes the sign or word if it stands here.
    fn passes(&mut self, spelling: &str) -> bool {
        let seen = self.sees(spelling);
        self.at += usize::from(seen);
        seen
    }

    fn fixed(&mut self, spelling: &str) -> Result<(), Refusal> {
        if self.passes(spelling) {
            Ok(())
        } else {
            self.not_allowed()
        }
    }

    fn open(&mut self, bracket: &str) -> Result<(), Refusal> {
        let offset = self.here().offset;
        self.fixed(bracket)?;
        if self.open == MOST_BRACKETS {
            return refuse(Cause::TooDeep, offset);
        }
        self.open += 1;
        Ok(())
    }

    fn close(&mut self, bracket: &str) -> Result<(), Refusal> {
        self.fixed(bracket)?;
        self.open -= 1;
        Ok(())
    }

    fn name(&mut self) -> Result<Name<'t>, Refusal> {
        let token = self.here();
        if token.class != Class::Name {
            return self.not_allowed();
        }
        self.at += 1;
        Ok(Name { text: token.text, offset: token.offset })
    }

    fn number(&mut self) -> Result<Number, Refusal> {
        let token = self.here();
        if token.class != Class::Number {
            return self.not_allowed();
        }
        self.at += 1;
        let value = token.text.parse().expect("at most ten digits");
        Ok(Number { value, offset: token.offset })
    }

    fn procedure(&mut self) -> Result<Procedure<'t>, Refusal> {
        self.fixed("proc")?;
        let name = self.name()?;
        self.open("(")?;
        let parameters = self.parameters()?;
        self.close(")")?;
        let block = self.block()?;
        Ok(Procedure { name, parameters, block })
    }

    fn parameters(&mut self) -> Result<Vec<Parameter<'t>>, Refusal> {
        let mut parameters = Vec::new();
        if self.sees(")") {
            return Ok(parameters);
        }
        loop {
            let by_reference = self.passes("&");
            let name = self.name()?;
            parameters.push(Parameter { name, by_reference });
            if parameters.len() == MOST_PARAMETERS || !self.passes(",") {
                return Ok(parameters);
            }
        }
    }

    fn block(&mut self) -> Result<Block<'t>, Refusal> {
        self.open("{")?;
        let mut statements = Vec::new();
        while !self.sees("}") {
            statements.push(self.statement()?);
        }
        self.close("}")?;
        Ok(statements)
    }

    fn statement(&mut self) -> Result<Statement<'t>, Refusal> {
        let first = self.here();
        let form = match (first.class, first.text) {
            (Class::Name, _) => self.set_or_call()?,
            (Class::Fixed, "var") => Form::Var(self.word_and_name()?),
            (Class::Fixed, "next") => Form::Next(self.word_and_name()?),
            (Class::Fixed, "know") => Form::Know(self.word_and_name()?),
            (Class::Fixed, "throw") => Form::Throw(self.word_and_name()?),
            (Class::Fixed, "{") => Form::Plain(self.block()?),
            (Class::Fixed, "if") => self.if_form()?,
            (Class::Fixed, "while") => self.while_form()?,
            (Class::Fixed, "try") => self.try_form()?,
            (Class::Fixed, "take") => self.take_form()?,
            (Class::Fixed, "par") => self.par_form()?,
            _ => return self.not_allowed(),
        };
        Ok(Statement { offset: first.offset, form })
    }

    fn word_and_name(&mut self) -> Result<Name<'t>, Refusal> {
        self.at += 1;
        let name = self.name()?;
        self.fixed(";")?;
        Ok(name)
    }

    fn set_or_call(&mut self) -> Result<Form<'t>, Refusal> {
        let name = self.name()?;
        let form = if self.sees("(") {
            self.open("(")?;
            let arguments = self.arguments()?;
            self.close(")")?;
            Form::Call(name, arguments)
        } else {
            self.fixed("=")?;
            Form::Set(name, self.expression()?)
        };
        self.fixed(";")?;
        Ok(form)
    }

    fn arguments(&mut self) -> Result<Vec<Name<'t>>, Refusal> {
        let mut arguments = Vec::new();
        if self.sees(")") {
            return Ok(arguments);
        }
        loop {
            arguments.push(self.name()?);
            if !self.passes(",") {
                return Ok(arguments);
            }
        }
    }

    fn condition(&mut self) -> Result<Expression<'t>, Refusal> {
        self.at += 1;
        self.open("(")?;
        let expression = self.expression()?;
        self.close(")")?;
        Ok(expression)
    }

    fn if_form(&mut self) -> Result<Form<'t>, Refusal> {
        let condition = self.condition()?;
        let then = self.block()?;
        self.fixed("else")?;
        Ok(Form::If(condition, then, self.block()?))
    }

    fn while_form(&mut self) -> Result<Form<'t>, Refusal> {
        let condition = self.condition()?;
        Ok(Form::While(condition, self.block()?))
    }

    fn try_form(&mut self) -> Result<Form<'t>, Refusal> {
        self.at += 1;
        let tried = self.block()?;
        self.fixed("catch")?;
        self.open("(")?;
        let name = self.name()?;
        self.close(")")?;
        Ok(Form::Try(tried, name, self.block()?))
    }

    fn take_form(&mut self) -> Result<Form<'t>, Refusal> {
        self.at += 1;
        let port = self.number()?;
        let target = self.name()?;
        self.fixed("else")?;
        Ok(Form::Take(port, target, self.block()?))
    }

    fn par_form(&mut self) -> Result<Form<'t>, Refusal> {
        self.at += 1;
        let mut branches = vec![self.block()?, self.block()?];
        while branches.len() < MOST_BRANCHES && self.sees("{") {
            branches.push(self.block()?);
        }
        self.fixed(";")?;
        Ok(Form::Par(branches))
    }

    fn expression(&mut self) -> Result<Expression<'t>, Refusal> {
        let mut items = Vec::new();
        self.level(0, &mut items)?;
        Ok(items)
    }

    /// Operands joined by the operators of this level, grouped to the left.
    fn level(&mut self, level: usize, items: &mut Expression<'t>) -> Result<(), Refusal> {
        if level == LEVELS.len() {
            return self.operand(items);
        }
        self.level(level + 1, items)?;
        while let Some(operator) = self.operator(level) {
            self.level(level + 1, items)?;
            items.push(Item::Operator(operator));
        }
        Ok(())
    }

    fn operator(&mut self, level: usize) -> Option<Operator> {
        let found = LEVELS[level].iter().find(|(spelling, _)| self.sees(spelling));
        let (_, operator) = found?;
        self.at += 1;
        Some(*operator)
    }

    fn operand(&mut self, items: &mut Expression<'t>) -> Result<(), Refusal> {
        let negated = self.passes("-");
        match self.here().class {
            Class::Name => items.push(Item::Variable(self.name()?)),
            Class::Number => items.push(Item::Literal(self.number()?)),
            _ => {
                self.open("(")?;
                self.level(0, items)?;
                self.close(")")?;
            }
        }
        if negated {
            items.push(Item::Operator(Operator::Negate));
        }
        Ok(())
    }
}

#[cfg(test)]
mod tests {
    use super::*;
    use crate::reading::read;

    fn refused(text: &str) -> Option<(u32, usize)> {
        let tokens = read(text.as_bytes()).expect("readable");
        let refusal = parse(&tokens).err()?;
        Some((refusal.cause as u32, refusal.offset))
    }

    fn postfix(expression: &str) -> String {
        let text = format!("main {{ a = {expression}; }}");
        let tokens = read(text.as_bytes()).expect("readable");
        let tree = parse(&tokens).expect("parsed");
        let Form::Set(_, items) = &tree.main[0].form else { panic!("an assignment") };
        let parts: Vec<String> = items.iter().map(shown).collect();
        parts.join(" ")
    }

    fn shown(item: &Item) -> String {
        match item {
            Item::Variable(name) => name.text.to_string(),
            Item::Literal(number) => number.value.to_string(),
            Item::Operator(operator) => format!("{operator:?}"),
        }
    }

    #[test]
    fn operators_bind_and_group() {
        assert_eq!(postfix("a - b - c"), "a b Minus c Minus");
        assert_eq!(postfix("a + b * 2 == c"), "a b 2 Times Plus c Equal");
        assert_eq!(postfix("a == b < c == d"), "a b c Less Equal d Equal");
        assert_eq!(postfix("-a * -(b + 1)"), "a Negate b 1 Plus Negate Times");
        assert_eq!(postfix("a - -b"), "a b Negate Minus");
    }

    #[test]
    fn the_first_wrong_token_is_refused() {
        assert_eq!(refused("main { a = - -b; }"), Some((13, 13)));
        assert_eq!(refused("main { par { } ; }"), Some((13, 15)));
        assert_eq!(refused("main { "), Some((13, 7)));
        assert_eq!(refused(""), Some((13, 0)));
        assert_eq!(refused("main { } ;"), Some((13, 9)));
        assert_eq!(refused("proc p(a,) { } main { }"), Some((13, 9)));
        assert_eq!(refused("main { p(a,); }"), Some((13, 11)));
        assert_eq!(refused("main { if (a) { } a = 1; }"), Some((13, 18)));
    }

    #[test]
    fn ninth_parameters_and_branches_are_refused() {
        assert_eq!(refused("proc p(a,b,c,d,e,f,g,h) { } main { }"), None);
        assert_eq!(refused("proc p(a,b,c,d,e,f,g,h,i) { } main { }"), Some((13, 22)));
        assert_eq!(refused("main { p(a,b,c,d,e,f,g,h,i); }"), None);
        assert_eq!(refused("main { par {}{}{}{}{}{}{}{}; }"), None);
        assert_eq!(refused("main { par {}{}{}{}{}{}{}{}{}; }"), Some((13, 27)));
    }

    #[test]
    fn sixteen_brackets_may_be_open() {
        let nested = |depth: usize| format!("main {}{}", "{".repeat(depth), "}".repeat(depth));
        assert_eq!(refused(&nested(16)), None);
        assert_eq!(refused(&nested(17)), Some((14, 21)));
        let inside = |inner: &str| format!("main {}{}{}", "{".repeat(16), inner, "}".repeat(16));
        assert_eq!(refused(&inside("if x")), Some((13, 24)));
        assert_eq!(refused(&inside("if (")), Some((14, 24)));
        assert_eq!(refused(&inside("p()")), Some((14, 22)));
        assert_eq!(refused(&inside("var ( ")), Some((13, 25)));
    }
}

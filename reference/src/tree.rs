//! The tree of a text, as the grammar finds it.

/// A name where it stands in the text.
#[derive(Clone, Copy, Debug, PartialEq, Eq)]
pub struct Name<'t> {
    pub text: &'t str,
    pub offset: usize,
}

/// A number where it stands in the text.
#[derive(Clone, Copy, Debug, PartialEq, Eq)]
pub struct Number {
    pub value: u64,
    pub offset: usize,
}

#[derive(Clone, Copy, Debug, PartialEq, Eq)]
pub enum Operator {
    Equal,
    Less,
    Plus,
    Minus,
    Times,
    /// The sign before an operand.
    Negate,
}

#[derive(Clone, Copy, Debug, PartialEq, Eq)]
pub enum Item<'t> {
    Variable(Name<'t>),
    Literal(Number),
    Operator(Operator),
}

/// An expression with each operator after its operands; the operands stand in
/// the order of the text.
pub type Expression<'t> = Vec<Item<'t>>;

pub type Block<'t> = Vec<Statement<'t>>;

#[derive(Debug)]
pub struct Statement<'t> {
    pub offset: usize,
    pub form: Form<'t>,
}

#[derive(Debug)]
pub enum Form<'t> {
    Var(Name<'t>),
    Next(Name<'t>),
    Know(Name<'t>),
    Throw(Name<'t>),
    Set(Name<'t>, Expression<'t>),
    Call(Name<'t>, Vec<Name<'t>>),
    Plain(Block<'t>),
    If(Expression<'t>, Block<'t>, Block<'t>),
    While(Expression<'t>, Block<'t>),
    Try(Block<'t>, Name<'t>, Block<'t>),
    Take(Number, Name<'t>, Block<'t>),
    Par(Vec<Block<'t>>),
}

#[derive(Debug)]
pub struct Parameter<'t> {
    pub name: Name<'t>,
    pub by_reference: bool,
}

#[derive(Debug)]
pub struct Procedure<'t> {
    pub name: Name<'t>,
    pub parameters: Vec<Parameter<'t>>,
    pub block: Block<'t>,
}

#[derive(Debug)]
pub struct Tree<'t> {
    pub procedures: Vec<Procedure<'t>>,
    pub main: Block<'t>,
}

//! What a text says, before its names are numbers. A name is a part of the text.

use crate::module::{Edge, Operator};

#[derive(Clone, Copy, Debug, PartialEq, Eq)]
pub struct Name<'a> {
    pub place: usize,
    pub spelled: &'a [u8],
}

#[derive(Debug)]
pub enum Expression<'a> {
    Name(Name<'a>),
    /// A value modulo 2^32.
    Known {
        size: u32,
        value: u32,
    },
    Unknown {
        size: u32,
    },
    Operation(Operator, Vec<Expression<'a>>),
}

#[derive(Debug)]
pub enum Statement<'a> {
    Null,
    Assign { later: bool, target: Name<'a>, value: Expression<'a> },
    If(Expression<'a>, Box<Statement<'a>>, Option<Box<Statement<'a>>>),
    Case(Expression<'a>, Vec<Arm<'a>>),
    While(Expression<'a>, Box<Statement<'a>>),
    Forever(Box<Statement<'a>>),
    After(Vec<(Edge, Name<'a>)>, Box<Statement<'a>>),
    Block(Vec<Statement<'a>>),
}

#[derive(Debug)]
pub struct Arm<'a> {
    /// A constant, or none for the default.
    pub label: Option<Expression<'a>>,
    pub body: Statement<'a>,
}

#[derive(Clone, Copy, Debug, PartialEq, Eq)]
pub enum Kind {
    Input,
    Register,
    Wire,
}

impl Kind {
    pub const ALL: [Kind; 3] = [Kind::Input, Kind::Register, Kind::Wire];
}

#[derive(Debug)]
pub struct Declaration<'a> {
    pub kind: Kind,
    pub width: u32,
    pub name: Name<'a>,
}

#[derive(Debug, Default)]
pub struct Source<'a> {
    pub declarations: Vec<Declaration<'a>>,
    pub assigns: Vec<(Name<'a>, Expression<'a>)>,
    pub threads: Vec<Statement<'a>>,
}

impl<'a> Source<'a> {
    /// The variables of a kind, as declared.
    pub fn of(&self, kind: Kind) -> impl Iterator<Item = &Declaration<'a>> {
        self.declarations.iter().filter(move |d| d.kind == kind)
    }
}

//! A module as trees: what a sheet says, without its bytes.

/// A variable's number: inputs, then registers, then wires, from 0.
pub type Variable = u8;

#[derive(Clone, Debug, PartialEq, Eq)]
pub struct Module {
    pub inputs: u8,
    pub registers: u8,
    /// The width of each variable.
    pub widths: Vec<u8>,
    /// Document 02, [5]: at most 8, none in most sheets.
    pub functions: Vec<Function>,
    /// The expression of each wire.
    pub wires: Vec<Expr>,
    /// The statement of each thread, without the forever around it.
    pub threads: Vec<Stmt>,
}

/// In its body variables 0 up are the parameters and the next one is the result, the only target.
#[derive(Clone, Debug, PartialEq, Eq)]
pub struct Function {
    /// The parameters' widths.
    pub parameters: Vec<u8>,
    /// The result's width.
    pub result: u8,
    /// Without wait, loop and later assignment.
    pub body: Stmt,
}

#[derive(Clone, Debug, PartialEq, Eq)]
pub enum Expr {
    Variable(Variable),
    Constant {
        width: u8,
        value: u32,
    },
    /// A constant that is x.
    Unknown {
        width: u8,
    },
    /// The operator has as many operands as its arity says.
    Operation(Operator, Vec<Expr>),
    /// A function's number, and as many arguments as it has parameters.
    Call(u8, Vec<Expr>),
}

#[derive(Clone, Copy, Debug, PartialEq, Eq)]
pub enum Operator {
    /// `~`
    Invert = 1,
    /// `!`
    Not = 2,
    And = 3,
    Or = 4,
    Xor = 5,
    Add = 6,
    Subtract = 7,
    Equal = 8,
    /// `<`, unsigned
    Less = 9,
    /// `?:`
    Conditional = 10,
}

#[derive(Clone, Debug, PartialEq, Eq)]
pub enum Stmt {
    Empty,
    /// Plain (blocking) assignment.
    Set(Variable, Expr),
    /// Non-blocking assignment.
    Later(Variable, Expr),
    Sequence(Box<Stmt>, Box<Stmt>),
    If(Expr, Box<Stmt>),
    IfElse(Expr, Box<Stmt>, Box<Stmt>),
    While(Expr, Box<Stmt>),
    Forever(Box<Stmt>),
    /// Event control: the sensitivity list.
    Wait(Vec<Term>),
}

/// One entry of a sensitivity list.
#[derive(Clone, Copy, Debug, PartialEq, Eq)]
pub struct Term {
    pub edge: Edge,
    pub variable: Variable,
}

#[derive(Clone, Copy, Debug, PartialEq, Eq)]
pub enum Edge {
    Any = 0,
    Posedge = 1,
    Negedge = 2,
}

impl Function {
    /// The widths of what its body names: parameters, then result.
    pub fn widths(&self) -> Vec<u8> {
        [&self.parameters[..], &[self.result]].concat()
    }

    /// The variable that is the result.
    pub fn target(&self) -> Variable {
        self.parameters.len() as u8
    }
}

impl Operator {
    pub const ALL: [Operator; 10] = [
        Operator::Invert,
        Operator::Not,
        Operator::And,
        Operator::Or,
        Operator::Xor,
        Operator::Add,
        Operator::Subtract,
        Operator::Equal,
        Operator::Less,
        Operator::Conditional,
    ];

    pub fn number(self) -> u8 {
        self as u8
    }

    /// How many operands it takes.
    pub fn arity(self) -> usize {
        match self {
            Operator::Invert | Operator::Not => 1,
            Operator::Conditional => 3,
            _ => 2,
        }
    }

    /// The operator of this number that takes so many operands.
    pub fn find(number: u8, arity: usize) -> Option<Operator> {
        Operator::ALL.into_iter().find(|o| o.number() == number && o.arity() == arity)
    }
}

impl Edge {
    pub const ALL: [Edge; 3] = [Edge::Any, Edge::Posedge, Edge::Negedge];

    pub fn number(self) -> u8 {
        self as u8
    }

    pub fn find(number: u8) -> Option<Edge> {
        Edge::ALL.into_iter().find(|e| e.number() == number)
    }
}

impl Stmt {
    pub fn sequence(first: Stmt, second: Stmt) -> Stmt {
        Stmt::Sequence(Box::new(first), Box::new(second))
    }

    pub fn when(condition: Expr, body: Stmt) -> Stmt {
        Stmt::If(condition, Box::new(body))
    }

    pub fn if_else(condition: Expr, first: Stmt, second: Stmt) -> Stmt {
        Stmt::IfElse(condition, Box::new(first), Box::new(second))
    }

    pub fn while_loop(condition: Expr, body: Stmt) -> Stmt {
        Stmt::While(condition, Box::new(body))
    }

    pub fn forever(body: Stmt) -> Stmt {
        Stmt::Forever(Box::new(body))
    }

    /// `@(posedge variable)`
    pub fn posedge(variable: Variable) -> Stmt {
        Stmt::Wait(vec![Term { edge: Edge::Posedge, variable }])
    }

    /// The statements one after the other, nested to the right.
    pub fn list(statements: Vec<Stmt>) -> Stmt {
        let mut rest = statements.into_iter().rev();
        let last = rest.next().unwrap_or(Stmt::Empty);
        rest.fold(last, |after, before| Stmt::sequence(before, after))
    }
}

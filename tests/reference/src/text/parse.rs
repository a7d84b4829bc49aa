//! The cut grammar. An error is the place of the first token at which no derivation goes on,
//! or the text's length where it ends too early.

use crate::module::{Edge, Operator};
use crate::text::scan::{Kind as TokenKind, Token};
use crate::text::tree::{Arm, Declaration, Expression, Kind, Name, Source, Statement};

type Parsing<T> = Result<T, usize>;

pub fn module<'a>(tokens: &[Token<'a>], end: usize) -> Parsing<Source<'a>> {
    let mut parser = Parser { tokens, end, at: 0, source: Source::default() };
    parser.module()?;
    Ok(parser.source)
}

struct Parser<'t, 'a> {
    tokens: &'t [Token<'a>],
    /// The text's length.
    end: usize,
    at: usize,
    source: Source<'a>,
}

/// Table 5-4, the closest first.
fn binary(token: &Token) -> Option<(u8, Operator)> {
    let operators = [
        ("+", 7, Operator::Add),
        ("-", 7, Operator::Subtract),
        ("<", 6, Operator::Less),
        ("==", 5, Operator::Equal),
        ("&", 4, Operator::And),
        ("^", 3, Operator::Xor),
        ("|", 2, Operator::Or),
    ];
    let found = operators.into_iter().find(|(sign, _, _)| token.is(sign))?;
    Some((found.1, found.2))
}

impl<'a> Parser<'_, 'a> {
    // ---- tokens

    fn next(&self) -> Option<&Token<'a>> {
        self.tokens.get(self.at)
    }

    fn refuse<T>(&self) -> Parsing<T> {
        Err(self.next().map_or(self.end, |token| token.place))
    }

    fn sees(&self, fixed: &str) -> bool {
        self.next().is_some_and(|token| token.is(fixed))
    }

    fn take(&mut self, fixed: &str) -> bool {
        let there = self.sees(fixed);
        self.at += usize::from(there);
        there
    }

    fn expect(&mut self, fixed: &str) -> Parsing<()> {
        if self.take(fixed) { Ok(()) } else { self.refuse() }
    }

    fn name(&mut self) -> Parsing<Name<'a>> {
        match self.next() {
            Some(Token { kind: TokenKind::Name, place, spelled }) => {
                let name = Name { place: *place, spelled };
                self.at += 1;
                Ok(name)
            }
            _ => self.refuse(),
        }
    }

    // ---- the module

    fn module(&mut self) -> Parsing<()> {
        self.expect("module")?;
        self.name()?;
        self.expect("(")?;
        self.names()?;
        self.expect(")")?;
        self.expect(";")?;
        while !self.take("endmodule") {
            self.item()?;
        }
        if self.next().is_some() { self.refuse() } else { Ok(()) }
    }

    fn names(&mut self) -> Parsing<Vec<Name<'a>>> {
        let mut names = vec![self.name()?];
        while self.take(",") {
            names.push(self.name()?);
        }
        Ok(names)
    }

    fn item(&mut self) -> Parsing<()> {
        if self.take("input") {
            self.declaration(Kind::Input)
        } else if self.take("reg") {
            self.declaration(Kind::Register)
        } else if self.take("wire") {
            self.declaration(Kind::Wire)
        } else if self.take("assign") {
            self.assigns()
        } else {
            self.expect("always")?;
            let thread = self.statement()?;
            self.source.threads.push(thread);
            Ok(())
        }
    }

    fn declaration(&mut self, kind: Kind) -> Parsing<()> {
        let width = if self.take("[") { self.range()? } else { 1 };
        for name in self.names()? {
            self.source.declarations.push(Declaration { kind, width, name });
        }
        self.expect(";")
    }

    /// `n:0]`
    fn range(&mut self) -> Parsing<u32> {
        let high = self.unsigned(|_| true)?;
        self.expect(":")?;
        self.unsigned(|low| low == 0)?;
        self.expect("]")?;
        Ok(high + 1)
    }

    fn unsigned(&mut self, fits: impl Fn(u32) -> bool) -> Parsing<u32> {
        match self.next().map(|token| token.kind) {
            Some(TokenKind::Number { value, .. }) if fits(value) => {
                self.at += 1;
                Ok(value)
            }
            _ => self.refuse(),
        }
    }

    fn assigns(&mut self) -> Parsing<()> {
        loop {
            let target = self.name()?;
            self.expect("=")?;
            let value = self.expression(1)?;
            self.source.assigns.push((target, value));
            if !self.take(",") {
                return self.expect(";");
            }
        }
    }

    // ---- statements

    fn statement_or_null(&mut self) -> Parsing<Statement<'a>> {
        if self.take(";") { Ok(Statement::Null) } else { self.statement() }
    }

    fn statement(&mut self) -> Parsing<Statement<'a>> {
        if self.take("if") {
            let condition = self.condition()?;
            let first = Box::new(self.statement_or_null()?);
            let second = match self.take("else") {
                true => Some(Box::new(self.statement_or_null()?)),
                false => None,
            };
            Ok(Statement::If(condition, first, second))
        } else if self.take("case") {
            self.case()
        } else if self.take("while") {
            let condition = self.condition()?;
            Ok(Statement::While(condition, Box::new(self.statement()?)))
        } else if self.take("forever") {
            Ok(Statement::Forever(Box::new(self.statement()?)))
        } else if self.take("@") {
            let events = self.events()?;
            Ok(Statement::After(events, Box::new(self.statement_or_null()?)))
        } else if self.take("begin") {
            let mut statements = Vec::new();
            while !self.take("end") {
                statements.push(self.statement()?);
            }
            Ok(Statement::Block(statements))
        } else {
            self.assignment()
        }
    }

    fn assignment(&mut self) -> Parsing<Statement<'a>> {
        let target = self.name()?;
        let later = !self.take("=");
        if later {
            self.expect("<=")?;
        }
        let value = self.expression(1)?;
        self.expect(";")?;
        Ok(Statement::Assign { later, target, value })
    }

    fn condition(&mut self) -> Parsing<Expression<'a>> {
        self.expect("(")?;
        let condition = self.expression(1)?;
        self.expect(")")?;
        Ok(condition)
    }

    fn case(&mut self) -> Parsing<Statement<'a>> {
        let subject = self.condition()?;
        let mut arms: Vec<Arm> = Vec::new();
        while arms.is_empty() || !self.take("endcase") {
            let label = if self.sees("default") {
                if arms.iter().any(|arm| arm.label.is_none()) {
                    return self.refuse();
                }
                self.expect("default")?;
                self.take(":");
                None
            } else {
                let label = self.label()?;
                self.expect(":")?;
                Some(label)
            };
            let body = self.statement_or_null()?;
            arms.push(Arm { label, body });
        }
        Ok(Statement::Case(subject, arms))
    }

    /// One known constant.
    fn label(&mut self) -> Parsing<Expression<'a>> {
        let size = self.size()?;
        match self.next().map(|token| token.kind) {
            Some(TokenKind::Known(value)) => {
                self.at += 1;
                Ok(Expression::Known { size, value })
            }
            _ => self.refuse(),
        }
    }

    fn events(&mut self) -> Parsing<Vec<(Edge, Name<'a>)>> {
        if !self.take("(") {
            return Ok(vec![(Edge::Any, self.name()?)]);
        }
        let mut events = Vec::new();
        loop {
            let edge = match (self.take("posedge"), self.sees("negedge")) {
                (true, _) => Edge::Posedge,
                (false, true) => {
                    self.expect("negedge")?;
                    Edge::Negedge
                }
                (false, false) => Edge::Any,
            };
            events.push((edge, self.name()?));
            if !self.take("or") && !self.take(",") {
                self.expect(")")?;
                return Ok(events);
            }
        }
    }

    // ---- expressions

    /// An expression none of whose operators outside parentheses has a lower level. To the
    /// left; ?: has level 1 and goes to the right.
    fn expression(&mut self, lowest: u8) -> Parsing<Expression<'a>> {
        let mut left = self.operand()?;
        while let Some((level, operator)) = self.next().and_then(binary) {
            if level < lowest {
                return Ok(left);
            }
            self.at += 1;
            let right = self.expression(level + 1)?;
            left = Expression::Operation(operator, vec![left, right]);
        }
        if lowest > 1 || !self.take("?") {
            return Ok(left);
        }
        let first = self.expression(1)?;
        self.expect(":")?;
        let second = self.expression(1)?;
        Ok(Expression::Operation(Operator::Conditional, vec![left, first, second]))
    }

    fn operand(&mut self) -> Parsing<Expression<'a>> {
        let operator = if self.take("~") {
            Operator::Invert
        } else if self.take("!") {
            Operator::Not
        } else {
            return self.primary();
        };
        Ok(Expression::Operation(operator, vec![self.primary()?]))
    }

    fn primary(&mut self) -> Parsing<Expression<'a>> {
        if self.sees("(") {
            return self.condition();
        }
        if self.next().is_some_and(|token| token.kind == TokenKind::Name) {
            return Ok(Expression::Name(self.name()?));
        }
        let size = self.size()?;
        let constant = match self.next().map(|token| token.kind) {
            Some(TokenKind::Known(value)) => Expression::Known { size, value },
            Some(TokenKind::Unknown) => Expression::Unknown { size },
            _ => return self.refuse(),
        };
        self.at += 1;
        Ok(constant)
    }

    /// A number that doesn't begin with 0.
    fn size(&mut self) -> Parsing<u32> {
        match self.next().map(|token| token.kind) {
            Some(TokenKind::Number { leading_zero: false, value }) => {
                self.at += 1;
                Ok(value)
            }
            _ => self.refuse(),
        }
    }
}

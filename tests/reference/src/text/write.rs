//! The sheet that a text means. Nothing is judged but that a count or width past document 01's
//! range is written as 255.

use std::collections::HashMap;

use crate::module::{Edge, Operator};
use crate::sheet::{
    MOST_INPUTS, MOST_REGISTERS, MOST_TERMS, MOST_THREADS, MOST_WIDTH, MOST_WIRES,
};
use crate::text::tree::{Arm, Expression, Kind, Name, Source, Statement};

pub fn sheet(source: &Source) -> Vec<u8> {
    let mut numbers: HashMap<&[u8], u8> = HashMap::new();
    let variables = Kind::ALL.iter().flat_map(|kind| source.of(*kind));
    let mut widths = Vec::new();
    for (number, variable) in variables.enumerate() {
        numbers.entry(variable.name.spelled).or_insert(u8::try_from(number).unwrap_or(255));
        widths.push(up_to(MOST_WIDTH, variable.width as usize));
    }
    let count = |most, kind| up_to(most, source.of(kind).count());
    let mut writer = Writer { numbers: &numbers, sheet: Vec::new() };
    writer.sheet.extend([
        count(MOST_INPUTS, Kind::Input),
        count(MOST_REGISTERS, Kind::Register),
        count(MOST_WIRES, Kind::Wire),
        up_to(MOST_THREADS, source.threads.len()),
    ]);
    writer.sheet.extend(widths);
    for wire in source.of(Kind::Wire) {
        let assign =
            source.assigns.iter().find(|(target, _)| target.spelled == wire.name.spelled);
        writer.expression(&assign.expect("each wire has its assign").1);
    }
    source.threads.iter().for_each(|thread| writer.statement(thread));
    writer.sheet
}

fn up_to(most: u8, count: usize) -> u8 {
    u8::try_from(count).ok().filter(|count| *count <= most).unwrap_or(255)
}

struct Writer<'n, 'a> {
    numbers: &'n HashMap<&'a [u8], u8>,
    sheet: Vec<u8>,
}

impl Writer<'_, '_> {
    fn number(&self, name: &Name) -> u8 {
        self.numbers[name.spelled]
    }

    fn expression(&mut self, e: &Expression) {
        match e {
            Expression::Name(name) => self.sheet.extend([0x02, self.number(name)]),
            Expression::Known { size, value } => {
                self.sheet.extend([0x0C, up_to(MOST_WIDTH, *size as usize)]);
                let cut = if *size < 32 { value & ((1 << size) - 1) } else { *value };
                self.sheet.extend(cut.to_le_bytes());
            }
            Expression::Unknown { size } => {
                self.sheet.extend([0x04, up_to(MOST_WIDTH, *size as usize)]);
            }
            Expression::Operation(operator, operands) => {
                let map = [0x11, 0x31, 0x71][operands.len() - 1];
                self.sheet.extend([map, operator.number()]);
                operands.iter().for_each(|operand| self.expression(operand));
            }
        }
    }

    fn statement(&mut self, s: &Statement) {
        match s {
            Statement::Null => self.sheet.push(0x00),
            Statement::Assign { later, target, value } => {
                let number = self.number(target);
                self.sheet.extend([if *later { 0x23 } else { 0x03 }, number]);
                self.expression(value);
            }
            Statement::If(condition, first, second) => {
                self.sheet.push(if second.is_some() { 0x0E } else { 0x06 });
                self.expression(condition);
                self.statement(first);
                second.iter().for_each(|second| self.statement(second));
            }
            Statement::Case(subject, arms) => self.case(subject, arms),
            Statement::While(condition, body) => {
                self.sheet.push(0x46);
                self.expression(condition);
                self.statement(body);
            }
            Statement::Forever(body) => {
                self.sheet.push(0x44);
                self.statement(body);
            }
            Statement::After(events, body) => {
                self.sheet.push(0x0C);
                self.wait(events);
                self.statement(body);
            }
            Statement::Block(statements) => self.block(statements),
        }
    }

    fn block(&mut self, statements: &[Statement]) {
        let Some((last, before)) = statements.split_last() else {
            return self.sheet.push(0x00);
        };
        for statement in before {
            self.sheet.push(0x0C);
            self.statement(statement);
        }
        self.statement(last);
    }

    fn wait(&mut self, events: &[(Edge, Name)]) {
        self.sheet.extend([0x10, up_to(MOST_TERMS, events.len())]);
        for (edge, name) in events {
            let number = self.number(name);
            self.sheet.extend([edge.number(), number]);
        }
    }

    /// The tests one in another, the default in the last.
    fn case(&mut self, subject: &Expression, arms: &[Arm]) {
        let default = arms.iter().find(|arm| arm.label.is_none());
        let tests: Vec<_> =
            arms.iter().filter_map(|arm| Some((arm.label.as_ref()?, &arm.body))).collect();
        for (index, (label, body)) in tests.iter().enumerate() {
            let alone = index + 1 == tests.len() && default.is_none();
            let equal = Operator::Equal.number();
            self.sheet.extend([if alone { 0x06 } else { 0x0E }, 0x31, equal]);
            self.expression(subject);
            self.expression(label);
            self.statement(body);
        }
        if let Some(default) = default {
            self.statement(&default.body);
        }
    }
}

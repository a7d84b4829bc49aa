//! Random texts: a module of document 01 written as Verilog in one of its many ways, and texts
//! with a fault in them.

use crate::module::{Edge, Expr, Module, Operator, Stmt, Term, Variable};
use crate::random::Random;
use crate::text::scan::KEYWORDS;

/// A module's text.
pub fn text(module: &Module, random: &mut Random) -> Vec<u8> {
    let names = names(module.widths.len(), random);
    let mut writer = Writer { module, names, plain: false, tokens: Vec::new(), random };
    writer.module();
    let tokens = writer.tokens;
    spaced(&tokens, random)
}

/// The same with the inputs as ports, one blank between two tokens and none within a constant:
/// Icarus asks a direction of each port, and takes no comment and no line end in a constant.
pub fn plain(module: &Module, random: &mut Random) -> Vec<u8> {
    let names = names(module.widths.len(), random);
    plainly(module, names, random)
}

/// The same with the names i0.., r0.., w0...
pub fn numbered(module: &Module, random: &mut Random) -> Vec<u8> {
    let (inputs, registers) = (usize::from(module.inputs), usize::from(module.registers));
    let name = |v: usize| match v {
        v if v < inputs => format!("i{v}"),
        v if v < inputs + registers => format!("r{}", v - inputs),
        v => format!("w{}", v - inputs - registers),
    };
    plainly(module, (0..module.widths.len()).map(name).collect(), random)
}

fn plainly(module: &Module, names: Vec<String>, random: &mut Random) -> Vec<u8> {
    let mut writer = Writer { module, names, plain: true, tokens: Vec::new(), random };
    writer.module();
    let mut text = String::new();
    for token in &writer.tokens {
        if !token.starts_with('\'') {
            text.push(' ');
        }
        text.extend(token.chars().filter(|c| !c.is_whitespace()));
    }
    text.into_bytes()
}

/// The module that such a text means: a wait that doesn't open a sequence is the first part of
/// one with nothing behind it.
pub fn meant(module: &Module) -> Module {
    let threads = module.threads.iter().map(opened).collect();
    Module { threads, ..module.clone() }
}

fn opened(s: &Stmt) -> Stmt {
    let inner = |s: &Stmt| Box::new(opened(s));
    match s {
        Stmt::Wait(_) => Stmt::sequence(s.clone(), Stmt::Empty),
        Stmt::Sequence(first, second) => match **first {
            Stmt::Wait(_) => Stmt::Sequence(first.clone(), inner(second)),
            _ => Stmt::Sequence(inner(first), inner(second)),
        },
        Stmt::If(e, body) => Stmt::If(e.clone(), inner(body)),
        Stmt::IfElse(e, first, second) => Stmt::IfElse(e.clone(), inner(first), inner(second)),
        Stmt::While(e, body) => Stmt::While(e.clone(), inner(body)),
        Stmt::Forever(body) => Stmt::Forever(inner(body)),
        Stmt::Empty | Stmt::Set(..) | Stmt::Later(..) => s.clone(),
    }
}

/// Distinct names: short and long ones, some that differ late, some that look like keywords.
fn names(count: usize, random: &mut Random) -> Vec<String> {
    let mut names: Vec<String> = Vec::new();
    while names.len() < count {
        let stem =
            random.pick(&["a", "b", "q", "_", "Reg", "modules", "x", "h", "wire_", "data"]);
        let name = match random.below(4) {
            0 => stem.to_string(),
            1 => format!("{stem}{}", random.below(100)),
            2 => format!("{stem}${}", random.below(100)),
            _ => format!("{stem}_{}_{}", random.below(10), random.below(10)),
        };
        let free = !names.contains(&name) && !KEYWORDS.split(' ').any(|word| word == name);
        if free {
            names.push(name);
        }
    }
    names
}

struct Writer<'a> {
    module: &'a Module,
    names: Vec<String>,
    plain: bool,
    tokens: Vec<String>,
    random: &'a mut Random,
}

/// 8 for what needs no parentheses anywhere.
fn level(e: &Expr) -> u8 {
    match e {
        Expr::Operation(operator, _) => match operator {
            Operator::Invert | Operator::Not => 8,
            Operator::Add | Operator::Subtract => 7,
            Operator::Less => 6,
            Operator::Equal => 5,
            Operator::And => 4,
            Operator::Xor => 3,
            Operator::Or => 2,
            Operator::Conditional => 1,
        },
        _ => 9,
    }
}

fn sign(operator: Operator) -> &'static str {
    match operator {
        Operator::Invert => "~",
        Operator::Not => "!",
        Operator::And => "&",
        Operator::Or => "|",
        Operator::Xor => "^",
        Operator::Add => "+",
        Operator::Subtract => "-",
        Operator::Equal => "==",
        Operator::Less => "<",
        Operator::Conditional => "?",
    }
}

/// Does it end in an `if` to which an `else` behind it would belong?
fn open(s: &Stmt) -> bool {
    match s {
        Stmt::If(..) => true,
        Stmt::IfElse(_, _, second) => open(second),
        Stmt::While(_, body) | Stmt::Forever(body) => open(body),
        Stmt::Sequence(first, second) => matches!(**first, Stmt::Wait(_)) && open(second),
        _ => false,
    }
}

impl Writer<'_> {
    fn put(&mut self, token: &str) {
        self.tokens.push(token.to_string());
    }

    fn name(&mut self, variable: Variable) {
        let name = self.names[usize::from(variable)].clone();
        self.tokens.push(name);
    }

    // ---- the module

    fn module(&mut self) {
        self.put("module");
        let title = match self.plain {
            true => "walbryts".to_string(),
            false => self.random.pick(&["m", "top", "stand_3"]).to_string(),
        };
        self.tokens.push(title);
        self.put("(");
        let ports = match self.plain {
            true => usize::from(self.module.inputs),
            false => self.random.between(1, self.names.len()),
        };
        for port in 0..ports {
            if port > 0 {
                self.put(",");
            }
            self.name(port as Variable);
        }
        self.put(")");
        self.put(";");
        self.items();
        self.put("endmodule");
    }

    /// Variables of a kind and threads in their order, the rest in any.
    fn items(&mut self) {
        let inputs = usize::from(self.module.inputs);
        let registers = inputs + usize::from(self.module.registers);
        let variables = self.module.widths.len();
        let mut lists = [(0, inputs), (inputs, registers), (registers, variables)];
        let mut assigns: Vec<usize> = (0..self.module.wires.len()).collect();
        let mut thread = 0;
        loop {
            let left = lists.iter().any(|(from, to)| from < to);
            let work = !assigns.is_empty() || thread < self.module.threads.len();
            match self.random.below(3) {
                _ if !left && !work => return,
                0 if !assigns.is_empty() => {
                    let index = self.random.below(assigns.len());
                    let wire = assigns.swap_remove(index);
                    self.assign(wire, &mut assigns, registers);
                }
                1 if thread < self.module.threads.len() => {
                    self.put("always");
                    let body = &self.module.threads[thread];
                    self.statement(body);
                    thread += 1;
                }
                _ => {
                    let kind = self.random.below(3);
                    let (from, to) = lists[kind];
                    if from < to {
                        lists[kind].0 = self.declaration(kind, from, to);
                    }
                }
            }
        }
    }

    /// Declares some variables of one width, and gives the first that is left.
    fn declaration(&mut self, kind: usize, from: usize, to: usize) -> usize {
        let width = self.module.widths[from];
        self.put(["input", "reg", "wire"][kind]);
        if width != 1 || self.random.chance(1, 4) {
            self.put("[");
            let high = format!("{}{}", self.random.pick(&["", "", "0", "0_"]), width - 1);
            self.put(&high);
            self.put(":");
            let low = self.random.pick(&["0", "00", "0_0"]);
            self.put(low);
            self.put("]");
        }
        self.name(from as Variable);
        let mut next = from + 1;
        while next < to && self.module.widths[next] == width && self.random.chance(2, 3) {
            self.put(",");
            self.name(next as Variable);
            next += 1;
        }
        self.put(";");
        next
    }

    fn assign(&mut self, wire: usize, others: &mut Vec<usize>, registers: usize) {
        self.put("assign");
        let mut wire = wire;
        loop {
            self.name((registers + wire) as Variable);
            self.put("=");
            let value = &self.module.wires[wire];
            self.expression(value, 1);
            match others.pop() {
                Some(other) if self.random.chance(1, 3) => wire = other,
                last => {
                    others.extend(last);
                    return self.put(";");
                }
            }
            self.put(",");
        }
    }

    // ---- statements

    fn or_null(&mut self, s: &Stmt) {
        if *s == Stmt::Empty && self.random.chance(2, 3) {
            self.put(";")
        } else {
            self.statement(s)
        }
    }

    fn block(&mut self, s: &Stmt) {
        self.put("begin");
        self.statement(s);
        self.put("end");
    }

    fn statement(&mut self, s: &Stmt) {
        if self.random.chance(1, 12) {
            return self.block(s);
        }
        match s {
            Stmt::Empty => {
                self.put("begin");
                self.put("end");
            }
            Stmt::Set(target, value) => self.assignment(*target, "=", value),
            Stmt::Later(target, value) => self.assignment(*target, "<=", value),
            Stmt::Sequence(first, second) => self.sequence(first, second),
            Stmt::If(e, body) => self.when(e, body, None),
            Stmt::IfElse(e, first, second) => self.when(e, first, Some(second)),
            Stmt::While(e, body) => {
                self.put("while");
                self.condition(e);
                self.statement(body);
            }
            Stmt::Forever(body) => {
                self.put("forever");
                self.statement(body);
            }
            Stmt::Wait(terms) => {
                self.wait(terms);
                self.or_null(&Stmt::Empty);
            }
        }
    }

    fn assignment(&mut self, target: Variable, sign: &str, value: &Expr) {
        self.name(target);
        self.put(sign);
        self.expression(value, 1);
        self.put(";");
    }

    /// In a block a statement follows another; to the right they are one list.
    fn sequence(&mut self, first: &Stmt, second: &Stmt) {
        if let Stmt::Wait(terms) = first {
            self.wait(terms);
            return self.or_null(second);
        }
        self.put("begin");
        let mut parts = (first, second);
        loop {
            self.statement(parts.0);
            match parts.1 {
                Stmt::Sequence(first, second)
                    if !matches!(**first, Stmt::Wait(_)) && self.random.chance(3, 4) =>
                {
                    parts = (first, second);
                }
                last => {
                    self.statement(last);
                    return self.put("end");
                }
            }
        }
    }

    /// An `if`, or where it tests for a constant perhaps a `case`.
    fn when(&mut self, e: &Expr, first: &Stmt, second: Option<&Stmt>) {
        if let Expr::Operation(Operator::Equal, operands) = e
            && let Expr::Constant { .. } = operands[1]
            && self.random.chance(2, 3)
        {
            return self.case(&operands[0], &operands[1], first, second);
        }
        self.put("if");
        self.condition(e);
        match second {
            Some(second) => {
                if open(first) {
                    self.block(first)
                } else {
                    self.or_null(first)
                }
                self.put("else");
                self.or_null(second);
            }
            None => self.or_null(first),
        }
    }

    fn case(&mut self, subject: &Expr, label: &Expr, first: &Stmt, second: Option<&Stmt>) {
        self.put("case");
        self.condition(subject);
        let early = self.random.chance(1, 3);
        if early {
            self.default(second);
        }
        self.expression(label, 9);
        self.put(":");
        self.or_null(first);
        if !early {
            self.default(second);
        }
        self.put("endcase");
    }

    fn default(&mut self, body: Option<&Stmt>) {
        if let Some(body) = body {
            self.put("default");
            if self.random.chance(2, 3) {
                self.put(":");
            }
            self.or_null(body);
        }
    }

    fn wait(&mut self, terms: &[Term]) {
        self.put("@");
        if let [Term { edge: Edge::Any, variable }] = terms
            && self.random.chance(1, 2)
        {
            return self.name(*variable);
        }
        self.put("(");
        for (index, term) in terms.iter().enumerate() {
            if index > 0 {
                let joint = self.random.pick(&["or", ","]);
                self.put(joint);
            }
            match term.edge {
                Edge::Any => {}
                Edge::Posedge => self.put("posedge"),
                Edge::Negedge => self.put("negedge"),
            }
            self.name(term.variable);
        }
        self.put(")");
    }

    // ---- expressions

    fn condition(&mut self, e: &Expr) {
        self.put("(");
        self.expression(e, 1);
        self.put(")");
    }

    /// In parentheses where its operator is below the level that is asked for, and now and then
    /// elsewhere; a label, of level 9, is a constant and has none.
    fn expression(&mut self, e: &Expr, least: u8) {
        if level(e) < least || least < 9 && self.random.chance(1, 10) {
            return self.condition(e);
        }
        match e {
            Expr::Variable(variable) => self.name(*variable),
            Expr::Constant { width, value } => self.constant(*width, *value),
            Expr::Unknown { width } => self.unknown(*width),
            Expr::Call(..) => unreachable!("a text has no functions"),
            Expr::Operation(Operator::Conditional, operands) => {
                self.expression(&operands[0], 2);
                self.put("?");
                self.expression(&operands[1], 1);
                self.put(":");
                self.expression(&operands[2], 1);
            }
            Expr::Operation(operator, operands) if operands.len() == 1 => {
                self.put(sign(*operator));
                match operands[0] {
                    Expr::Operation(..) => self.condition(&operands[0]),
                    _ => self.expression(&operands[0], 8),
                }
            }
            Expr::Operation(operator, operands) => {
                self.expression(&operands[0], level(e));
                self.put(sign(*operator));
                self.expression(&operands[1], level(e) + 1);
            }
        }
    }

    fn size(&mut self, width: u8) {
        let size = width.to_string();
        self.tokens.push(if self.random.chance(1, 8) { format!("{size}_") } else { size });
    }

    /// A value in some base, now and then one that has to be cut to its width.
    fn constant(&mut self, width: u8, value: u32) {
        self.size(width);
        let more = if self.random.chance(1, 6) { self.random.below(9) as u64 } else { 0 };
        let value = u64::from(value) + (more << width);
        let (base, digits) = match self.random.below(4) {
            0 => ("b", format!("{value:b}")),
            1 => ("o", format!("{value:o}")),
            2 => ("d", format!("{value}")),
            _ => ("h", format!("{value:x}")),
        };
        self.value(base, &digits);
    }

    fn unknown(&mut self, width: u8) {
        self.size(width);
        let (base, digits) =
            self.random.pick(&[("b", "x"), ("o", "xX"), ("d", "x"), ("h", "x_x")]);
        self.value(base, digits);
    }

    fn value(&mut self, base: &str, digits: &str) {
        let base =
            if self.random.chance(1, 4) { base.to_uppercase() } else { base.to_string() };
        let space = self.random.pick(&["", "", "", " ", "\n\t"]);
        let tail = self.random.pick(&["", "", "", "_"]);
        self.tokens.push(format!("'{base}{space}{digits}{tail}"));
    }
}

// ---- tokens to text

const SPACES: [&str; 8] =
    [" ", "  ", "\t", "\n", "\r\n", " /* a = b; */ ", " // or so\n", "\x0C/**/"];

/// Where two tokens would read as one they are kept apart.
fn spaced(tokens: &[String], random: &mut Random) -> Vec<u8> {
    let mut text = String::new();
    for token in tokens {
        let before = text.chars().next_back().unwrap_or(' ');
        if random.chance(1, 4) || apart(before, token) {
            text.push_str(random.pick(&SPACES));
        }
        text.push_str(token);
    }
    if random.chance(1, 4) {
        text.push_str(random.pick(&["\n", "// the end", "\r\n"]));
    }
    text.into_bytes()
}

fn apart(before: char, token: &str) -> bool {
    let worded = |c: char| c.is_ascii_alphanumeric() || matches!(c, '_' | '$');
    let first = token.chars().next().unwrap_or(' ');
    match (before, first) {
        // a value's digits go on with ?
        (_, '?') => worded(before),
        ('<', '=') | ('=', '=') | ('^', '~') => true,
        _ => worded(before) && worded(first),
    }
}

// ---- faults

/// A text with one fault or some.
pub fn damaged(text: &[u8], random: &mut Random) -> Vec<u8> {
    let mut text = text.to_vec();
    for _ in 0..random.pick(&[1, 1, 1, 2, 4]) {
        damage(&mut text, random);
    }
    text
}

const INSERTED: &[u8] = b"()[]:;,@=<?~!&|^+-'_0159xXzbhd$#.{*>/\"`\\ \n\x00\x80a";

fn damage(text: &mut Vec<u8>, random: &mut Random) {
    let place = random.below(text.len() + 1);
    let end = (place + random.between(1, 12)).min(text.len());
    match random.below(6) {
        0 if place < text.len() => {
            text.remove(place);
        }
        1 if place < text.len() => text[place] = random.pick(INSERTED),
        2 => text.insert(place, random.pick(INSERTED)),
        3 => {
            text.drain(place..end);
        }
        4 => {
            let part = text[place..end].to_vec();
            text.splice(place..place, part);
        }
        _ => {
            let words: Vec<&str> = KEYWORDS.split(' ').collect();
            let word = format!(" {} ", words[random.below(words.len())]);
            text.splice(place..place, word.into_bytes());
        }
    }
}

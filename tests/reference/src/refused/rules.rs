//! A change for each of the numbers 12 to 20.

use super::edit::{also_reading, one_of, put_in};
use crate::extraction::text::{self, Way};
use crate::extraction::{MOST_WAITS, number};
use crate::module::{Edge, Expr, Module, Stmt, Term, Variable};
use crate::random::Random;

/// Changes the module so that the number stands; it may be that a lower one does, or none.
pub fn break_rule(module: &mut Module, aim: u8, random: &mut Random) -> Option<()> {
    let thread = random.below(module.threads.len());
    match aim {
        number::TWO_WRITERS => two_writers(module, thread, random),
        number::BOTH_WAYS => both_ways(module, thread, random),
        number::PLAIN_READ => plain_read(module, thread, random),
        number::OTHER_WAIT => other_wait(module, thread, random),
        number::NO_FIRST_WAIT => no_first_wait(module, thread, random),
        number::NO_SURE_WAIT => no_sure_wait(module, thread, random),
        number::CLOCK_READ => read_in(module, thread, 0, random),
        number::WIRE_ORDER => wire_order(module, random),
        _ => many_waits(module, thread, random),
    }
}

/// Unknown, so that it has any width.
fn assignment(module: &Module, target: Variable, way: Way) -> Stmt {
    let value = Expr::Unknown { width: module.widths[usize::from(target)] };
    match way {
        Way::Plain => Stmt::Set(target, value),
        Way::Later => Stmt::Later(target, value),
    }
}

fn write_of(module: &Module, thread: usize, random: &mut Random) -> Option<(Variable, Way)> {
    let writes = text::writes(&module.threads[thread]);
    (!writes.is_empty()).then(|| random.pick(&writes))
}

fn other_thread(module: &Module, thread: usize, random: &mut Random) -> Option<usize> {
    let others: Vec<usize> = (0..module.threads.len()).filter(|&t| t != thread).collect();
    (!others.is_empty()).then(|| random.pick(&others))
}

fn two_writers(module: &mut Module, thread: usize, random: &mut Random) -> Option<()> {
    let (target, way) = write_of(module, thread, random)?;
    let other = other_thread(module, thread, random)?;
    let added = assignment(module, target, way);
    put_in(&mut module.threads[other], added, random);
    Some(())
}

fn both_ways(module: &mut Module, thread: usize, random: &mut Random) -> Option<()> {
    let (target, way) = write_of(module, thread, random)?;
    let other = if way == Way::Plain { Way::Later } else { Way::Plain };
    let added = assignment(module, target, other);
    put_in(&mut module.threads[thread], added, random);
    Some(())
}

fn plain_read(module: &mut Module, thread: usize, random: &mut Random) -> Option<()> {
    let (target, _) = write_of(module, thread, random).filter(|write| write.1 == Way::Plain)?;
    let reader = match module.wires.is_empty() {
        true => other_thread(module, thread, random)?,
        false => other_thread(module, thread, random).unwrap_or(thread),
    };
    match reader == thread {
        true => read_in_wire(module, target, random),
        false => read_in(module, reader, target, random),
    }
}

/// Reads the variable in the thread or in a wire: as a condition, or in an expression.
fn read_in(
    module: &mut Module,
    thread: usize,
    variable: Variable,
    random: &mut Random,
) -> Option<()> {
    if !module.wires.is_empty() && random.chance(1, 3) {
        return read_in_wire(module, variable, random);
    }
    let read = Expr::Variable(variable);
    let thread = &mut module.threads[thread];
    let reads = |s: &Stmt| matches!(s, Stmt::Set(..) | Stmt::Later(..) | Stmt::While(..));
    match one_of(thread, random, reads) {
        Some(Stmt::Set(_, e) | Stmt::Later(_, e) | Stmt::While(e, _)) => {
            *e = also_reading(e, read);
        }
        _ => put_in(thread, Stmt::when(read, Stmt::Empty), random),
    }
    Some(())
}

fn read_in_wire(module: &mut Module, variable: Variable, random: &mut Random) -> Option<()> {
    let wire = random.below(module.wires.len());
    module.wires[wire] = also_reading(&module.wires[wire], Expr::Variable(variable));
    Some(())
}

fn other_wait(module: &mut Module, thread: usize, random: &mut Random) -> Option<()> {
    let any = random.below(module.widths.len()) as u8;
    let [any, clock] = [any, 0].map(|variable| Term { edge: Edge::Any, variable });
    let negedge = Term { edge: Edge::Negedge, variable: 0 };
    let rise = Term { edge: Edge::Posedge, variable: 0 };
    let terms = match random.below(6) {
        0 => vec![any],
        1 => vec![clock],
        2 => vec![negedge],
        3 => vec![rise, rise],
        4 => vec![rise, any],
        _ => vec![any, rise, negedge],
    };
    let wait = one_of(&mut module.threads[thread], random, |s| matches!(s, Stmt::Wait(_)));
    *wait? = Stmt::Wait(terms);
    Some(())
}

fn no_first_wait(module: &mut Module, thread: usize, random: &mut Random) -> Option<()> {
    let before = write_of(module, thread, random);
    let before = before.map_or(Stmt::Empty, |(target, way)| assignment(module, target, way));
    let thread = &mut module.threads[thread];
    let whole = thread.clone();
    let condition = Expr::Constant { width: 1, value: 1 };
    *thread = match random.below(5) {
        0 => Stmt::sequence(Stmt::Empty, whole),
        1 => Stmt::sequence(before, whole),
        2 => Stmt::while_loop(condition, whole),
        3 => Stmt::if_else(condition, whole, Stmt::posedge(0)),
        _ => Stmt::forever(Stmt::sequence(before, whole)),
    };
    Some(())
}

fn no_sure_wait(module: &mut Module, thread: usize, random: &mut Random) -> Option<()> {
    let condition = Expr::Constant { width: 1, value: 1 };
    let thread = &mut module.threads[thread];
    let is_loop = |s: &Stmt| matches!(s, Stmt::While(..) | Stmt::Forever(_));
    if let (true, Some(Stmt::While(_, body) | Stmt::Forever(body))) =
        (random.chance(1, 2), one_of(thread, random, is_loop))
    {
        let whole = (**body).clone();
        **body = match random.below(3) {
            0 => Stmt::Empty,
            1 => Stmt::when(condition, whole),
            _ => Stmt::if_else(condition, Stmt::Empty, whole),
        };
        return Some(());
    }
    let body = match random.below(4) {
        0 => Stmt::Empty,
        1 => Stmt::when(condition.clone(), Stmt::posedge(0)),
        2 => Stmt::while_loop(condition.clone(), Stmt::posedge(0)),
        _ => Stmt::sequence(Stmt::Empty, Stmt::Empty),
    };
    let added = match random.chance(1, 2) {
        true => Stmt::forever(body),
        false => Stmt::while_loop(condition, body),
    };
    put_in(thread, added, random);
    Some(())
}

fn wire_order(module: &mut Module, random: &mut Random) -> Option<()> {
    let wires = module.wires.len();
    let wire = (wires > 0).then(|| random.below(wires))?;
    let read = random.between(wire, wires - 1) as u8;
    let variable = module.inputs + module.registers + read;
    module.wires[wire] = also_reading(&module.wires[wire], Expr::Variable(variable));
    Some(())
}

/// One more than there may be, now and then many more.
fn many_waits(module: &mut Module, thread: usize, random: &mut Random) -> Option<()> {
    let waits: usize = module.threads.iter().map(|thread| text::waits(thread).len()).sum();
    let wanted = MOST_WAITS + random.pick(&[1, 1, 2, 30]);
    for _ in waits..wanted {
        put_in(&mut module.threads[thread], Stmt::posedge(0), random);
    }
    Some(())
}

//! The random modules are as varied as extraction's rules allow.

use std::collections::BTreeMap;

use reference::extractable;
use reference::extraction::extract;
use reference::extraction::text::{self, Thread, Way};
use reference::machine::variables;
use reference::module::{Expr, Module, Stmt};
use reference::random::Random;
use reference::refused;

use crate::short::number;

/// Whether an if stands in an if.
fn nested_ifs(s: &Stmt) -> bool {
    let is_if = |s: &&Stmt| matches!(s, Stmt::If(..) | Stmt::IfElse(..));
    let ifs = text::statements(s).into_iter().filter(is_if);
    ifs.into_iter().any(|s| text::statements(s).iter().filter(|s| is_if(s)).count() > 1)
}

fn has_unknown(e: &Expr) -> bool {
    match e {
        Expr::Unknown { .. } => true,
        Expr::Operation(_, operands) | Expr::Call(_, operands) => {
            operands.iter().any(has_unknown)
        }
        _ => false,
    }
}

/// All forms, and whether the module shows them.
fn forms(module: &Module) -> Vec<(String, bool)> {
    let extraction = extract(module).expect("extractable");
    let mut forms = Vec::new();
    let mut form = |name: &str, shown: bool| forms.push((name.to_string(), shown));
    for threads in 1..=8 {
        form(&format!("{threads} threads"), module.threads.len() == threads);
    }
    for width in 1..=32 {
        form(&format!("width {width}"), module.widths[1..].contains(&width));
    }
    form("12 waits", extraction.rows.len() > 12);
    form("1000 nodes", extraction.nodes.len() > 1000);
    let statements: Vec<&Stmt> = module.threads.iter().flat_map(text::statements).collect();
    form("while", statements.iter().any(|s| matches!(s, Stmt::While(..))));
    form("forever", statements.iter().any(|s| matches!(s, Stmt::Forever(_))));
    form("empty", statements.iter().any(|s| matches!(s, Stmt::Empty)));
    form("nested ifs", module.threads.iter().any(nested_ifs));
    let first_wire = module.inputs + module.registers;
    let reads: Vec<u8> = module.wires.iter().flat_map(variables).collect();
    form("wires that read wires", reads.iter().any(|&v| v >= first_wire));
    form("x in a wire", module.wires.iter().any(has_unknown));
    let threads = Thread::all(module);
    let ways: Vec<Way> = threads.iter().flat_map(|t| t.written.clone()).flatten().collect();
    form("both ways", ways.contains(&Way::Plain) && ways.contains(&Way::Later));
    form("unwritten register", ways.len() < module.registers.into());
    form("32 registers", module.registers == 32);
    form("32 wires", module.wires.len() == 32);
    form("16 inputs", module.inputs == 16);
    form("starts with forever", module.threads.iter().any(|t| matches!(t, Stmt::Forever(_))));
    forms
}

#[test]
fn extractable_modules() {
    let mut random = Random::new(41);
    let mut seen = BTreeMap::new();
    for _ in 0..4000 {
        for (name, shown) in forms(&extractable::module(&mut random)) {
            *seen.entry(name).or_insert(0) += usize::from(shown);
        }
    }
    seen.retain(|_, &mut modules| modules < 10);
    assert!(seen.is_empty(), "in fewer than ten modules: {seen:?}");
}

#[test]
fn modules_of_so_many_nodes() {
    let mut random = Random::new(42);
    for nodes in 4094..=4098 {
        let module = extractable::of_nodes(nodes, &mut random);
        let found = extract(&module).map(|extraction| extraction.nodes.len());
        assert_eq!(found, if nodes <= 4096 { Ok(nodes) } else { Err(21) });
    }
}

/// Mostly the number aimed at.
#[test]
fn refused_modules() {
    let mut random = Random::new(43);
    for aim in refused::AIMS {
        let numbers: Vec<u8> =
            (0..100).map(|_| number(&refused::module(aim, &mut random))).collect();
        assert!(!numbers.contains(&0));
        let hits = numbers.iter().filter(|&&number| number == aim).count();
        assert!(hits > 70, "{aim}: {numbers:?}");
    }
}

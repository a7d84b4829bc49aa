//! Modules with nearly as many nodes as there may be, or more.

use super::Generator;
use crate::encode::encode;
use crate::extraction::extract;
use crate::extraction::text::{self, Way};
use crate::functions::With;
use crate::module::{Expr, Module, Operator, Stmt, Variable};
use crate::random::Random;
use crate::sheet::{EXPR_DEPTH, read_with_functions};

/// How many nodes are put on top at most.
const MOST_ADDED: usize = 1200;

/// A random module that meets the rules and takes exactly so many nodes, about 4,096. It is
/// extractable up to 4,096.
pub fn of_nodes(nodes: usize, random: &mut Random) -> Module {
    loop {
        let mut module = match random.chance(1, 2) {
            true => with_many_branches(random),
            false => {
                let room = random.between(15, 60);
                let with = With::AsRead.drawn(random);
                Generator::new(random, room).module(with)
            }
        };
        let Ok(extraction) = extract(&module) else {
            continue;
        };
        let found = extraction.nodes.len();
        let reached = found <= nodes && nodes - found <= MOST_ADDED;
        if reached
            && add(&mut module, nodes - found)
            && read_with_functions(&encode(&module)).is_ok()
        {
            return module;
        }
    }
}

/// One that meets the rules, with ifs put behind the first wait of a thread: each doubles
/// the legs of a walk, so that there are often more nodes than there may be.
pub fn with_many_branches(random: &mut Random) -> Module {
    let mut module = super::module(random);
    let thread = random.below(module.threads.len());
    let condition = Expr::Constant { width: 1, value: random.below(2) as u32 };
    let ifs = vec![Stmt::when(condition, Stmt::Empty); random.between(7, 14)];
    put_behind_wait(&mut module.threads[thread], balanced(&ifs));
    module
}

/// Adds so many nodes: inversions assigned behind the first wait of a thread, where one walk
/// passes, once. Not every module has a register for it.
fn add(module: &mut Module, nodes: usize) -> bool {
    let writes = |thread: &Stmt| text::writes(thread).first().copied();
    let found = module.threads.iter_mut().find_map(|t| writes(t).map(|write| (t, write)));
    let Some((thread, (target, way))) = found else {
        return false;
    };
    let most = EXPR_DEPTH - 1;
    let shares = (0..nodes).step_by(most).map(|done| most.min(nodes - done));
    let assignments: Vec<Stmt> = shares.map(|share| inversions(target, way, share)).collect();
    put_behind_wait(thread, balanced(&assignments));
    true
}

fn inversions(target: Variable, way: Way, nodes: usize) -> Stmt {
    let own = Expr::Variable(target);
    let value = (0..nodes).fold(own, |e, _| Expr::Operation(Operator::Invert, vec![e]));
    match way {
        Way::Plain => Stmt::Set(target, value),
        Way::Later => Stmt::Later(target, value),
    }
}

/// One after the other, nested as little as can be.
fn balanced(statements: &[Stmt]) -> Stmt {
    match statements {
        [] => Stmt::Empty,
        [one] => one.clone(),
        _ => {
            let (left, right) = statements.split_at(statements.len() / 2);
            Stmt::sequence(balanced(left), balanced(right))
        }
    }
}

fn put_behind_wait(s: &mut Stmt, added: Stmt) {
    match s {
        Stmt::Sequence(first, _) => put_behind_wait(first, added),
        Stmt::Forever(body) => put_behind_wait(body, added),
        _ => *s = Stmt::sequence(s.clone(), added),
    }
}

//! Demand 3, [9] and [10] on modules with functions, and misreadings that demand 3 finds.

use reference::calls::Reference;
use reference::encode::encode;
use reference::extractable;
use reference::extraction::extract;
use reference::extraction::text::statements;
use reference::functions::With;
use reference::lively::{self, Kind, Size};
use reference::module::{Expr, Function, Module, Operator, Stmt};
use reference::order::check;
use reference::random::Random;
use reference::refused;
use reference::sheet::read_with_functions;
use reference::work::{self, Claim};
use reference::written::{self, Reading};

/// Whether a wire or thread has a call.
fn calls(module: &Module) -> bool {
    fn has(e: &Expr) -> bool {
        match e {
            Expr::Call(..) => true,
            Expr::Operation(_, operands) => operands.iter().any(has),
            _ => false,
        }
    }
    let of_thread = |s: &&Stmt| match s {
        Stmt::Set(_, e) | Stmt::Later(_, e) => has(e),
        Stmt::If(e, _) | Stmt::IfElse(e, ..) | Stmt::While(e, _) => has(e),
        _ => false,
    };
    module.wires.iter().any(has)
        || module.threads.iter().flat_map(statements).any(|s| of_thread(&s))
}

/// Extractable modules in which something is called.
fn modules(count: usize, seed: u64) -> Vec<Module> {
    let mut random = Random::new(seed);
    let module = || extractable::module_by(With::Some, &mut random);
    std::iter::repeat_with(module).filter(calls).take(count).collect()
}

#[test]
fn demand_3() {
    let mut random = Random::new(71);
    for module in modules(150, 70) {
        let reading = read_with_functions(&encode(&module));
        let calls = Reference::new(&reading);
        let done = check(&calls, &reading, 6, &mut random).map(|_| ());
        assert_eq!(done, Ok(()), "{module:?}");
    }
}

#[test]
fn exact_work_and_the_thread_as_written() {
    let mut random = Random::new(72);
    for module in modules(80, 73) {
        let reading = read_with_functions(&encode(&module));
        let done =
            work::check(&Reference::new(&reading), &reading, Claim::AsStated, 6, &mut random);
        assert_eq!(done.map(|_| ()), Ok(()), "{module:?}");
    }
    for _ in 0..80 {
        let module = lively::module_by(Kind::Events, Size::Usual, With::Some, &mut random);
        let reading = read_with_functions(&encode(&module));
        let calls = Reference::new(&reading);
        let done = written::check(&calls, &reading, Reading::AsWritten, 8, &mut random);
        assert_eq!(done.map(|_| ()), Ok(()), "{module:?}");
    }
}

#[test]
fn refused_modules() {
    let mut random = Random::new(74);
    for aim in &refused::AIMS[..9] {
        let number = || {
            let module = refused::module_by(*aim, With::Some, &mut random);
            extract(&module).expect_err("refused")
        };
        let numbers: Vec<u8> = std::iter::repeat_with(number).take(40).collect();
        let hits = numbers.iter().filter(|&number| number == aim).count();
        assert!(hits > 25, "{aim}: {numbers:?}");
    }
}

// ---- misreadings, each written as another module

type Misreading = fn(&Function) -> Function;

/// Each with how it changes a function.
const MISREADINGS: [(&str, Misreading); 5] = [
    ("the result starts at 0", |f| {
        let zero = Stmt::Set(f.target(), Expr::Constant { width: f.result, value: 0 });
        Function { body: Stmt::sequence(zero, f.body.clone()), ..f.clone() }
    }),
    ("the first leg on an unknown condition", |f| Function {
        body: changed(&f.body, &|e, a, b| Stmt::if_else(not(e), b, a)),
        ..f.clone()
    }),
    ("the legs exchanged", |f| Function {
        body: changed(&f.body, &|e, a, b| Stmt::if_else(e, b, a)),
        ..f.clone()
    }),
    ("nothing behind an if", |f| Function { body: cut(&f.body), ..f.clone() }),
    ("the body isn't run", |f| Function { body: Stmt::Empty, ..f.clone() }),
];

fn not(e: Expr) -> Expr {
    Expr::Operation(Operator::Not, vec![e])
}

type Branch = dyn Fn(Expr, Stmt, Stmt) -> Stmt;

/// The body with its ifs written so.
fn changed(s: &Stmt, branch: &Branch) -> Stmt {
    match s {
        Stmt::Sequence(a, b) => Stmt::sequence(changed(a, branch), changed(b, branch)),
        Stmt::If(e, a) => branch(e.clone(), changed(a, branch), Stmt::Empty),
        Stmt::IfElse(e, a, b) => branch(e.clone(), changed(a, branch), changed(b, branch)),
        _ => s.clone(),
    }
}

/// The body without what follows its ifs.
fn cut(s: &Stmt) -> Stmt {
    match s {
        Stmt::Sequence(a, b) => match **a {
            Stmt::If(..) | Stmt::IfElse(..) => (**a).clone(),
            _ => Stmt::sequence(cut(a), cut(b)),
        },
        _ => s.clone(),
    }
}

/// How many of the modules show it: the calls go by the misreading, the book doesn't.
#[test]
fn demand_3_finds_misreadings() {
    let modules = modules(150, 75);
    for (name, misreading) in MISREADINGS {
        let mut random = Random::new(76);
        let shows = |module: &&Module| {
            let functions = module.functions.iter().map(misreading).collect();
            let wrong = Ok(Module { functions, ..(*module).clone() });
            let right = Ok((*module).clone());
            check(&Reference::new(&wrong), &right, 4, &mut random).is_err()
        };
        let found = modules.iter().filter(shows).count();
        println!("{name}: {found} of {}", modules.len());
        assert!(found >= 5, "{name}: {found}");
    }
}

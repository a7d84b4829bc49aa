//! How many runs of bodies one working out can take at most.

use reference::build::{add, at_clk, later, mux, num, v};
use reference::functions::With;
use reference::generate::module_by;
use reference::module::{Expr, Function, Module, Stmt};
use reference::random::Random;
use reference::runs::{MANY, Place, of_bodies, of_expression, of_module};
use reference::states::fitting_value;
use reference::value::evaluate_counting;
use reference::values::Values;

use crate::short::{call, function, lower, module};

fn most(functions: &[Function], e: &Expr) -> u128 {
    of_expression(e, &of_bodies(functions))
}

#[test]
fn by_hand() {
    let one = |n| call(n, vec![num(8, 1)]);
    let plain = function(&[8], 8, Stmt::Set(1, v(0)));
    // Three calls of f0 in one body.
    let three = function(&[8], 8, Stmt::Set(1, add(one(0), call(0, vec![one(0)]))));
    // One call in the condition, two in the first leg, three in the second.
    let set = |e| Stmt::Set(1, e);
    let legs = function(
        &[8],
        8,
        Stmt::if_else(one(0), set(add(one(0), one(0))), set(add(one(0), add(one(0), one(0))))),
    );
    let alone = function(&[8], 8, Stmt::when(one(0), set(one(0))));
    let functions = [plain, three, legs, alone];
    assert_eq!(of_bodies(&functions), [0, 3, 4, 2]);
    assert_eq!(most(&functions, &v(1)), 0);
    assert_eq!(most(&functions, &one(0)), 1);
    assert_eq!(most(&functions, &one(1)), 4);
    assert_eq!(most(&functions, &one(2)), 5);
    // Arguments count, and both arms of ?:.
    assert_eq!(most(&functions, &call(1, vec![one(2)])), 9);
    assert_eq!(most(&functions, &mux(one(0), one(1), one(2))), 10);
}

#[test]
fn each_expression_of_a_module() {
    let twice = call(0, vec![call(0, vec![v(1), num(8, 9)]), v(1)]);
    let thread = at_clk(vec![Stmt::when(v(1), later(2, twice.clone())), later(2, v(1))]);
    let module = module(vec![lower()], &[1, 8], &[8], vec![(8, twice)], vec![thread]);
    let expected = [
        (Place::Wire(0), 2),
        (Place::Instruction(0, 1), 0),
        (Place::Instruction(0, 2), 2),
        (Place::Instruction(0, 3), 0),
    ];
    assert_eq!(of_module(&module), expected);
}

/// A working out never takes more; where no body has an if it takes exactly so many.
#[test]
fn no_working_out_takes_more() {
    let mut random = Random::new(61);
    let (mut exact, mut fewer, mut straight) = (0, 0, 0);
    for _ in 0..2000 {
        let module = module_by(With::Some, &mut random);
        let bodies = of_bodies(&module.functions);
        let no_ifs = module.functions.iter().all(|f| straight_line(&f.body));
        straight += usize::from(no_ifs);
        let values = some_values(&module, &mut random);
        for wire in &module.wires {
            let runs = u128::from(evaluate_counting(wire, &values).1);
            let most = of_expression(wire, &bodies);
            assert!(runs <= most && (!no_ifs || runs == most), "{runs} {most}");
            exact += usize::from(runs > 0 && runs == most);
            fewer += usize::from(runs < most);
        }
    }
    assert!(exact > 2000 && fewer > 40 && straight > 200, "{exact} {fewer} {straight}");
}

fn straight_line(s: &Stmt) -> bool {
    match s {
        Stmt::Sequence(a, b) => straight_line(a) && straight_line(b),
        s => matches!(s, Stmt::Empty | Stmt::Set(..)),
    }
}

fn some_values<'a>(module: &'a Module, random: &mut Random) -> Values<'a> {
    let mut values = Values::unknown(module);
    for (variable, &width) in (0..).zip(&module.widths) {
        values.set(variable, fitting_value(width, random));
    }
    values
}

/// Eight functions, each with so many calls of the one before: above a million, and above what 64
/// bits hold; sums that stop at an end give the lower of the number and that end.
#[test]
fn sheets_that_ask_for_many() {
    let functions = |calls: usize| {
        let calling = |number: u8| {
            // Fifteen calls nested in one another, one such assignment after the other.
            let nested = |count| (0..count).fold(v(0), |e, _| call(number - 1, vec![e]));
            let whole = std::iter::repeat_n(15, calls / 15);
            let rest = (calls % 15 > 0).then_some(calls % 15);
            let list: Vec<Stmt> = whole.chain(rest).map(|n| Stmt::Set(1, nested(n))).collect();
            function(&[8], 8, balanced(&list))
        };
        let first = function(&[8], 8, Stmt::Set(1, v(0)));
        let all = std::iter::once(first).chain((1..8).map(calling));
        all.collect::<Vec<Function>>()
    };
    let asked_by = |calls, e: Expr| {
        let wires = vec![(8, e)];
        let module = module(functions(calls), &[1, 8], &[8], wires, vec![Stmt::Empty]);
        of_module(&module)[0].1
    };
    let sum = |calls: u128| (0..=7).map(|n| calls.pow(n)).sum::<u128>();
    let asked = |calls| asked_by(calls, call(7, vec![v(1)]));
    assert_eq!(asked(6), sum(6));
    assert!(asked(6) < MANY && asked(8) > MANY);
    assert_eq!(asked(420), sum(420));
    // A tree of 32 chains of ten calls.
    let chain = (0..10).fold(v(1), |e, _| call(7, vec![e]));
    let tree = (0..5).fold(chain, |e, _| add(e.clone(), e));
    assert_eq!(asked_by(420, tree.clone()), 320 * sum(420));
    assert!(asked_by(420, tree) > u64::MAX.into());
    for end in [MANY, u32::MAX.into(), u64::MAX.into()] {
        assert_eq!(up_to(end, &functions(420), &call(7, vec![v(1)])), sum(420).min(end));
        assert_eq!(up_to(end, &functions(3), &call(7, vec![v(1)])), sum(3).min(end));
    }
}

fn balanced(statements: &[Stmt]) -> Stmt {
    match statements {
        [] => Stmt::Empty,
        [one] => one.clone(),
        _ => {
            let (left, right) = statements.split_at(statements.len() / 2);
            Stmt::sequence(balanced(left), balanced(right))
        }
    }
}

/// The same by sums that stop at an end.
fn up_to(end: u128, functions: &[Function], e: &Expr) -> u128 {
    fn expression(end: u128, bodies: &[u128], e: &Expr) -> u128 {
        let add = |a: u128, b: u128| (a + b).min(end);
        match e {
            Expr::Operation(_, parts) => {
                parts.iter().fold(0, |sum, part| add(sum, expression(end, bodies, part)))
            }
            Expr::Call(number, parts) => {
                let own = add(1, bodies[usize::from(*number)]);
                parts.iter().fold(own, |sum, part| add(sum, expression(end, bodies, part)))
            }
            _ => 0,
        }
    }
    fn body(end: u128, bodies: &[u128], s: &Stmt) -> u128 {
        match s {
            Stmt::Set(_, e) => expression(end, bodies, e),
            Stmt::Sequence(a, b) => (body(end, bodies, a) + body(end, bodies, b)).min(end),
            _ => 0,
        }
    }
    let mut bodies = Vec::new();
    for function in functions {
        let most = body(end, &bodies, &function.body);
        bodies.push(most);
    }
    expression(end, &bodies, e)
}

//! Runs the inputs that fuzzing kept: the proved functions and the reference agree on each.
//! Then with a fault put into what the proved functions gave, which must be told.

use compare::Planted;
use fuzz::{kept, Function, Input, Runner, FUNCTIONS};

fn inputs() -> Vec<Vec<u8>> {
    kept::apart(include_bytes!("../corpus")).expect("whole inputs")
}

/// Whether a fault is told by these inputs.
fn told(inputs: &[Vec<u8>], planted: Planted) -> bool {
    let mut runner = Runner::default();
    runner.compared.planted = Some(planted);
    inputs.iter().any(|input| runner.run(input).is_err())
}

fn of_function(inputs: &[Vec<u8>], function: Function) -> Vec<Vec<u8>> {
    let is_such = |input: &&Vec<u8>| Input::of(input).function() == function;
    inputs.iter().filter(is_such).cloned().collect()
}

#[test]
fn no_difference() {
    let mut runner = Runner::default();
    for (number, input) in inputs().iter().enumerate() {
        if let Err(disagreement) = runner.run(input) {
            panic!("kept input {number}: {disagreement}");
        }
    }
    println!("{}", runner.compared.summary());
    // 10 needs files that are longer than these inputs.
    let numbers = runner.compared.numbers;
    for number in (0..=16).filter(|&number| number != 10) {
        assert!(numbers[number] > 0, "nothing was answered {number}");
    }
}

#[test]
fn each_number_is_told() {
    let inputs = inputs();
    for number in (0..=16).filter(|&number| number != 10 && number != 15) {
        assert!(told(&inputs, Planted::Number(number)), "{number}");
    }
    // No kept input has this answer.
    assert!(!told(&inputs, Planted::Number(10)));
}

#[test]
fn each_lent_buffer_is_looked_at() {
    let inputs = inputs();
    for function in FUNCTIONS {
        let own = of_function(&inputs, function);
        assert!(!own.is_empty(), "{function:?}: nothing kept");
        let lends = !matches!(
            function,
            Function::Judge
                | Function::ReadSlip
                | Function::Label
                | Function::Pieces
                | Function::State
        );
        for planted in [Planted::Written, Planted::Before, Planted::Behind] {
            assert_eq!(told(&own, planted), lends, "{function:?}, {planted:?}");
        }
        let answers = function != Function::State;
        let answer_told = (0..=16).any(|number| told(&own, Planted::Number(number)));
        assert_eq!(answer_told, answers, "{function:?}: its answers");
    }
}

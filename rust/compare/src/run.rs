use crate::{Compared, Disagreement, NUMBERS};
use scenes::Rng;
use std::process::ExitCode;
use std::time::Instant;

/// Comparisons of one kind.
pub type Group = fn(&mut Compared, &mut Rng) -> Result<(), Disagreement>;

/// Runs groups and prints what each compared and how often each number was
/// answered. Fails at the first disagreement, and if one of the numbers
/// `needed` was never met.
pub fn run(groups: &[(&str, Group)], needed: &[usize]) -> ExitCode {
    let mut numbers = [0; NUMBERS];
    for (name, group) in groups {
        let start = Instant::now();
        let mut compared = Compared::default();
        if let Err(disagreement) = group(&mut compared, &mut Rng::new(2026)) {
            eprintln!("{name}: {disagreement}");
            return ExitCode::FAILURE;
        }
        let seconds = start.elapsed().as_secs_f32();
        println!("{name}: {}, {seconds:.1} s", compared.summary());
        for (sum, count) in numbers.iter_mut().zip(compared.numbers) {
            *sum += count;
        }
    }
    println!("How often each number was answered:");
    for (number, &count) in numbers.iter().enumerate() {
        if count > 0 || needed.contains(&number) {
            println!("{number:2}: {count}");
        }
    }
    match needed.iter().find(|&&number| numbers[number] == 0) {
        None => ExitCode::SUCCESS,
        Some(number) => {
            eprintln!("nothing was answered {number}");
            ExitCode::FAILURE
        }
    }
}

impl Compared {
    /// All that was compared, each with its number.
    pub fn summary(&self) -> String {
        let counts = [
            (self.files, "files"),
            (self.reads, "reads"),
            (self.words, "words"),
            (self.outputs, "outputs"),
            (self.bytes, "bytes"),
            (self.slips, "slips"),
            (self.pieces, "pieces"),
        ];
        let met = counts.iter().filter(|(count, _)| *count > 0);
        let parts: Vec<String> = met.map(|(count, what)| format!("{count} {what}")).collect();
        parts.join(", ")
    }
}

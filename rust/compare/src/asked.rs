//! Questions that are asked of the console program, since no call of the card answers them.

use std::io::{BufRead, BufReader, Write};
use std::process::{Command, Stdio};

use reference::console::Console;

use crate::rng::Rng;
use crate::tally::{Judge, Tally};

/// A question drawn at random.
pub type Question = fn(&mut Rng) -> String;

/// The number of an answer line.
fn number(answer: &str) -> usize {
    answer.strip_prefix("refused ").map_or(0, |number| number.parse().unwrap_or(usize::MAX))
}

/// Asks the console so many questions, and holds its answers against the reference's.
pub fn compare(
    rng: &mut Rng,
    tally: &mut Tally,
    calls: usize,
    question: Question,
) -> std::io::Result<()> {
    let questions: Vec<String> = (0..calls).map(|_| question(rng)).collect();
    let lines = questions.join("\n") + "\n";
    let mut program =
        Command::new("./run").arg("ask").stdin(Stdio::piped()).stdout(Stdio::piped()).spawn()?;
    let (mut input, output) = (program.stdin.take().unwrap(), program.stdout.take().unwrap());
    let writer = std::thread::spawn(move || input.write_all(lines.as_bytes()));
    let mut reference = Console::default();
    let mut answers = BufReader::new(output).lines();
    for question in &questions {
        let expected = reference.answer(question.as_bytes()).unwrap_or_default();
        let answer = answers.next().transpose()?.unwrap_or_else(|| "no answer".to_string());
        let mut judge = Judge::default();
        judge.same("answer", answer.clone(), expected);
        tally.count(number(&answer), judge, || question.clone());
    }
    writer.join().expect("the questions were written")?;
    program.wait().map(|_| ())
}

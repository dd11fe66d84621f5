//! One question a line on standard input, one answer a line on standard output.

use std::io::{self, BufRead, Write};

use reference::console::Console;

fn main() -> io::Result<()> {
    let mut questions = io::stdin().lock();
    let mut answers = io::stdout().lock();
    let mut console = Console::default();
    let mut line = Vec::new();
    while questions.read_until(b'\n', &mut line)? > 0 {
        let question = line.strip_suffix(b"\n").unwrap_or(&line);
        if let Some(answer) = console.answer(question) {
            writeln!(answers, "{answer}")?;
        }
        line.clear();
    }
    Ok(())
}

//! The driver: a case a line on standard input, an answer a line on standard output.

use std::io::{self, BufRead, BufReader, Write};

const BUFFER: usize = 1 << 16;

fn main() -> io::Result<()> {
    oracle::quiet_panics();
    let mut input = BufReader::with_capacity(BUFFER, io::stdin());
    let mut output = io::stdout().lock();
    let mut lines = oracle::Lines::default();
    let (mut line, mut answers) = (Vec::new(), Vec::new());
    while input.read_until(b'\n', &mut line)? > 0 {
        if line.last() == Some(&b'\n') {
            line.pop();
        }
        lines.answer_line(&line, &mut answers);
        answers.push(b'\n');
        line.clear();
        // Whoever waits for an answer before the next case gets it.
        if answers.len() >= BUFFER || input.buffer().is_empty() {
            output.write_all(&answers)?;
            output.flush()?;
            answers.clear();
        }
    }
    Ok(())
}

//! The run program in plain Rust, with buffered standard input and output.
use bench::lines::{parse, print};
use bench::plain::{Runner, Told, GREATEST_LIMIT};
use std::io::{self, BufRead, BufReader, BufWriter, Read, Write};

fn main() -> io::Result<()> {
    let mut file = Vec::new();
    if let Ok(chart) = std::fs::File::open("chart.bin") {
        chart.take(2561).read_to_end(&mut file).unwrap_or(0);
    }
    let mut out = BufWriter::with_capacity(65536, io::stdout().lock());
    let mut runner = Runner::new();
    let told = runner.load(&file);
    print(&mut out, told)?;
    if matches!(told, Told::Refused(..)) {
        return out.flush();
    }
    let mut input = BufReader::with_capacity(65536, io::stdin().lock());
    let mut line = Vec::new();
    let mut numbers = [0; 19];
    let mut number = 0u64;
    while input.read_until(b'\n', &mut line)? > 0 {
        number += 1;
        if line.last() == Some(&b'\n') {
            line.pop();
        }
        match parse(&line, &mut numbers) {
            None => writeln!(out, "refused 11 detail {number}")?,
            Some(ns) => {
                let mut told = runner.begin(ns[0], &ns[3..], ns[1], ns[2]);
                if told == Told::Done {
                    runner.advance(GREATEST_LIMIT);
                    told = runner.answer();
                }
                print(&mut out, told)?;
            }
        }
        line.clear();
    }
    out.flush()
}

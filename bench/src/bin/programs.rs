//! Times the run program beside the plain Rust one and, where LuaJIT is installed, the Lua one, on
//! the same lines: alternating, medians, and the same output byte for byte.
//!
//! `programs FLOWRUN PLAIN LUA-FILE FOLDER`: the folder gets the charts, the lines and the outputs.
use bench::charts;
use bench::random::Random;
use std::fs::File;
use std::io::{BufWriter, Write};
use std::path::{Path, PathBuf};
use std::process::{Command, Stdio};
use std::time::Instant;

/// Lines for a chart of k inputs: all modes, most of them accepted.
fn write_lines(path: &Path, k: u32, count: u32) -> std::io::Result<()> {
    let mut out = BufWriter::new(File::create(path)?);
    let mut random = Random::new(7);
    for _ in 0..count {
        let bits = if random.one_in(50) { k + 1 } else { k };
        write!(out, "{} {} 0", random.below(3), random.below(1 << bits))?;
        for _ in 0..k {
            write!(out, " {}", random.number())?;
        }
        writeln!(out)?;
    }
    out.flush()
}

/// One run of a program, in seconds.
fn seconds(command: &[&str], folder: &Path, lines: &Path, output: &Path) -> std::io::Result<f64> {
    let mut program = Command::new(command[0]);
    program.args(&command[1..]).current_dir(folder).stdin(File::open(lines)?).stdout(File::create(output)?).stderr(Stdio::inherit());
    let start = Instant::now();
    let status = program.status()?;
    assert!(status.success());
    Ok(start.elapsed().as_secs_f64())
}

fn median(mut times: Vec<f64>) -> f64 {
    times.sort_by(f64::total_cmp);
    times[times.len() / 2]
}

fn main() -> std::io::Result<()> {
    let words: Vec<String> = std::env::args().skip(1).collect();
    let [flowrun, plain, lua, folder] = &words[..] else {
        eprintln!("usage: programs FLOWRUN PLAIN LUA-FILE FOLDER");
        return Ok(());
    };
    let folder = PathBuf::from(folder);
    std::fs::create_dir_all(&folder)?;
    let has_lua = Command::new("luajit").arg("-v").stdout(Stdio::null()).status().is_ok();
    let mut sides = vec![vec![flowrun.as_str()], vec![plain.as_str()]];
    if has_lua {
        sides.push(vec!["luajit", lua.as_str()]);
    }
    println!("{:28} {:>12} {:>12} {:>12} {:>8} {:>9}", "row, lines a second", "flowrun", "plain Rust", "LuaJIT", "time /", "times Lua");
    for (name, file) in [("chart A", charts::chart_a()), ("16 inputs", charts::sixteen())] {
        std::fs::write(folder.join("chart.bin"), &file)?;
        for count in [1000, 10_000, 100_000, 1_000_000] {
            let lines = folder.join("lines");
            write_lines(&lines, u32::from(file[5]), count)?;
            let mut times = vec![Vec::new(); sides.len()];
            for _ in 0..9 {
                for (i, side) in sides.iter().enumerate() {
                    times[i].push(seconds(side, &folder, &lines, &folder.join(format!("output{i}")))?);
                }
                let first = std::fs::read(folder.join("output0"))?;
                for i in 1..sides.len() {
                    assert!(std::fs::read(folder.join(format!("output{i}")))? == first, "{name}: the outputs differ");
                }
            }
            let medians: Vec<f64> = times.into_iter().map(median).collect();
            let rate = |i: usize| medians.get(i).map_or(f64::NAN, |t| f64::from(count) / t);
            println!(
                "{:28} {:12.0} {:12.0} {:12.0} {:8.2} {:9.1}",
                format!("{name}, {count}"),
                rate(0),
                rate(1),
                rate(2),
                medians[0] / medians[1],
                rate(0) / rate(2)
            );
        }
    }
    Ok(())
}

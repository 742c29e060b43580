//! The run program's lines in plain Rust.
use crate::plain::Told;
use std::io::{self, Write};

/// The numbers of a line, or nothing where it is ill-formed.
pub fn parse<'a>(line: &[u8], numbers: &'a mut [u32; 19]) -> Option<&'a [u32]> {
    if line.len() > 255 {
        return None;
    }
    let mut count = 0;
    for field in line.split(|b| *b == b' ') {
        if count == 19 || field.is_empty() || field.len() > 10 || (field.len() > 1 && field[0] == b'0') {
            return None;
        }
        let mut value = 0u64;
        for digit in field {
            if !digit.is_ascii_digit() {
                return None;
            }
            value = 10 * value + u64::from(digit - b'0');
        }
        numbers[count] = u32::try_from(value).ok()?;
        count += 1;
    }
    (count >= 3).then_some(&numbers[..count])
}

pub fn print(out: &mut impl Write, told: Told) -> io::Result<()> {
    match told {
        Told::Chart { inputs, boxes } => writeln!(out, "chart inputs {inputs} boxes {boxes}"),
        Told::Value { value, steps } => writeln!(out, "value {value} steps {steps}"),
        Told::Notice { steps, named } => writeln!(out, "notice steps {steps} inputs {named}"),
        Told::Spent(steps) => writeln!(out, "spent steps {steps}"),
        Told::Refused(number, detail) => writeln!(out, "refused {number} detail {detail}"),
        _ => Ok(()),
    }
}

//! `decode`, `audit`, `encode` and `sim` in ordinary Rust: the same output as `rdsrt` on good input, with nothing proved.
//!
//! It stands here to be measured beside `rdsrt`, as bench/all does. Build: `rustc -O main.rs`.
//! Usage: `rival decode|audit|encode|sim PI M K`, of a station of programme type 10.

mod audit;
mod encoder;
mod log;
mod receiver;
mod script;
mod text;
mod view;

use std::env;
use std::io::{self, BufRead, BufReader, BufWriter, Write};
use std::process::ExitCode;

/// Input that is read in large pieces, and output that goes out before each of them.
pub struct Pipe<R: io::Read, W: Write> {
    input: BufReader<R>,
    pub out: BufWriter<W>,
}

impl<R: io::Read, W: Write> Pipe<R, W> {
    fn new(input: R, out: W) -> Self {
        Pipe { input: BufReader::with_capacity(1 << 16, input), out: BufWriter::with_capacity(1 << 16, out) }
    }

    /// Appends the next line, with its end; false at the end of the input.
    pub fn line(&mut self, line: &mut Vec<u8>) -> io::Result<bool> {
        if self.input.buffer().is_empty() {
            self.out.flush()?;
        }
        Ok(self.input.read_until(b'\n', line)? > 0)
    }
}

/// What a task ends with: its status, or the fault that is its last line.
pub enum End {
    Status(u8),
    Fault(String),
}

fn run(words: &[String]) -> io::Result<u8> {
    let [_, task, pi, dwell, late] = words else {
        return Ok(2);
    };
    let (Ok(pi), Ok(dwell), Ok(late)) = (u16::from_str_radix(pi, 16), dwell.parse(), late.parse()) else {
        return Ok(2);
    };
    let mut pipe = Pipe::new(io::stdin().lock(), io::stdout().lock());
    let end = match task.as_str() {
        "decode" => log::decode(&mut pipe, pi, dwell)?,
        "audit" => audit::audit(&mut pipe, pi, u64::from(dwell) + u64::from(late))?,
        "encode" => script::play(&mut pipe, script::Form::Log, pi, dwell, late)?,
        "sim" => script::play(&mut pipe, script::Form::Simulation, pi, dwell, late)?,
        _ => return Ok(2),
    };
    let status = match end {
        End::Status(status) => status,
        End::Fault(fault) => {
            writeln!(pipe.out, "{fault}")?;
            1
        }
    };
    pipe.out.flush()?;
    Ok(status)
}

fn main() -> ExitCode {
    let words: Vec<String> = env::args().collect();
    ExitCode::from(run(&words).unwrap_or(1))
}

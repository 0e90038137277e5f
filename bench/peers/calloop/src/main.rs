//! The rows over the crate calloop: pings, timers, and sockets in mode `Level`. It prints a line as `bench/rows` does.

mod bench;
mod row;

use bench::Bench;
use row::Row;
use std::env;
use std::error::Error;
use std::io::{self, Write};
use std::process::ExitCode;

/// What keeps a row from being measured.
type Failure = Box<dyn Error>;

/// A row, how often its work is done, and over how many sources.
struct Asked {
    row: Row,
    count: u32,
    size: u32,
}

impl Asked {
    /// Reads the words ROW COUNT SIZE. An error says which of them is wrong.
    fn from_words(words: &[String]) -> Result<Asked, String> {
        match words {
            [row, count, size] => Ok(Asked {
                count: number(count)?,
                size: number(size)?,
                row: Row::by_name(row).ok_or_else(|| format!("no row has the name \"{row}\""))?,
            }),
            _ => Err("usage: calloop ROW COUNT SIZE".to_owned()),
        }
    }

    /// Measures the row, and prints what it took.
    fn measure(&self) -> Result<(), Failure> {
        let mut bench = Bench::new()?;
        bench.run(self.row, self.count, self.size)?;
        let wanted = self.row.calls(self.count, self.size);
        if bench.calls() != wanted {
            return Err(format!("{} calls in place of {wanted}", bench.calls()).into());
        }
        self.print(bench.nanoseconds())
    }

    fn print(&self, nanoseconds: u128) -> Result<(), Failure> {
        let (row, count, size) = (self.row.name(), self.count, self.size);
        let per_operation = nanoseconds / u128::from(self.row.operations(count, size));
        writeln!(
            io::stdout(),
            "{{\"row\":\"{row}\",\"poller\":\"calloop\",\"count\":{count},\"size\":{size},\
             \"nanoseconds\":{nanoseconds},\"per_operation\":{per_operation}}}"
        )?;
        Ok(())
    }
}

fn main() -> ExitCode {
    let words: Vec<String> = env::args_os()
        .skip(1)
        .map(|word| word.to_string_lossy().into_owned())
        .collect();
    let asked = match Asked::from_words(&words) {
        Ok(asked) => asked,
        Err(message) => {
            eprintln!("{message}");
            return ExitCode::from(2);
        }
    };
    match asked.measure() {
        Ok(()) => ExitCode::SUCCESS,
        Err(failure) => {
            eprintln!("{}", with_causes(failure.as_ref()));
            ExitCode::FAILURE
        }
    }
}

/// A whole number from 1 on.
fn number(word: &str) -> Result<u32, String> {
    let is_digits = word.bytes().all(|byte| byte.is_ascii_digit());
    match word.parse() {
        Ok(number) if is_digits && number > 0 => Ok(number),
        _ => Err(format!(
            "\"{word}\" is no whole number from 1 to {}",
            u32::MAX
        )),
    }
}

/// What an error says, and after it what its causes say: those of calloop name the call of the system only there.
fn with_causes(error: &dyn Error) -> String {
    let mut text = error.to_string();
    let mut cause = error.source();
    while let Some(error) = cause {
        text = format!("{text}: {error}");
        cause = error.source();
    }
    text
}

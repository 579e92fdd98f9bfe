//! The commands of the reference: playing bench scripts, generating them, writing the fixed ones.

use std::io::{self, BufWriter, ErrorKind, Write};
use std::process::ExitCode;

use reference::player::{play, Ringbox, Telegrams, UnitBench};
use reference::{generate, scripts};

const USAGE: &str = "usage: reference ringbox | telegrams | unit
       reference generate ringbox | lists | telegrams | unit SEED LINES
       reference vectors ringbox | lists | telegrams | unit
";

fn main() -> ExitCode {
    let words: Vec<String> = std::env::args().skip(1).collect();
    let words: Vec<&str> = words.iter().map(String::as_str).collect();
    match run(&words) {
        Ok(true) => ExitCode::SUCCESS,
        Err(error) if error.kind() == ErrorKind::BrokenPipe => ExitCode::SUCCESS,
        Ok(false) => {
            eprint!("{USAGE}");
            ExitCode::from(2)
        }
        Err(error) => {
            eprintln!("reference: {error}");
            ExitCode::FAILURE
        }
    }
}

/// Says whether the words are a command.
fn run(words: &[&str]) -> io::Result<bool> {
    let mut output = BufWriter::with_capacity(1 << 16, io::stdout().lock());
    let mut input = io::stdin().lock();
    match words {
        ["ringbox"] => play(&mut Ringbox::new(), &mut input, &mut output)?,
        ["telegrams"] => play(&mut Telegrams::new(), &mut input, &mut output)?,
        ["unit"] => play(&mut UnitBench::new(), &mut input, &mut output)?,
        ["vectors", "ringbox"] => {
            output.write_all(scripts::RINGBOX_EDGES.as_bytes())?;
            output.write_all(&generate::ringbox_limits())?;
        }
        ["vectors", "lists"] => {
            output.write_all(scripts::LISTS_EDGES.as_bytes())?;
            output.write_all(&generate::lists_limits())?;
        }
        ["vectors", "telegrams"] => {
            output.write_all(scripts::TELEGRAMS_EDGES.as_bytes())?;
            output.write_all(&generate::telegrams_limits())?;
        }
        ["vectors", "unit"] => {
            output.write_all(scripts::UNIT_EDGES.as_bytes())?;
            output.write_all(&generate::unit_limits())?;
        }
        ["generate", kind @ ("ringbox" | "lists" | "telegrams" | "unit"), seed, lines] => {
            let (Ok(seed), Ok(lines)) = (seed.parse(), lines.parse()) else {
                return Ok(false);
            };
            let script = match *kind {
                "ringbox" => generate::ringbox(seed, lines),
                "lists" => generate::lists(seed, lines),
                "telegrams" => generate::telegrams(seed, lines),
                _ => generate::unit(seed, lines),
            };
            output.write_all(&script)?;
        }
        _ => return Ok(false),
    }
    output.flush()?;
    Ok(true)
}

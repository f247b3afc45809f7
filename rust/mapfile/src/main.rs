//! Command-line tool over map files: see `mapfile --help`.

use std::error::Error;
use std::io::{self, ErrorKind, Read, Write};
use std::process::ExitCode;
use std::{env, fs};

const HELP: &str = "\
Usage: mapfile assemble [TEXT [FILE]]   make a map file of its text
       mapfile show [FILE [TEXT]]       write the text of a map file
       mapfile explain [FILE [WORDS]]   say in words what each leaf allows, what
                                        closes the rest, and what the planned
                                        registers would change
Names left out are standard input and standard output.
An explanation is by the proved judge. In it, !! begins each line with a
forbidden access that is open, or a refusal of the map.
Exit status: 0 done; 1 input or output failed, or the input is wrong; 2 wrong
usage; 3 explained, and the map is refused.

The text, a line each; # starts a comment:
  setup                 opens the setup; first, once
  control WORD ..       control bits by name, or hex numbers with 0x
  REGISTER HEX          mair, mair2, pir-privileged, pir-unprivileged,
                        por-privileged, por-unprivileged
  leaf FIELD=HEX ..     stage1, stage2, limits, forbidden
  bytes HEX ..          these bytes, as they stand; for damaged files
Control bits, from bit 0: two-levels stage1 stage2 indirect privileged-overlay
  unprivileged-overlay wxn pan limits-disabled fwb dc instruction-cacheable aie
All numbers are hex. What is not given is 0, and nothing is given twice.
";

fn main() -> ExitCode {
    let arguments: Vec<String> = env::args().skip(1).collect();
    let words: Vec<&str> = arguments.iter().map(String::as_str).collect();
    let done = match words[..] {
        ["--help" | "-h"] => write(HELP.as_bytes(), None),
        ["assemble", ref names @ ..] if names.len() <= 2 => assemble(names),
        ["show", ref names @ ..] if names.len() <= 2 => show(names),
        ["explain", ref names @ ..] if names.len() <= 2 => explain(names),
        _ => {
            eprint!("{HELP}");
            return ExitCode::from(2);
        }
    };
    match done {
        Ok(code) => code,
        Err(error) => {
            eprintln!("mapfile: {error}");
            ExitCode::FAILURE
        }
    }
}

/// The exit status where nothing went wrong.
type Done = Result<ExitCode, Box<dyn Error>>;

/// A map that is refused, and explained.
const REFUSED: u8 = 3;

fn assemble(names: &[&str]) -> Done {
    let text = String::from_utf8(read(names.first())?)?;
    write(&mapfile::assemble(&text)?, names.get(1))
}

fn show(names: &[&str]) -> Done {
    let file = mapfile::MapFile::read(&read(names.first())?)?;
    write(mapfile::show(&file).as_bytes(), names.get(1))
}

fn explain(names: &[&str]) -> Done {
    let explanation = mapfile::explain(&read(names.first())?);
    write(explanation.text.as_bytes(), names.get(1))?;
    Ok(if explanation.refused {
        ExitCode::from(REFUSED)
    } else {
        ExitCode::SUCCESS
    })
}

/// The bytes of the named file, or of standard input.
fn read(name: Option<&&str>) -> Result<Vec<u8>, Box<dyn Error>> {
    let mut bytes = Vec::new();
    match name {
        Some(name) => bytes = fs::read(name).map_err(|error| format!("{name}: {error}"))?,
        None => _ = io::stdin().read_to_end(&mut bytes)?,
    }
    Ok(bytes)
}

/// Writes to the named file, or to standard output.
fn write(bytes: &[u8], name: Option<&&str>) -> Done {
    match name {
        Some(name) => fs::write(name, bytes).map_err(|error| format!("{name}: {error}"))?,
        None => match io::stdout().write_all(bytes) {
            // A reader that has seen enough closes the pipe.
            Err(error) if error.kind() == ErrorKind::BrokenPipe => {}
            done => done?,
        },
    }
    Ok(ExitCode::SUCCESS)
}

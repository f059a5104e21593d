//! Prints what an auditor has to read. Ends with status 1 if a name could not be followed, or if a contract
//! reaches a declaration of `proofs/`.

use std::env;
use std::io::{self, Write};
use std::process::ExitCode;

use definitions::print;
use definitions::reading::Reading;
use definitions::repository::{root, Repository};
use definitions::roots::GROUPS;

const USAGE: &str = "\
usage: definitions [--text | --table]
  without an option, the names and the lines of the definitions, in reading order
  --text   the contracts and the definitions themselves, with their comments
  --table  the table of docs/CLAIMS.md
";

fn main() -> ExitCode {
    let arguments: Vec<String> = env::args().skip(1).collect();
    let arguments: Vec<&str> = arguments.iter().map(String::as_str).collect();
    let show = match arguments[..] {
        [] => print::list,
        ["--text"] => print::text,
        ["--table"] => print::table,
        _ => {
            eprint!("{USAGE}");
            return ExitCode::from(2);
        }
    };
    let repository = match Repository::open(root()) {
        Ok(repository) => repository,
        Err(error) => {
            eprintln!("{}: {error}", root().display());
            return ExitCode::FAILURE;
        }
    };
    let reading = Reading::of(&repository, GROUPS);
    // A reader of the output that has seen enough, as `head`, is no fault.
    let _ = io::stdout().write_all(show(&reading).as_bytes());
    for fault in &reading.faults {
        eprintln!("fault: {fault}");
    }
    ExitCode::from(u8::from(!reading.faults.is_empty()))
}

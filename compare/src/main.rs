//! renet's side of the comparison; README.md says what is where.
//!
//!     compare answer < SCRIPT            answers a script by renet
//!     compare generate SEED [LINES]      prints a random script
//!     compare run SEED COUNT LINES OURS  runs COUNT scripts on both sides and reports each difference
//!     compare shrink FILE OURS           the smallest part of a script on which the sides differ
//!     compare check FILE ..              holds renet's answers to those that stand behind `#=`
//!     compare limits                     answers the cases of the program `limits`
//!     compare network SEED COUNT OURS    plays demand 3 over a simulated line
//!     compare differences                what renet does where it can't be followed

mod differences;
mod ends;
mod generate;
mod layer;
mod limits;
mod network;
mod run;
mod script;
mod session;
mod wire;

use layer::Tally;
use session::Session;
use std::io::{Read, Write};
use std::process::ExitCode;

fn main() -> ExitCode {
    let args: Vec<String> = std::env::args().skip(1).collect();
    let args: Vec<&str> = args.iter().map(String::as_str).collect();
    let number = |s: &str| s.parse::<u64>().expect("a number");
    match args[..] {
        ["answer"] => answer(),
        ["limits"] => print!("{}", limits::answers()),
        ["differences"] => differences::tell(),
        ["check", ref files @ ..] => return run::check(files),
        ["generate", seed] => print!("{}", generate::script(number(seed), 1_000)),
        ["generate", seed, lines] => print!("{}", generate::script(number(seed), number(lines) as usize)),
        ["run", seed, count, lines, ours] => {
            return run::run(number(seed), number(count), number(lines) as usize, ours)
        }
        ["network", seed, count, ours] => return network::run(number(seed), number(count), ours),
        ["shrink", file, ours] => return run::shrink_file(file, ours),
        _ => {
            eprintln!("compare answer | generate SEED [LINES] | run SEED COUNT LINES OURS | shrink FILE OURS | check FILE .. | limits | network SEED COUNT OURS | differences");
            return ExitCode::from(2);
        }
    }
    ExitCode::SUCCESS
}

fn answer() {
    let mut script = vec![];
    std::io::stdin().read_to_end(&mut script).expect("standard input");
    let (out, tally) = Session::answers(&script);
    std::io::stdout().write_all(out.as_bytes()).expect("standard output");
    eprint!("{}", tell(&tally));
}

/// How many calls were compared, and how many were answered without renet, by reason.
fn tell(tally: &Tally) -> String {
    let outside: u64 = tally.outside.values().sum();
    let inside = tally.calls - outside.min(tally.calls);
    let mut text = format!(
        "{} calls: {inside} answered by renet, {outside} outside the compared domain\n",
        tally.calls
    );
    for (why, n) in &tally.outside {
        text += &format!("  {n:>8} {why}\n");
    }
    text
}

//! Both sides on random scripts, and the smallest script that shows a difference.

use crate::generate;
use crate::layer::Tally;
use crate::session::Session;
use crate::tell;
use std::io::Write;
use std::process::{Command, ExitCode, Stdio};

/// What our side answers; a crash stands at the end.
pub fn ours(command: &str, script: &str) -> String {
    let mut child = Command::new("sh")
        .args(["-c", command])
        .stdin(Stdio::piped())
        .stdout(Stdio::piped())
        .spawn()
        .expect("our side starts");
    let mut stdin = child.stdin.take().expect("a pipe");
    let text = script.as_bytes().to_vec();
    let feeder = std::thread::spawn(move || drop(stdin.write_all(&text)));
    let output = child.wait_with_output().expect("our side ends");
    feeder.join().expect("the script is fed");
    let mut text = String::from_utf8_lossy(&output.stdout).into_owned();
    if !output.status.success() {
        text += &format!("({})\n", output.status);
    }
    text
}

fn renets(script: &str) -> (String, Tally) {
    Session::answers(script.as_bytes())
}

fn differ(script: &str, command: &str) -> bool {
    renets(script).0 != ours(command, script)
}

/// The first lines that differ.
pub fn first(renet: &str, ours: &str) -> String {
    let (mut a, mut b) = (renet.lines(), ours.lines());
    loop {
        let (x, y) = (a.next(), b.next());
        if x != y || x.is_none() {
            return format!(
                "  renet: {}\n  ours:  {}\n",
                x.unwrap_or("(nothing)"),
                y.unwrap_or("(nothing)")
            );
        }
    }
}

/// Removes lines, in ever smaller parts, as long as the sides still differ.
fn shrink(script: &str, command: &str) -> String {
    let mut lines: Vec<&str> = script.lines().collect();
    // nothing behind the first difference matters
    let at = |lines: &[&str]| {
        let text = lines.join("\n") + "\n";
        let (renet, ours) = (renets(&text).0, ours(command, &text));
        let told = renet.lines().zip(ours.lines()).find(|(x, y)| x != y);
        told.and_then(|(x, _)| x.split([':', '.']).next()?.parse::<usize>().ok())
    };
    if let Some(n) = at(&lines) {
        lines.truncate(n.max(1));
    }
    let mut size = lines.len().div_ceil(2);
    while size > 0 {
        let mut i = 0;
        let mut removed = false;
        while i < lines.len() {
            let end = (i + size).min(lines.len());
            let rest = [&lines[..i], &lines[end..]].concat();
            if differ(&(rest.join("\n") + "\n"), command) {
                lines = rest;
                removed = true;
            } else {
                i = end;
            }
        }
        if !removed || size > 1 {
            size /= 2;
        }
    }
    lines.join("\n") + "\n"
}

fn report(name: &str, script: &str, command: &str) {
    let small = shrink(script, command);
    let folder = std::path::Path::new("found");
    std::fs::create_dir_all(folder).expect("a folder for what is found");
    let file = folder.join(format!("{name}.script"));
    std::fs::write(&file, &small).expect("the script is written");
    println!("{name}: a difference; the smallest script is in {}", file.display());
    for line in small.lines() {
        println!("  | {line}");
    }
    print!("{}", first(&renets(&small).0, &ours(command, &small)));
}

pub fn shrink_file(file: &str, command: &str) -> ExitCode {
    let script = std::fs::read_to_string(file).expect("a script");
    if !differ(&script, command) {
        println!("no difference");
        return ExitCode::SUCCESS;
    }
    report("given", &script, command);
    ExitCode::FAILURE
}

pub fn run(seed: u64, count: u64, lines: usize, command: &str) -> ExitCode {
    let mut all = Tally::default();
    let mut differences = 0;
    for seed in seed..seed.saturating_add(count) {
        let script = generate::script(seed, lines);
        let (renet, tally) = renets(&script);
        all.add(&tally);
        if renet.contains("PANIC") || renet != ours(command, &script) {
            differences += 1;
            report(&format!("seed-{seed}"), &script, command);
        }
    }
    print!("{}", tell(&all));
    println!("{count} scripts from seed {seed} on, {differences} with a difference");
    if differences > 0 {
        ExitCode::FAILURE
    } else {
        ExitCode::SUCCESS
    }
}

/// Holds the answers to a script to those that stand in it: `#= ANSWER` behind a line, and on the lines
/// after it that are nothing else, the further answers. Each is the beginning of what is to be printed.
pub fn check(files: &[&str]) -> ExitCode {
    let mut wrong = 0;
    let mut right = 0;
    for file in files {
        let script = std::fs::read_to_string(file).expect("a script");
        let answers = renets(&script).0;
        let mut at = String::new();
        for (n, line) in script.lines().enumerate() {
            let Some((call, expected)) = line.split_once("#= ") else {
                continue;
            };
            at = if call.trim().is_empty() {
                next(&at)
            } else {
                format!("{}", n + 1)
            };
            let prefix = format!("{at}: ");
            let told = answers
                .lines()
                .find_map(|t| t.strip_prefix(&prefix))
                .unwrap_or("(nothing)");
            if told.starts_with(expected.trim_end()) {
                right += 1;
            } else {
                wrong += 1;
                println!("{file}:{}: expected {expected}\n  answered {at}: {told}", n + 1);
            }
        }
    }
    println!("{right} answers as expected, {wrong} not");
    if wrong > 0 || right == 0 {
        ExitCode::FAILURE
    } else {
        ExitCode::SUCCESS
    }
}

/// The number of the answer after another to the same line.
fn next(at: &str) -> String {
    match at.split_once('.') {
        Some((line, k)) => format!("{line}.{}", k.parse::<u64>().unwrap_or(0) + 1),
        None => format!("{at}.0"),
    }
}

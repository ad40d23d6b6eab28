//! The command for operators: `pondreszi cltu|frame|clcw|link`. What is decided here is only how
//! octets come in and how answers are told; the answers are the proved library's.

mod coding;
mod ending;
mod help;
mod link;
mod octets;
mod options;
mod show;

use std::env;
use std::process::ExitCode;

use ending::Ending;

fn main() -> ExitCode {
    let arguments = env::args_os().skip(1);
    let arguments: Vec<String> = arguments
        .map(|argument| argument.to_string_lossy().into_owned())
        .collect();
    let ending = command(&arguments).unwrap_or_else(|ending| ending);
    ending.tell()
}

fn command(arguments: &[String]) -> Result<Ending, Ending> {
    let words: Vec<&str> = arguments.iter().map(String::as_str).collect();
    if let Some(page) = help::asked(&words) {
        return Ok(Ending::done(page));
    }
    match words[..] {
        ["cltu", "encode", ..] => coding::encode(&words[2..]),
        ["cltu", "decode", ..] => coding::decode(&words[2..]),
        ["frame", "show", ..] => show::frame(&words[2..]),
        ["clcw", "show", ..] => show::clcw(&words[2..]),
        ["link", ..] => link::run(&words[1..]),
        [] => Err(Ending::misuse("no command is given; say pondreszi --help.")),
        [first, ..] => Err(unknown(first, &words)),
    }
}

fn unknown(first: &str, words: &[&str]) -> Ending {
    if first.starts_with('-') {
        return Ending::misuse(&format!("unknown option {first}; say pondreszi --help."));
    }
    let known = ["cltu", "frame", "clcw"].contains(&first);
    let count = if known { 2.min(words.len()) } else { 1 };
    let command = words[..count].join(" ");
    Ending::misuse(&format!("unknown command {command}; say pondreszi --help."))
}

//! The command `combgallop`: what the verified library finds in an image, for the desk.
//!
//! Every verdict, chain, size, offset and latest transaction is the library's answer. Here
//! words are read at the places that the rules name, addresses are computed, and numbers get
//! their words. `docs/DESK.md` says what each command prints.

mod arguments;
mod chunk;
mod evidence;
mod explain;
mod failure;
mod found;
mod help;
mod input;
mod json;
mod map;
mod number;
mod output;
mod report;
mod svg;
mod words;

use std::env;
use std::io::{stderr, IsTerminal, Write};
use std::process::ExitCode;

use combgallop::Image;

use arguments::{Command, Form, Reading};
use failure::Failure;
use found::Found;

fn main() -> ExitCode {
    let arguments: Vec<_> = env::args_os().skip(1).collect();
    let status = match arguments::parse(arguments).and_then(run) {
        Ok(status) => status,
        Err(failure) => {
            // Where standard error is closed, the status alone tells.
            let _ = writeln!(stderr(), "combgallop: {failure}");
            failure.status()
        }
    };
    ExitCode::from(status)
}

/// Carries a command out, and tells its exit status.
fn run(command: Command) -> Result<u8, Failure> {
    match command {
        Command::Help => output::print(help::TEXT)?,
        Command::Version => output::print(help::VERSION)?,
        Command::Explain(number) => output::print(&explain::text(number)?)?,
        Command::Show(form, reading) => return show(form, &reading),
    }
    Ok(0)
}

/// Reads an image, and prints what is found in a form.
fn show(form: Form, reading: &Reading) -> Result<u8, Failure> {
    let magazines = input::magazines(reading)?;
    let bytes = input::image(reading)?;
    let image = Image::split(reading.profile, &bytes);
    let found = image.and_then(|image| Found::new(image.with_magazines(&magazines)?, reading.now));
    let found = match found {
        Ok(found) => found,
        Err(refusal) => {
            if form == Form::Json {
                output::print(&json::refused(reading, refusal))?;
            }
            return Err(Failure::Refused(refusal));
        }
    };
    match form {
        Form::Report => output::print(&report::text(&found)?)?,
        Form::Json => output::print(&json::text(&found))?,
        Form::Map => output::print(&map::text(&found, is_coloured()))?,
        Form::Picture(out) => output::write(&out, &svg::text(&found), &reading.files())?,
    }
    Ok(if found.is_sound() { 0 } else { 1 })
}

/// Whether standard output is a terminal whose user has not asked for no colours.
fn is_coloured() -> bool {
    let is_refused = env::var_os("NO_COLOR").is_some_and(|value| !value.is_empty());
    std::io::stdout().is_terminal() && !is_refused
}

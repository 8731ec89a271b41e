//! The command line.

use std::ffi::{OsStr, OsString};

use combgallop::Profile;

use crate::failure::Failure;
use crate::number;

/// What is asked for.
#[derive(PartialEq, Eq, Debug)]
pub enum Command {
    Help,
    Version,
    Explain(u32),
    Show(Form, Reading),
}

/// How findings are shown.
#[derive(PartialEq, Eq, Debug)]
pub enum Form {
    Report,
    Map,
    /// A map too, to a file.
    Picture(OsString),
    Json,
}

/// What is to be read, and how.
#[derive(PartialEq, Eq, Debug)]
pub struct Reading {
    pub profile: Profile,
    pub file: OsString,
    pub magazines: Option<OsString>,
    pub now: Option<u32>,
}

impl Reading {
    /// The files that are read.
    pub fn files(&self) -> Vec<&OsStr> {
        let files = [Some(&self.file), self.magazines.as_ref()];
        files
            .into_iter()
            .flatten()
            .map(OsString::as_os_str)
            .collect()
    }
}

/// The command line, sorted.
#[derive(Default)]
struct Given {
    is_help: bool,
    is_version: bool,
    userland: Option<OsString>,
    magazines: Option<OsString>,
    now: Option<OsString>,
    svg: Option<OsString>,
    operands: Vec<OsString>,
}

pub fn parse(arguments: Vec<OsString>) -> Result<Command, Failure> {
    let mut given = sort(arguments)?;
    if given.is_help {
        return Ok(Command::Help);
    }
    if given.is_version {
        return Ok(Command::Version);
    }
    let mut operands = std::mem::take(&mut given.operands).into_iter();
    let Some(command) = operands.next() else {
        return wrong("no command: report, map, json or explain (--help says more)");
    };
    let operand = operands.next();
    if let Some(more) = operands.next() {
        return wrong(format!("{more:?} is one argument too many"));
    }
    match command.to_str() {
        Some("report") => show(Form::Report, operand, given),
        Some("json") => show(Form::Json, operand, given),
        Some("map") => match given.svg.take() {
            Some(out) => show(Form::Picture(out), operand, given),
            None => show(Form::Map, operand, given),
        },
        Some("explain") => explain(operand, &given),
        _ => wrong(format!("no such command: {command:?} (--help says more)")),
    }
}

fn wrong<T>(what: impl Into<String>) -> Result<T, Failure> {
    Err(Failure::Wrong(what.into()))
}

/// Tells options from operands. Behind `--` nothing is an option.
fn sort(arguments: Vec<OsString>) -> Result<Given, Failure> {
    let mut given = Given::default();
    let mut arguments = arguments.into_iter();
    while let Some(argument) = arguments.next() {
        match argument.to_str() {
            Some("--") => given.operands.extend(arguments.by_ref()),
            Some("-h" | "--help") => given.is_help = true,
            Some("-V" | "--version") => given.is_version = true,
            Some(text) if text.starts_with('-') && text != "-" => {
                take_option(&mut given, text, &mut arguments)?;
            }
            _ => given.operands.push(argument),
        }
    }
    Ok(given)
}

/// An option and its value, which stands behind `=` or is the next argument.
fn take_option(
    given: &mut Given,
    text: &str,
    rest: &mut impl Iterator<Item = OsString>,
) -> Result<(), Failure> {
    let (name, value) = match text.split_once('=') {
        Some((name, value)) => (name, Some(OsString::from(value))),
        None => (text, None),
    };
    let place = match name {
        "--userland" => &mut given.userland,
        "--magazines" => &mut given.magazines,
        "--now" => &mut given.now,
        "--svg" => &mut given.svg,
        _ => return wrong(format!("no such option: {name:?} (--help says more)")),
    };
    if place.is_some() {
        return wrong(format!("{name} is given twice"));
    }
    let value = match (name, value) {
        ("--userland", Some(_)) => return wrong(format!("{name} has no value")),
        ("--userland", None) => OsString::new(),
        (_, Some(value)) => value,
        (_, None) => match rest.next() {
            Some(value) => value,
            None => return wrong(format!("{name} needs a value")),
        },
    };
    *place = Some(value);
    Ok(())
}

fn show(form: Form, file: Option<OsString>, given: Given) -> Result<Command, Failure> {
    if given.svg.is_some() {
        return wrong("--svg is an option of map");
    }
    let Some(file) = file else {
        return wrong("no FILE: say an image, or - for standard input");
    };
    if file == "-" && given.magazines.as_deref() == Some(OsStr::new("-")) {
        return wrong("FILE and --magazines cannot both be standard input");
    }
    let now = match &given.now {
        Some(typed) => Some(uptime(typed)?),
        None => None,
    };
    let profile = match given.userland {
        Some(_) => Profile::Userland,
        None => Profile::Kernel,
    };
    let reading = Reading {
        profile,
        file,
        magazines: given.magazines,
        now,
    };
    Ok(Command::Show(form, reading))
}

fn uptime(typed: &OsStr) -> Result<u32, Failure> {
    match typed.to_str().and_then(number::parse) {
        Some(now) => Ok(now),
        None => wrong(format!("--now: {typed:?} is no number below 2^32")),
    }
}

fn explain(typed: Option<OsString>, given: &Given) -> Result<Command, Failure> {
    let Given {
        userland,
        magazines,
        now,
        svg,
        ..
    } = given;
    if [userland, magazines, now, svg]
        .iter()
        .any(|option| option.is_some())
    {
        return wrong("explain takes a number and no option");
    }
    let Some(typed) = typed else {
        return wrong("no NUMBER: say that of a verdict or a refusal");
    };
    match typed.to_str().and_then(number::parse) {
        Some(number) => Ok(Command::Explain(number)),
        None => wrong(format!("{typed:?} is no number")),
    }
}

#[cfg(test)]
mod tests {
    use super::{parse, Command, Form, Reading};
    use combgallop::Profile;

    fn parsed(line: &str) -> Command {
        let arguments = line.split(' ').map(Into::into).collect();
        parse(arguments).expect(line)
    }

    #[test]
    fn options_before_and_behind_the_file() {
        let expected = || {
            let reading = Reading {
                profile: Profile::Userland,
                file: "image".into(),
                magazines: Some("list".into()),
                now: Some(7000),
            };
            Command::Show(Form::Json, reading)
        };
        for line in [
            "json image --userland --magazines list --now 7000",
            "--now=7000 --magazines=list json --userland image",
            "--userland json --now 0x1b58 --magazines list -- image",
        ] {
            assert_eq!(parsed(line), expected(), "{line}");
        }
    }

    #[test]
    fn picture_and_map() {
        let reading = || Reading {
            profile: Profile::Kernel,
            file: "-".into(),
            magazines: None,
            now: None,
        };
        assert_eq!(parsed("map -"), Command::Show(Form::Map, reading()));
        let picture = Form::Picture("out".into());
        assert_eq!(parsed("map - --svg out"), Command::Show(picture, reading()));
    }

    #[test]
    fn help_goes_first() {
        assert_eq!(parsed("report --help"), Command::Help);
        assert_eq!(parsed("-V"), Command::Version);
        assert_eq!(parsed("explain 28"), Command::Explain(28));
    }
}

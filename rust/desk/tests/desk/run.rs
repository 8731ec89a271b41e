//! The command, run: with arguments and an input, and for so long at most.

use std::ffi::OsStr;
use std::io::{Read, Write};
use std::process::{Child, ChildStdin, Command, ExitStatus, Stdio};
use std::thread::{self, JoinHandle};
use std::time::{Duration, Instant};

pub const PROGRAM: &str = env!("CARGO_BIN_EXE_combgallop");

/// Far longer than the command takes.
const PATIENCE: Duration = Duration::from_secs(20);

/// More memory than the command needs for any image, and less than hurts anybody.
const MOST_KILOBYTES: usize = 512 * 1024;

/// What writes to the command's standard input, in a thread of its own.
pub type Feed = Box<dyn FnOnce(ChildStdin) + Send>;

/// What came of the command. The status is none where a signal ended it.
#[derive(Debug)]
pub struct Ran {
    pub stdout: Vec<u8>,
    pub stderr: Vec<u8>,
    pub status: Option<i32>,
}

impl Ran {
    pub fn stdout_text(&self) -> String {
        String::from_utf8_lossy(&self.stdout).into_owned()
    }

    pub fn stderr_text(&self) -> String {
        String::from_utf8_lossy(&self.stderr).into_owned()
    }
}

/// The command with these arguments, an empty input and no wish about colours.
pub fn command<A: AsRef<OsStr>>(arguments: &[A]) -> Command {
    let mut command = Command::new(PROGRAM);
    command.args(arguments);
    settled(command)
}

/// The same where an input without end would otherwise take all memory there is.
pub fn command_in_little_memory<A: AsRef<OsStr>>(arguments: &[A]) -> Command {
    let mut command = Command::new("sh");
    let script = format!("ulimit -v {MOST_KILOBYTES}; exec \"$0\" \"$@\"");
    command.args(["-c", &script, PROGRAM]).args(arguments);
    settled(command)
}

fn settled(mut command: Command) -> Command {
    command.env_remove("NO_COLOR").stdin(Stdio::null());
    command
}

/// Runs the command with these arguments and an empty input.
pub fn run<A: AsRef<OsStr>>(arguments: &[A]) -> Ran {
    finish(command(arguments), None)
}

/// Runs the command with these bytes as its input. It may end before it has read them all.
pub fn run_fed<A: AsRef<OsStr>>(arguments: &[A], input: Vec<u8>) -> Ran {
    let feed = move |mut pipe: ChildStdin| {
        let _ = pipe.write_all(&input);
    };
    finish(command(arguments), Some(Box::new(feed)))
}

/// Runs a command to its end, whatever it writes.
pub fn finish(mut command: Command, feed: Option<Feed>) -> Ran {
    command.stdout(Stdio::piped());
    finish_writing_elsewhere(command, feed)
}

/// The same where the caller has said where standard output goes.
pub fn finish_writing_elsewhere(mut command: Command, feed: Option<Feed>) -> Ran {
    command.stderr(Stdio::piped());
    if feed.is_some() {
        command.stdin(Stdio::piped());
    }
    let mut child = command.spawn().expect("the command starts");
    let stdout = child.stdout.take().map(read_all);
    let stderr = child.stderr.take().map(read_all);
    let pipe = child.stdin.take();
    let feeder = feed
        .zip(pipe)
        .map(|(feed, pipe)| thread::spawn(|| feed(pipe)));
    let status = wait(&mut child);
    if let Some(feeder) = feeder {
        feeder.join().expect("the input ends when the command does");
    }
    Ran {
        stdout: stdout.map(joined).unwrap_or_default(),
        stderr: stderr.map(joined).unwrap_or_default(),
        status: status.code(),
    }
}

/// Reads to the end in a thread, so that a full pipe stops nobody.
fn read_all(mut from: impl Read + Send + 'static) -> JoinHandle<Vec<u8>> {
    thread::spawn(move || {
        let mut bytes = Vec::new();
        from.read_to_end(&mut bytes).expect("a pipe can be read");
        bytes
    })
}

fn joined(reader: JoinHandle<Vec<u8>>) -> Vec<u8> {
    reader.join().expect("a pipe is read to its end")
}

/// Waits for the command, and fails where it doesn't end in good time.
fn wait(child: &mut Child) -> ExitStatus {
    let started = Instant::now();
    loop {
        let ended = child.try_wait().expect("the command can be waited for");
        if let Some(status) = ended {
            return status;
        }
        if started.elapsed() > PATIENCE {
            child.kill().expect("the command can be stopped");
            panic!("the command did not end");
        }
        thread::sleep(Duration::from_micros(200));
    }
}

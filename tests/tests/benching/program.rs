use std::env;
use std::fs::{self, File};
use std::io::{self, ErrorKind, Read, Write};
use std::path::{Path, PathBuf};
use std::process::{self, Child, ChildStdin, Command, Stdio};
use std::sync::atomic::{AtomicUsize, Ordering};
use std::sync::mpsc;
use std::thread;
use std::time::Duration;

use hwmp_tests::reference::bench;

/// No input here keeps the program busy for so long or makes it print so many octets.
const LONGEST_RUN: Duration = Duration::from_secs(60);
const MOST_PRINTED: u64 = 1 << 24;

/// The bench program under test.
pub struct Program {
    path: PathBuf,
}

impl Program {
    pub fn named() -> Program {
        let package = Path::new(env!("CARGO_MANIFEST_DIR"));
        let path = match env::var_os("HWMP_BENCH") {
            Some(path) => PathBuf::from(path),
            None => package.join("../crates/bench/out/bench"),
        };
        let shown = path.display();
        assert!(
            path.is_file(),
            "{shown} is missing: build it, or name another in HWMP_BENCH"
        );
        Program { path }
    }

    /// Returns what the program prints if its whole input is there at once.
    pub fn output(&self, input: &[u8]) -> String {
        self.output_in_pieces([input], Duration::ZERO)
    }

    /// Returns what the program prints if its input comes in pieces with pauses between them, so
    /// that a read can end in the middle of a command.
    pub fn output_in_pieces<'a>(
        &self,
        pieces: impl IntoIterator<Item = &'a [u8]> + Send,
        pause: Duration,
    ) -> String {
        let mut running = self.start(Stdio::piped());
        let to = running.0.stdin.take().expect("piped");
        // A thread writes the input while this one reads, because no pipe holds everything that may
        // go through it.
        thread::scope(|scope| {
            scope.spawn(move || feed(to, pieces, pause));
            printed(running)
        })
    }

    /// Returns what the program prints if its input is a file, from which every read gets as much
    /// as it asks for.
    pub fn output_from_file(&self, input: &[u8]) -> String {
        static FILES: AtomicUsize = AtomicUsize::new(0);
        let number = FILES.fetch_add(1, Ordering::Relaxed);
        let name = format!("benching-{}-{number}", process::id());
        let path = Path::new(env!("CARGO_TARGET_TMPDIR")).join(name);
        fs::write(&path, input).expect("a file for the input");
        let file = File::open(&path).expect("the file just written");
        fs::remove_file(&path).expect("the file just opened");
        printed(self.start(Stdio::from(file)))
    }

    pub fn start(&self, stdin: Stdio) -> Running {
        let mut command = Command::new(&self.path);
        command.stdin(stdin).stdout(Stdio::piped());
        let started = command.spawn();
        Running(started.unwrap_or_else(|error| panic!("{}: {error}", self.path.display())))
    }

    /// The program and the reference must print the same for an input.
    pub fn agrees(&self, input: &[u8], what: &str) {
        same(&self.output(input), &bench::output(input), input, what);
    }

    /// The program and the reference must print the same for an input from a file.
    pub fn agrees_from_file(&self, input: &[u8], what: &str) {
        let found = self.output_from_file(input);
        same(&found, &bench::output(input), input, what);
    }

    /// The program and the reference must print the same for an input in pieces.
    pub fn agrees_in_pieces(&self, pieces: &[&[u8]], pause: Duration, what: &str) {
        let input = pieces.concat();
        let found = self.output_in_pieces(pieces.iter().copied(), pause);
        same(&found, &bench::output(&input), &input, what);
    }
}

/// The program while it runs. Dropping this value ends the program, so that a test that fails
/// leaves none behind.
pub struct Running(pub Child);

impl Drop for Running {
    fn drop(&mut self) {
        // An error here means that the program has already ended.
        let _ = self.0.kill();
        let _ = self.0.wait();
    }
}

/// Compares whole outputs. A difference is reported by the first line that has it.
pub fn same(found: &str, expected: &str, input: &[u8], what: &str) {
    if found == expected {
        return;
    }
    let differs = |(found, expected)| found != expected;
    let lines = found.lines().zip(expected.lines());
    let common = lines.clone().position(differs);
    let at = common.unwrap_or_else(|| lines.count());
    panic!(
        "{what}: line {at} is {:?} and not {:?}, for {} octets {:?}",
        found.lines().nth(at),
        expected.lines().nth(at),
        input.len(),
        &input[..input.len().min(4096)]
    );
}

/// A program that printed E need not read on.
fn feed<'a>(mut to: ChildStdin, pieces: impl IntoIterator<Item = &'a [u8]>, pause: Duration) {
    for piece in pieces {
        match to.write_all(piece) {
            Err(error) if error.kind() == ErrorKind::BrokenPipe => return,
            outcome => outcome.expect("the program reads its input"),
        }
        thread::sleep(pause);
    }
}

fn printed(mut running: Running) -> String {
    let from = running.0.stdout.take().expect("piped");
    let (sender, receiver) = mpsc::channel();
    thread::spawn(move || sender.send(io::read_to_string(from.take(MOST_PRINTED))));
    let Ok(text) = receiver.recv_timeout(LONGEST_RUN) else {
        panic!("the program has not ended after {LONGEST_RUN:?}");
    };
    let text = text.expect("lines of ASCII");
    let printed = text.len() as u64;
    assert!(printed < MOST_PRINTED, "the program prints without end");
    let status = running.0.wait().expect("the program's end");
    assert!(status.success(), "{status}");
    text
}

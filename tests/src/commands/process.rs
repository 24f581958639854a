//! Running a lister or another program as a process: fed from a file, through a
//! pipe in pieces, one piece after the answer to the last, or from what cannot be read.

mod memory;

pub use memory::Memory;

use std::error::Error;
use std::fmt;
use std::fs::{self, File};
use std::io::{self, Read, Write};
use std::os::fd::OwnedFd;
use std::os::unix::net::UnixStream;
use std::path::{Path, PathBuf};
use std::process::{Child, Command, ExitStatus, Stdio};
use std::sync::mpsc::{channel, Receiver};
use std::thread;
use std::time::{Duration, Instant};

/// A program and the words it is called with.
pub struct Program {
    path: PathBuf,
    words: Vec<String>,
}

impl fmt::Display for Program {
    fn fmt(&self, text: &mut fmt::Formatter) -> fmt::Result {
        write!(text, "{}", self.path.display())?;
        self.words
            .iter()
            .try_for_each(|word| write!(text, " {word}"))
    }
}

/// What a program wrote, and how it ended.
pub struct Ran {
    pub output: Vec<u8>,
    pub status: ExitStatus,
    /// Why not all of its input could be written to it.
    pub unfed: Option<io::Error>,
}

#[cfg(test)]
impl Ran {
    /// A run without fault that wrote this.
    pub fn of(output: Vec<u8>) -> Self {
        Ran {
            output,
            status: Default::default(),
            unfed: None,
        }
    }
}

impl Program {
    pub fn new(path: impl Into<PathBuf>, words: &[String]) -> Self {
        Program {
            path: path.into(),
            words: words.to_vec(),
        }
    }

    /// This program run by another, with words of that one's own before it.
    pub fn under(&self, tool: &str, words: &[String]) -> Self {
        let path = self.path.display().to_string();
        Program::new(tool, &[words, &[path], &self.words].concat())
    }

    /// Runs the program with its standard input from a file.
    pub fn run_on_file(&self, input: &Path) -> Result<Ran, Box<dyn Error>> {
        let mut child = self.spawn(File::open(input)?.into(), Stdio::piped())?;
        let output = read_output(&mut child)?;
        Ok(Ran {
            output,
            status: child.wait()?,
            unfed: None,
        })
    }

    /// Runs the program and writes `input` to it through a pipe, in pieces of
    /// the lengths that `piece` gives. The writing has a thread of its own:
    /// both pipes may be full at once.
    pub fn run_on_pipe(
        &self,
        input: &[u8],
        piece: impl FnMut() -> usize + Send,
    ) -> Result<Ran, Box<dyn Error>> {
        let mut child = self.spawn(Stdio::piped(), Stdio::piped())?;
        let pipe = child.stdin.take().expect("standard input is a pipe");
        let (output, fed) = thread::scope(|scope| {
            let feeding = scope.spawn(|| feed(pipe, input, piece));
            let output = read_output(&mut child);
            (output, feeding.join().expect("feeding does not panic"))
        });
        Ok(Ran {
            output: output?,
            status: child.wait()?,
            unfed: fed.err(),
        })
    }

    /// Runs the program and writes each piece to it only after it has written as
    /// many octets as `expected` gives for the pieces before. Gives what it wrote
    /// before its input's end, and how it ended; where it keeps something back for
    /// longer than `patience`, nothing more is fed.
    pub fn run_live(
        &self,
        pieces: &[&[u8]],
        expected: impl Fn(usize) -> usize,
        patience: Duration,
    ) -> Result<Ran, Box<dyn Error>> {
        let mut child = self.spawn(Stdio::piped(), Stdio::piped())?;
        let mut pipe = child.stdin.take().expect("standard input is a pipe");
        let written = octets_of(child.stdout.take().expect("standard output is a pipe"));
        let (mut output, mut unfed) = (Vec::new(), None);
        'feeding: for fed in 0..=pieces.len() {
            while output.len() < expected(fed) {
                match written.recv_timeout(patience) {
                    Ok(octets) => output.extend(octets),
                    Err(_) => break 'feeding,
                }
            }
            let piece = pieces.get(fed).copied().unwrap_or_default();
            if let Err(error) = pipe.write_all(piece) {
                unfed = Some(error);
                break;
            }
        }
        drop(pipe);
        Ok(Ran {
            output,
            status: child.wait()?,
            unfed,
        })
    }

    /// Runs the program, writes octets to it, so many zeros and other octets, and gives
    /// also the most memory that it had taken when all of this was written.
    pub fn run_measured(
        &self,
        before: &[u8],
        zeros: usize,
        behind: &[u8],
    ) -> Result<(Ran, Memory), Box<dyn Error>> {
        static ZEROS: [u8; 1 << 16] = [0; 1 << 16];
        let mut child = self.spawn(Stdio::piped(), Stdio::piped())?;
        let mut pipe = child.stdin.take().expect("standard input is a pipe");
        pipe.write_all(before)?;
        for _ in 0..zeros / ZEROS.len() {
            pipe.write_all(&ZEROS)?;
        }
        pipe.write_all(&ZEROS[..zeros % ZEROS.len()])?;
        pipe.write_all(behind)?;
        let memory = Memory::of_process(child.id())?;
        drop(pipe);
        let ran = Ran {
            output: read_output(&mut child)?,
            status: child.wait()?,
            unfed: None,
        };
        Ok((ran, memory))
    }

    /// Runs the program on a path that can be opened and not be read. Gives also what
    /// it said on standard error.
    pub fn run_on_unreadable(&self, path: &Path) -> Result<(Ran, String), Box<dyn Error>> {
        self.run_heard(File::open(path)?.into(), Stdio::piped())
    }

    /// The same on an input that gives these octets and then an error. A program that
    /// tries again is given the input's end after `patience`.
    pub fn run_on_failing(
        &self,
        octets: &[u8],
        patience: Duration,
    ) -> Result<(Ran, String), Box<dyn Error>> {
        let (mut own, input) = UnixStream::pair()?;
        own.write_all(octets)?;
        input.set_nonblocking(true)?; // to read on where nothing waits is an error
        thread::spawn(move || {
            thread::sleep(patience);
            drop(own);
        });
        self.run_heard(OwnedFd::from(input).into(), Stdio::piped())
    }

    /// The same on no input, with an output on a path that can be opened and takes nothing.
    pub fn run_unwritable(&self, path: &Path) -> Result<(Ran, String), Box<dyn Error>> {
        let output = File::options().write(true).open(path)?;
        self.run_heard(Stdio::null(), output.into())
    }

    /// Runs the program to its end. Its output is short.
    fn run_heard(&self, input: Stdio, output: Stdio) -> Result<(Ran, String), Box<dyn Error>> {
        let mut command = self.command(input, output);
        let child = command.stderr(Stdio::piped()).spawn();
        let ended = child.map_err(|error| self.not_run(error))?;
        let ended = ended.wait_with_output()?;
        let ran = Ran {
            output: ended.stdout,
            status: ended.status,
            unfed: None,
        };
        Ok((ran, String::from_utf8_lossy(&ended.stderr).into_owned()))
    }

    /// The time of a run on a file, the output thrown away.
    pub fn time(&self, input: &Path) -> Result<Duration, Box<dyn Error>> {
        let input = File::open(input)?;
        let start = Instant::now();
        let status = self.spawn(input.into(), Stdio::null())?.wait()?;
        let taken = start.elapsed();
        if !status.success() {
            return Err(format!("{} ended with {status}", self.path.display()).into());
        }
        Ok(taken)
    }

    fn spawn(&self, input: Stdio, output: Stdio) -> Result<Child, Box<dyn Error>> {
        let child = self.command(input, output).spawn();
        child.map_err(|error| self.not_run(error))
    }

    fn command(&self, input: Stdio, output: Stdio) -> Command {
        let mut command = Command::new(&self.path);
        command.args(&self.words).stdin(input).stdout(output);
        command
    }

    fn not_run(&self, error: io::Error) -> Box<dyn Error> {
        format!("{}: {error}", self.path.display()).into()
    }
}

/// The first line that a program says of its version, or nothing where it is not
/// installed.
pub fn version(program: &str) -> Option<String> {
    let ran = Command::new(program).arg("--version").output().ok()?;
    let said = String::from_utf8_lossy(&ran.stdout).into_owned();
    said.lines().next().map(String::from)
}

/// What comes from a pipe, as it comes.
fn octets_of(mut pipe: impl Read + Send + 'static) -> Receiver<Vec<u8>> {
    let (sender, receiver) = channel();
    thread::spawn(move || {
        let mut octets = [0; 4096];
        while let Ok(count @ 1..) = pipe.read(&mut octets) {
            if sender.send(octets[..count].to_vec()).is_err() {
                return;
            }
        }
    });
    receiver
}

fn read_output(child: &mut Child) -> io::Result<Vec<u8>> {
    let mut output = Vec::new();
    let pipe = child.stdout.as_mut().expect("standard output is a pipe");
    pipe.read_to_end(&mut output)?;
    Ok(output)
}

/// Writes the pieces one by one and closes the pipe.
fn feed(mut pipe: impl Write, input: &[u8], mut piece: impl FnMut() -> usize) -> io::Result<()> {
    let mut rest = input;
    while !rest.is_empty() {
        let (now, later) = rest.split_at(piece().min(rest.len()));
        pipe.write_all(now)?;
        rest = later;
        thread::yield_now(); // lets the reader see this piece by itself
    }
    Ok(())
}

/// A file in the system's directory for such, removed when it is dropped.
pub struct TemporaryFile {
    path: PathBuf,
}

impl TemporaryFile {
    pub fn holding(name: &str, octets: &[u8]) -> io::Result<Self> {
        let name = format!("oam-tests-{}-{name}", std::process::id());
        let file = TemporaryFile {
            path: std::env::temp_dir().join(name),
        };
        fs::write(&file.path, octets)?;
        Ok(file)
    }

    pub fn path(&self) -> &Path {
        &self.path
    }
}

impl Drop for TemporaryFile {
    fn drop(&mut self) {
        // Nothing hangs on it: the file is only in the way.
        let _ = fs::remove_file(&self.path);
    }
}

#[cfg(test)]
mod tests {
    use super::*;

    /// Keeps each write by itself.
    struct Writes(Vec<Vec<u8>>);

    impl Write for &mut Writes {
        fn write(&mut self, octets: &[u8]) -> io::Result<usize> {
            self.0.push(octets.to_vec());
            Ok(octets.len())
        }

        fn flush(&mut self) -> io::Result<()> {
            Ok(())
        }
    }

    #[test]
    fn all_octets_are_fed_in_the_pieces_asked_for() {
        let mut writes = Writes(Vec::new());
        let mut sizes = [3, 1, 100].into_iter();
        feed(&mut writes, b"abcdefg", || {
            sizes.next().expect("three pieces")
        })
        .expect("fed");
        assert_eq!(writes.0, [&b"abc"[..], b"d", b"efg"]);
    }

    #[test]
    fn a_program_that_answers_at_once_is_seen_to() {
        let echo = Program::new("cat", &[]);
        let pieces = [&b"one"[..], b"two"];
        let output = echo.run_live(&pieces, |fed| 3 * fed, Duration::from_secs(10));
        assert_eq!(output.expect("ran").output, b"onetwo");
    }

    #[test]
    fn a_program_that_answers_at_the_end_is_not_waited_for() {
        let late = Program::new("sort", &[]);
        let output = late.run_live(&[b"one\n"], |fed| 4 * fed, Duration::from_millis(100));
        assert_eq!(output.expect("ran").output, b"");
    }

    #[test]
    fn what_is_kept_is_seen_to_take_memory() {
        let octets = 1 << 24;
        let [passing, keeping] = ["cat > /dev/null", "x=$(tr '\\0' a); exit 3"].map(|script| {
            let words = ["-c", script].map(String::from);
            let program = Program::new("sh", &words);
            program
                .run_measured(b"a", octets, b"b")
                .expect("sh is there")
        });
        assert!(passing.0.status.success() && passing.0.output.is_empty());
        assert_eq!(keeping.0.status.code(), Some(3));
        assert!(passing.1.resident < octets / 2 && keeping.1.resident > octets / 2);
        assert!(keeping.1.addressed > passing.1.addressed + octets / 2);
    }

    #[test]
    fn an_input_that_fails_is_no_end() {
        let cat = Program::new("cat", &[]);
        let (ran, said) = cat
            .run_on_failing(b"octets", Duration::from_secs(10))
            .expect("cat is there");
        assert_eq!(ran.output, b"octets");
        assert!(!ran.status.success() && !said.is_empty());
        let (ran, said) = cat.run_on_unreadable(Path::new("/")).expect("cat is there");
        assert!(ran.output.is_empty() && !said.is_empty());
    }

    #[test]
    fn a_program_that_takes_no_more_is_seen_to() {
        let words = [String::from("-c1")];
        let short = Program::new("head", &words);
        let pieces = [&[b'a'; 1][..], &[b'b'; 1_000_000]];
        let ran = short.run_live(&pieces, |fed| fed.min(1), Duration::from_secs(10));
        let ran = ran.expect("head is there");
        assert!(ran.output == b"a" && ran.unfed.is_some());
    }

    #[test]
    fn a_temporary_file_holds_its_octets_and_goes() {
        let file = TemporaryFile::holding("unit", b"octets").expect("written");
        let path = file.path().to_path_buf();
        assert_eq!(fs::read(&path).expect("there"), b"octets");
        drop(file);
        assert!(!path.exists());
    }

    #[test]
    fn a_program_is_run_by_another() {
        let words = [String::from("two")];
        let program = Program::new("one", &words).under("echo", &[String::from("-n")]);
        let ran = program.run_on_pipe(b"", || 1).expect("echo is there");
        assert_eq!(ran.output, b"one two");
    }

    #[test]
    fn a_version_is_told_of_what_is_installed() {
        assert!(version("cargo").is_some_and(|line| line.starts_with("cargo ")));
        assert_eq!(version("no-such-program"), None);
    }

    #[test]
    fn a_program_that_is_not_there_is_named() {
        let program = Program::new("no-such-program", &[]);
        let failure = program.run_on_pipe(b"", || 1).err().expect("not there");
        assert!(failure.to_string().contains("no-such-program"));
    }
}

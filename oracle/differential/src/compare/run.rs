//! Runs a program of this library that reads its standard input.

use std::env;
use std::ffi::{OsString, c_int, c_ulong};
use std::fs::{self, File, OpenOptions};
use std::io::{self, ErrorKind, Read, Seek, Write};
use std::os::fd::AsRawFd;
use std::process::{Child, ChildStdin, Command, Stdio};
use std::sync::mpsc::{Receiver, RecvTimeoutError, Sender, channel};
use std::thread;
use std::time::{Duration, Instant};

/// A program may take no longer to read a piece, nor to print what it must.
const LONGEST_WAIT: Duration = Duration::from_millis(if cfg!(test) { 300 } else { 10_000 });

/// More than a piece has, so that a program can read each in one read.
const PIPE: c_int = 1 << 18;

/// On Linux.
const F_SETPIPE_SZ: c_int = 1031;
const FIONREAD: c_ulong = 0x541B;

unsafe extern "C" {
    fn fcntl(file: c_int, command: c_int, ...) -> c_int;
    fn ioctl(file: c_int, request: c_ulong, ...) -> c_int;
}

/// Bytes that are written together, and how many bytes the program must have printed before the next are.
#[derive(Clone, Copy, Debug)]
pub struct Piece<'a> {
    pub bytes: &'a [u8],
    pub printed: usize,
}

#[derive(Clone, Debug, PartialEq, Eq)]
pub struct Ran {
    /// Whether it ended with 0.
    pub success: bool,
    pub stdout: String,
    pub stderr: String,
}

/// What a run returns, or why there was none.
pub type Result = std::result::Result<Ran, String>;

pub struct Program(OsString);

impl Program {
    /// The one that the variable names, else the other.
    pub fn named(variable: &str, default: &str) -> Self {
        Self(env::var_os(variable).unwrap_or_else(|| default.into()))
    }

    /// Through a pipe. Each piece is read before the next is written.
    pub fn run(&self, pieces: &[Piece]) -> Result {
        self.named_error(
            self.start(Stdio::piped())
                .and_then(|child| finish(child, pieces)),
        )
    }

    /// From a file, of which a program reads as much at once as it asks for.
    pub fn run_on_file(&self, bytes: &[u8]) -> Result {
        let file = unnamed_file(bytes).and_then(|file| self.start(file.into()));
        self.named_error(file.and_then(|child| finish(child, &[])))
    }

    fn start(&self, stdin: Stdio) -> io::Result<Child> {
        let mut command = Command::new(&self.0);
        command.stdin(stdin).stdout(Stdio::piped());
        command.stderr(Stdio::piped()).spawn()
    }

    fn named_error(&self, ran: io::Result<Ran>) -> Result {
        ran.map_err(|error| format!("{}: {error}", self.0.display()))
    }
}

/// It is deleted at once, and gone when it is closed.
fn unnamed_file(bytes: &[u8]) -> io::Result<File> {
    let path = env::temp_dir().join(format!("compare-{}", std::process::id()));
    let mut options = OpenOptions::new();
    let mut file = options
        .read(true)
        .write(true)
        .create_new(true)
        .open(&path)?;
    fs::remove_file(&path)?;
    file.write_all(bytes)?;
    file.rewind()?;
    Ok(file)
}

/// Writes the pieces, and waits for the program's end.
fn finish(mut child: Child, pieces: &[Piece]) -> io::Result<Ran> {
    let stdin = child.stdin.take();
    let stdout = child.stdout.take().expect("a pipe");
    let mut stderr = child.stderr.take().expect("a pipe");
    thread::scope(|scope| {
        let (sender, received) = channel();
        scope.spawn(move || forward(stdout, &sender));
        let stderr = scope.spawn(move || {
            let mut bytes = Vec::new();
            stderr.read_to_end(&mut bytes).map(|_| bytes)
        });
        let mut printed = Printed {
            bytes: Vec::new(),
            received,
        };
        let written = stdin.map_or(Ok(()), |stdin| write(stdin, pieces, &mut printed));
        if written.is_err() {
            child.kill()?;
        }
        let status = child.wait()?;
        written?;
        let stderr = stderr.join().expect("reading does not panic")?;
        let text = |bytes: Vec<u8>| String::from_utf8_lossy(&bytes).into_owned();
        Ok(Ran {
            success: status.success(),
            stdout: text(printed.all()),
            stderr: text(stderr),
        })
    })
}

/// Sends what is read until the end, or until reading fails, which the text shows.
fn forward(mut stdout: impl Read, sender: &Sender<Vec<u8>>) {
    let mut buffer = [0; 1 << 16];
    while let Ok(count @ 1..) = stdout.read(&mut buffer) {
        if sender.send(buffer[..count].to_vec()).is_err() {
            return;
        }
    }
}

/// What the program has printed so far.
struct Printed {
    bytes: Vec<u8>,
    received: Receiver<Vec<u8>>,
}

impl Printed {
    /// Waits until there are so many bytes, or the program has closed its output, which the text shows.
    fn wait_for(&mut self, count: usize) -> io::Result<()> {
        let latest = Instant::now() + LONGEST_WAIT;
        while self.bytes.len() < count {
            let wait = latest.saturating_duration_since(Instant::now());
            match self.received.recv_timeout(wait) {
                Ok(bytes) => self.bytes.extend(bytes),
                Err(RecvTimeoutError::Disconnected) => break,
                Err(RecvTimeoutError::Timeout) => {
                    let so_far = self.bytes.len();
                    let message =
                        format!("{so_far} bytes printed, not {count}, before more is read");
                    return Err(io::Error::new(ErrorKind::TimedOut, message));
                }
            }
        }
        Ok(())
    }

    fn all(mut self) -> Vec<u8> {
        self.bytes.extend(self.received.into_iter().flatten());
        self.bytes
    }
}

fn write(mut stdin: ChildStdin, pieces: &[Piece], printed: &mut Printed) -> io::Result<()> {
    // SAFETY: the file is open, and the command takes an integer.
    let size = unsafe { fcntl(stdin.as_raw_fd(), F_SETPIPE_SZ, PIPE) };
    if size < PIPE {
        return Err(io::Error::last_os_error());
    }
    for (place, piece) in pieces.iter().enumerate() {
        if place > 0 {
            wait_until_read(&stdin)?;
        }
        match stdin.write_all(piece.bytes) {
            // A program that has seen enough may leave the rest of a record that is too long.
            Err(error) if error.kind() == ErrorKind::BrokenPipe => return Ok(()),
            written => written?,
        }
        printed.wait_for(piece.printed)?;
    }
    Ok(())
}

/// Waits until the pipe is empty.
fn wait_until_read(stdin: &ChildStdin) -> io::Result<()> {
    let latest = Instant::now() + LONGEST_WAIT;
    loop {
        let mut left: c_int = 0;
        // SAFETY: the file is open, and the request writes an integer to the address of one.
        let result = unsafe { ioctl(stdin.as_raw_fd(), FIONREAD, &raw mut left) };
        if result != 0 {
            return Err(io::Error::last_os_error());
        }
        if left == 0 {
            return Ok(());
        }
        if Instant::now() > latest {
            let message = format!("{left} bytes are not read");
            return Err(io::Error::new(ErrorKind::TimedOut, message));
        }
        thread::yield_now();
    }
}

#[cfg(test)]
mod tests {
    use super::{Piece, Program, Ran};

    fn run(program: &str, pieces: &[(&str, usize)]) -> super::Result {
        let pieces = pieces.iter().map(|&(text, printed)| Piece {
            bytes: text.as_bytes(),
            printed,
        });
        Program(program.into()).run(&pieces.collect::<Vec<_>>())
    }

    fn ran(success: bool, stdout: &str, stderr: &str) -> super::Result {
        let [stdout, stderr] = [stdout, stderr].map(str::to_owned);
        Ok(Ran {
            success,
            stdout,
            stderr,
        })
    }

    #[test]
    fn outputs_and_status() {
        let pieces = [("one\n", 4), ("tw", 6), ("o\n", 8)];
        assert_eq!(run("cat", &pieces), ran(true, "one\ntwo\n", ""));
        assert_eq!(run("cat", &[]), ran(true, "", ""));
        let script = "echo out; echo error >&2; exit 3\n";
        assert_eq!(run("sh", &[(script, 4)]), ran(false, "out\n", "error\n"));
        let file = Program("cat".into()).run_on_file(b"text");
        assert_eq!(file, ran(true, "text", ""));
    }

    /// A program that prints late, one that reads late, and one that there is not.
    #[test]
    fn no_run() {
        let late = "tac: 0 bytes printed, not 4, before more is read";
        assert_eq!(run("tac", &[("one\n", 4)]), Err(late.into()));
        assert_eq!(run("tac", &[("one\n", 0)]), ran(true, "one\n", ""));
        let script = [("sleep 1\n", 0), ("echo\n", 0), ("echo\n", 0)];
        let unread = "sh: 5 bytes are not read";
        assert_eq!(run("sh", &script), Err(unread.into()));
        assert!(run("/", &[]).is_err());
    }
}

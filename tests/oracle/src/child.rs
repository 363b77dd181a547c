//! Running the programs under test as child processes.

use std::ffi::OsString;
use std::fs::{self, File};
use std::io::{self, Read};
use std::path::{Path, PathBuf};
use std::process::{Child, Command, ExitStatus, Stdio};
use std::sync::mpsc;
use std::time::{Duration, Instant, SystemTime};

/// A program that has not ended by then is killed and reported.
pub const DEADLINE: Duration = Duration::from_secs(10);
/// No good answer is longer; a program that prints on and on is cut off here.
const MOST_OUTPUT: u64 = 64 << 20;

/// A fresh directory, in memory where there is such a place, removed when done with.
pub struct TempDir(PathBuf);

impl TempDir {
    pub fn new() -> io::Result<Self> {
        let memory = Path::new("/dev/shm");
        let now = SystemTime::now().duration_since(SystemTime::UNIX_EPOCH);
        let name = format!(
            "oracle-{}-{}",
            std::process::id(),
            now.map_or(0, |t| t.subsec_nanos())
        );
        if memory.is_dir() && fs::create_dir(memory.join(&name)).is_ok() {
            return Ok(TempDir(memory.join(name)));
        }
        let path = std::env::temp_dir().join(name);
        fs::create_dir(&path)?;
        Ok(TempDir(path))
    }
}

impl Drop for TempDir {
    fn drop(&mut self) {
        if let Err(error) = fs::remove_dir_all(&self.0) {
            eprintln!("{}: {error}", self.0.display());
        }
    }
}

/// Runs programs one after another with files in a directory of its own.
pub struct Runner {
    bin: PathBuf,
    dir: PathBuf,
}

/// What a program printed, what it said on standard error, and what was wrong with its ending if anything was.
pub struct Ran {
    pub stdout: Vec<u8>,
    pub stderr: Vec<u8>,
    pub fault: Option<String>,
}

impl Runner {
    pub fn new(bin: &Path, temp: &TempDir, name: &str) -> io::Result<Self> {
        let dir = temp.0.join(name);
        fs::create_dir(&dir)?;
        let bin = bin.to_owned();
        Ok(Runner { bin, dir })
    }

    pub fn path(&self, name: &str) -> PathBuf {
        self.dir.join(name)
    }

    pub fn write(&self, name: &str, bytes: &[u8]) -> io::Result<PathBuf> {
        let path = self.path(name);
        fs::write(&path, bytes)?;
        Ok(path)
    }

    /// A command with standard error kept in a file and standard output piped.
    pub fn command(&self, program: &str, arguments: &[OsString]) -> io::Result<Command> {
        let mut command = Command::new(self.bin.join(program));
        command
            .args(arguments)
            .stdout(Stdio::piped())
            .stderr(File::create(self.path("stderr"))?);
        Ok(command)
    }

    pub fn run(&self, program: &str, arguments: &[OsString], stdin: &[u8]) -> io::Result<Ran> {
        let stdin = File::open(self.write("stdin", stdin)?)?;
        let mut child = start(self.command(program, arguments)?.stdin(stdin))?;
        let until = Instant::now() + DEADLINE;
        let stdout = read_until(&mut child, until);
        let status = wait_until(&mut child, until)?;
        let (stdout, fault) = match (stdout, status) {
            (Some(stdout), Some(status)) => (stdout?, crash(status)),
            (stdout, _) => {
                let hang = format!("killed after {} seconds", DEADLINE.as_secs());
                (stdout.unwrap_or(Ok(Vec::new()))?, Some(hang))
            }
        };
        let stderr = fs::read(self.path("stderr"))?;
        Ok(Ran {
            stdout,
            stderr,
            fault,
        })
    }
}

/// Starts a program; where that fails the error names it.
pub fn start(command: &mut Command) -> io::Result<Child> {
    command.spawn().map_err(|error| {
        let name = Path::new(command.get_program()).display().to_string();
        io::Error::new(error.kind(), format!("{name}: {error}"))
    })
}

/// Reads standard output to its end, or gives up at the deadline.
fn read_until(child: &mut Child, until: Instant) -> Option<io::Result<Vec<u8>>> {
    let pipe = child.stdout.take().expect("standard output is piped");
    let (send, receive) = mpsc::channel();
    std::thread::spawn(move || {
        let mut bytes = Vec::new();
        let read = pipe.take(MOST_OUTPUT).read_to_end(&mut bytes);
        // Nobody listens any more once the deadline has passed.
        let _ = send.send(read.map(|_| bytes));
    });
    receive
        .recv_timeout(until.saturating_duration_since(Instant::now()))
        .ok()
}

/// Waits for the end; kills the program at the deadline and gives no status then.
pub fn wait_until(child: &mut Child, until: Instant) -> io::Result<Option<ExitStatus>> {
    loop {
        if let Some(status) = child.try_wait()? {
            return Ok(Some(status));
        }
        if Instant::now() >= until {
            child.kill()?;
            child.wait()?;
            return Ok(None);
        }
        std::thread::sleep(Duration::from_micros(20));
    }
}

/// Signals and the exit codes of panics and of shells whose command died.
fn crash(status: ExitStatus) -> Option<String> {
    match status.code() {
        Some(code) if code != 101 && code < 126 => None,
        _ => Some(format!("crashed: {status}")),
    }
}

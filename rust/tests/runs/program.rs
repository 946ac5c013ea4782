//! The program under test, as a process.

use crate::files::{Feed, Made, HEAD};
use std::fs::{self, File};
use std::io::{self, Read, Write};
use std::net::{TcpListener, TcpStream};
use std::os::fd::OwnedFd;
use std::path::PathBuf;
use std::process::{ChildStdin, Command, Stdio};
use std::thread;

pub struct Program {
    path: PathBuf,
    folder: PathBuf,
}

impl Program {
    pub fn new(path: PathBuf) -> Program {
        // The tests of this file may run beside each other.
        let thread = format!("{:?}", thread::current().id()).replace(['(', ')'], "-");
        let name = format!("mbrb-runs-{}-{thread}", std::process::id());
        let folder = std::env::temp_dir().join(name);
        fs::create_dir_all(&folder).expect("a folder for the runs");
        Program { path, folder }
    }

    /// What the program prints. The rules name no exit status, so none is asked for; but the program ends by itself.
    pub fn run(&self, made: &Made) -> Vec<u8> {
        let stdin = match made.feed {
            Feed::File => Stdio::from(File::open(self.keep(made)).expect("just written")),
            Feed::Pipe(_) => Stdio::piped(),
        };
        let mut child = Command::new(&self.path)
            .stdin(stdin)
            .stdout(Stdio::piped())
            .spawn()
            .expect("the program starts");
        let (pipe, mut stdout) = (child.stdin.take(), child.stdout.take().expect("piped"));
        let mut output = Vec::new();
        thread::scope(|scope| {
            // Beside the reading, since the program may print before it has read all.
            if let (Some(pipe), Feed::Pipe(size)) = (pipe, made.feed) {
                scope.spawn(move || feed(pipe, &made.bytes, size));
            }
            stdout.read_to_end(&mut output).expect("a pipe can be read");
        });
        let status = child.wait().expect("a child");
        assert!(status.code().is_some(), "{}: {status}", made.kind);
        output
    }

    /// Every write fails: what the program says of it.
    pub fn run_without_room(&self, rows: &str) -> String {
        let path = self.folder.join("run");
        fs::write(&path, HEAD.to_owned() + rows).expect("the folder is ours");
        let full = File::options().write(true).open("/dev/full");
        let output = Command::new(&self.path)
            .stdin(File::open(path).expect("just written"))
            .stdout(full.expect("a device that is always full"))
            .output()
            .expect("the program starts");
        String::from_utf8(output.stderr).expect("plain text")
    }

    /// These bytes can be read, and then a read fails: what the program prints, and what it says of it.
    pub fn run_broken(&self, rows: &str) -> [String; 2] {
        let output = Command::new(&self.path)
            .stdin(broken(&(HEAD.to_owned() + rows)).expect("a connection"))
            .output()
            .expect("the program starts");
        [output.stdout, output.stderr].map(|text| String::from_utf8(text).expect("plain text"))
    }

    /// Writes the file for those who want to look at it.
    pub fn keep(&self, made: &Made) -> PathBuf {
        let path = self.folder.join("run");
        fs::write(&path, &made.bytes).expect("the folder is ours");
        path
    }

    pub fn remove_folder(&self) {
        fs::remove_dir_all(&self.folder).expect("the folder is ours");
    }
}

/// A connection that its other end resets behind these bytes: it closes it with a byte unread.
fn broken(bytes: &str) -> io::Result<OwnedFd> {
    let listener = TcpListener::bind("127.0.0.1:0")?;
    let mut writer = TcpStream::connect(listener.local_addr()?)?;
    let (mut reader, _) = listener.accept()?;
    reader.write_all(b"x")?;
    writer.peek(&mut [0])?;
    writer.write_all(bytes.as_bytes())?;
    while reader.peek(&mut vec![0; bytes.len()])? < bytes.len() {}
    drop(writer);
    Ok(reader.into())
}

/// A program that needs no more input may have ended: that is no fault.
fn feed(mut pipe: ChildStdin, bytes: &[u8], size: usize) {
    for piece in bytes.chunks(size) {
        if pipe.write_all(piece).is_err() {
            return;
        }
    }
}

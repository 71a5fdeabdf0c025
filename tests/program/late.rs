// Runs a program whose standard input is late: late KIND FILE COMMAND..; the file's bytes are the input.
//   never     no byte is there, and the input does not wait for one
//   part      half of the bytes are there, and the input does not wait for the others
//   slow      a pipe that waits, into which the bytes go in pieces, with pauses
// What an input that does not wait lacks is written once the program has ended, or after some seconds at the latest.
use std::io::Write;
use std::os::fd::OwnedFd;
use std::os::unix::net::UnixStream;
use std::process::{Child, Command, Stdio};
use std::time::Duration;
use std::{env, fs, process, thread};

const PIECES: usize = 6;
const PAUSE: Duration = Duration::from_millis(30);
const TURNS: usize = 200;

// Waits until the program has ended, at most TURNS pauses.
fn end_of(child: &mut Child) {
    for _ in 0..TURNS {
        if child.try_wait().expect("the program is waited for").is_some() {
            return;
        }
        thread::sleep(PAUSE);
    }
}

fn unwaiting(mut command: Command, bytes: &[u8], there: usize) {
    let (mut ours, theirs) = UnixStream::pair().expect("a pair of sockets");
    theirs.set_nonblocking(true).expect("a socket that does not wait");
    ours.write_all(&bytes[..there]).expect("the first bytes");
    let mut child = command.stdin(Stdio::from(OwnedFd::from(theirs))).spawn().expect("the program starts");
    drop(command);
    end_of(&mut child);
    // Nobody may be there to read them.
    let _ = ours.write_all(&bytes[there..]);
    drop(ours);
    child.wait().expect("the program ends");
}

fn slow(mut command: Command, bytes: &[u8]) {
    let mut child = command.stdin(Stdio::piped()).spawn().expect("the program starts");
    let mut pipe = child.stdin.take().expect("a pipe");
    for piece in bytes.chunks(bytes.len().div_ceil(PIECES)) {
        thread::sleep(PAUSE);
        // A program that has seen enough does not read the rest.
        if pipe.write_all(piece).is_err() {
            break;
        }
    }
    drop(pipe);
    child.wait().expect("the program ends");
}

fn main() {
    let args: Vec<String> = env::args().collect();
    if args.len() < 4 {
        eprintln!("usage: late never|part|slow FILE COMMAND..");
        process::exit(2);
    }
    let bytes = fs::read(&args[2]).expect("the file");
    let mut command = Command::new(&args[3]);
    command.args(&args[4..]);
    match args[1].as_str() {
        "never" => unwaiting(command, &bytes, 0),
        "part" => unwaiting(command, &bytes, bytes.len() / 2),
        "slow" => slow(command, &bytes),
        kind => {
            eprintln!("late: no kind {kind}");
            process::exit(2);
        }
    }
}

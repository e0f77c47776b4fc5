//! The program `key`, run on a carton given on its standard input.

use std::ffi::OsStr;
use std::io::{Read, Write};
use std::process::{Child, Command, ExitStatus, Stdio};
use std::sync::mpsc;
use std::thread;
use std::time::{Duration, Instant};

/// A run that has not ended by then is wrong.
const PATIENCE: Duration = Duration::from_secs(20);

/// What the program prints; an error says how the run went wrong. It must end with status 0 and an empty standard error.
pub fn run(program: &OsStr, carton: &[u8]) -> Result<Vec<u8>, String> {
    run_for(PATIENCE, program, carton)
}

fn run_for(patience: Duration, program: &OsStr, carton: &[u8]) -> Result<Vec<u8>, String> {
    let end = Instant::now() + patience;
    let mut child = Command::new(program)
        .stdin(Stdio::piped())
        .stdout(Stdio::piped())
        .stderr(Stdio::piped())
        .spawn()
        .map_err(|e| format!("{}: {e}", program.display()))?;
    let ended = converse(&mut child, carton.to_vec(), end)
        .and_then(|read| Ok((read, status_by(&mut child, end)?)));
    let ((printed, complaint), status) = match ended {
        Ok(ended) => ended,
        Err(what) => {
            let _ = child.kill();
            let _ = child.wait();
            return Err(what);
        }
    };
    if !status.success() {
        return Err(format!("ended with {status}"));
    }
    if !complaint.is_empty() {
        return Err(format!("wrote on standard error: {complaint:?}"));
    }
    Ok(printed)
}

/// What the program says on standard error where its answer could not be written whole.
const CUT: &str = "key: the answer could not be written whole\n";

/// Outputs that take nothing, as the shell has them: a full disk, and a closed output.
const TAKES_NOTHING: [&str; 2] = ["/dev/full", "&-"];

/// The program says so, and nothing else, where its answer cannot be written; an error says where it does not.
pub fn tells_of_a_cut(program: &OsStr) -> Result<(), String> {
    for output in TAKES_NOTHING {
        let run = Command::new("/bin/sh")
            .args(["-c", &format!("exec \"$0\" >{output} </dev/null")])
            .arg(program)
            .output()
            .map_err(|e| e.to_string())?;
        let said = String::from_utf8_lossy(&run.stderr);
        if !run.status.success() || said != CUT {
            return Err(format!(
                "with its output to {output} it ends with {} and says {said:?}",
                run.status
            ));
        }
    }
    Ok(())
}

/// Hands the carton over and reads both outputs to the end, on threads of their own so that a run that hangs can be stopped.
fn converse(
    child: &mut Child,
    carton: Vec<u8>,
    end: Instant,
) -> Result<(Vec<u8>, Vec<u8>), String> {
    let (Some(mut input), Some(output), Some(errors)) =
        (child.stdin.take(), child.stdout.take(), child.stderr.take())
    else {
        return Err("has no pipes".to_string());
    };
    thread::spawn(move || {
        // The program may stop reading a file that is too long.
        let _ = input.write_all(&carton);
    });
    let (printed, complaint) = (all_of(output), all_of(errors));
    let by_the_end = |receiver: mpsc::Receiver<std::io::Result<Vec<u8>>>| {
        let left = end.saturating_duration_since(Instant::now());
        let read = receiver
            .recv_timeout(left)
            .map_err(|_| "did not end".to_string())?;
        read.map_err(|e| e.to_string())
    };
    Ok((by_the_end(printed)?, by_the_end(complaint)?))
}

/// Everything that comes out of a pipe, read on a thread.
fn all_of(mut pipe: impl Read + Send + 'static) -> mpsc::Receiver<std::io::Result<Vec<u8>>> {
    let (sender, receiver) = mpsc::channel();
    thread::spawn(move || {
        let mut bytes = Vec::new();
        let read = pipe.read_to_end(&mut bytes).map(|_| bytes);
        let _ = sender.send(read);
    });
    receiver
}

/// The program's status, if it ends in time after its outputs are closed.
fn status_by(child: &mut Child, end: Instant) -> Result<ExitStatus, String> {
    let mut pause = Duration::from_micros(50);
    loop {
        if let Some(status) = child.try_wait().map_err(|e| e.to_string())? {
            return Ok(status);
        }
        if Instant::now() >= end {
            return Err("did not end".to_string());
        }
        thread::sleep(pause);
        pause = (2 * pause).min(Duration::from_millis(50));
    }
}

#[cfg(test)]
mod tests {
    use super::*;

    #[test]
    fn what_a_program_prints() {
        for carton in [&b""[..], b"a carton", &[7; 1 << 20]] {
            assert_eq!(run(OsStr::new("/bin/cat"), carton).as_deref(), Ok(carton));
        }
    }

    #[test]
    fn a_program_that_says_nothing_of_a_cut() {
        let how = tells_of_a_cut(OsStr::new("/bin/true")).expect_err("nothing is said");
        assert!(how.contains("/dev/full") && how.contains("\"\""));
    }

    #[test]
    fn runs_that_go_wrong() {
        let error =
            |program: &str, carton: &[u8]| run(OsStr::new(program), carton).expect_err("an error");
        assert!(error("/bin/false", b"").contains("ended with"));
        assert!(error("/nowhere/key", b"").contains("/nowhere/key"));
        // A shell that is handed a script: it complains, and it takes too long with its outputs open or closed.
        assert!(error("/bin/sh", b"echo no >&2").contains("standard error"));
        for script in ["sleep 5", "exec >&- 2>&-; sleep 5"] {
            let slow = run_for(
                Duration::from_millis(200),
                OsStr::new("/bin/sh"),
                script.as_bytes(),
            );
            assert_eq!(slow, Err("did not end".to_string()));
        }
    }
}

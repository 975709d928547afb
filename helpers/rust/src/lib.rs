//! Runs a store's recovery in the crash states of a session, as tests.
//!
//! ```no_run
//! # use {crash_states::Outcome, std::path::Path};
//! # fn session(_: &Path, _: &dyn Fn(&str)) -> Outcome { Ok(()) }
//! # fn recovery(_: &Path, _: &[String]) -> Outcome { Ok(()) }
//! #[test]
//! fn every_crash_state() {
//!     crash_states::check("every_crash_state", session, recovery);
//! }
//! ```
//!
//! The commands `crashfs-record` and `crashfs-check` must be on `PATH`, or in the directory that
//! the variable `CRASHFS_TOOLS` names. They start the test's own executable again, as the session
//! and as the recovery.

use std::error::Error;
use std::fs::File;
use std::io::{self, BufRead, Write};
use std::os::unix::io::FromRawFd;
use std::panic::{self, AssertUnwindSafe};
use std::path::{Path, PathBuf};
use std::process::{self, Command};
use std::{env, fs, thread};

/// The process that the variable names is the session or the recovery.
const ROLE: &str = "CRASH_STATES_ROLE";
/// Acknowledged lines are written to this descriptor: the test harness writes to standard output.
const SAYS: i32 = 3;
/// Opens the descriptor, and starts the test as the session.
const WITH_SAYS: &str = r#"exec "$@" 3>/dev/null"#;
/// The trace, in the directory of a test.
const TRACE: &str = "session.trace";

/// What a session or a recovery returns: any error, such as `"lost: row 3".into()`.
pub type Outcome = Result<(), Box<dyn Error>>;

/// Changes the store in a directory. It calls its second argument when it would tell its user that
/// something is stored.
pub type Session = fn(&Path, &dyn Fn(&str)) -> Outcome;

/// Opens what a crash left in a directory, and compares it with the acknowledged lines. Its error,
/// or its panic, says what is missing or wrong. Reports count failures by the part before a colon.
pub type Recovery = fn(&Path, &[String]) -> Outcome;

/// Records the session and runs the recovery in its crash states. `test` is the path of the
/// calling test, as `cargo test` prints it.
///
/// # Panics
///
/// If a state fails, with each entry of the report; or if nothing can be recorded or checked.
#[track_caller]
pub fn check(test: &str, session: Session, recovery: Recovery) {
    check_with(test, session, recovery, &[]);
}

/// The same with options of `crashfs-check`, such as `&["--accept", "known.json"]`. Files are
/// relative to the package's folder.
///
/// # Panics
///
/// If a state fails that is no known failure; or if nothing can be recorded or checked.
#[track_caller]
pub fn check_with(test: &str, session: Session, recovery: Recovery, options: &[&str]) {
    match env::var(ROLE).as_deref() {
        Ok("session") => run_and_exit(|| run_session(session)),
        Ok("recovery") => run_and_exit(|| run_recovery(recovery)),
        _ => {}
    }
    // The harness names the thread of a test after it, unless all tests have one thread.
    match thread::current().name() {
        Some(name) if name != "main" && name != test => panic!("this test is {name}, not {test}"),
        _ => {}
    }
    let room = new_directory().unwrap_or_else(|error| panic!("{error}"));
    let trace = room.join(TRACE);
    let entries = failing_entries(&room, test, options).unwrap_or_else(|error| panic!("{error}"));
    if !entries.is_empty() {
        panic!("{}the trace is {}", entries.concat(), trace.display());
    }
    fs::remove_dir_all(&room).unwrap_or_else(|error| panic!("{}: {error}", room.display()));
}

/// Makes a directory in the one for temporary files.
fn new_directory() -> io::Result<PathBuf> {
    let mut number = 1;
    loop {
        let path = env::temp_dir().join(format!("crash_states-{}-{number}", process::id()));
        match fs::create_dir(&path) {
            Err(error) if error.kind() == io::ErrorKind::AlreadyExists => number += 1,
            made => return made.map(|()| path),
        }
    }
}

/// Records a trace and checks it, in this new directory. Returns the text of each failing entry.
fn failing_entries(
    room: &Path,
    test: &str,
    options: &[&str],
) -> Result<Vec<String>, Box<dyn Error>> {
    let store = room.join("store");
    let trace = room.join(TRACE);
    let report = room.join("report.tap");
    fs::create_dir(&store)?;
    let mut this_test = vec![env::current_exe()?.into_os_string()];
    let arguments = "--exact --nocapture --include-ignored --test-threads=1";
    this_test.extend(arguments.split(' ').chain([test]).map(Into::into));
    let mut record = command("crashfs-record", "session");
    record.arg("--say-fd").arg(SAYS.to_string());
    record.arg(&store).arg(&trace).arg("--");
    record.args(["sh", "-c", WITH_SAYS, "sh"]).args(&this_test);
    // With status 4 the trace lacks only what can't make a state good or bad.
    expect_status(&mut record, &[0, 4])?;
    let mut check = command("crashfs-check", "recovery");
    check.arg("--tap").arg(&report).args(options);
    check.arg(&trace).arg("--").args(&this_test);
    expect_status(&mut check, &[0, 1])?;
    let text = fs::read_to_string(&report)?;
    let lines = text.strip_prefix("TAP version 13\n");
    Ok(entries_of(lines.ok_or("a report of another version")?))
}

/// The entries that fail in a report of `crashfs-check --tap`. The lines of each come after a line
/// `not ok`, and begin with `# `.
fn entries_of(report: &str) -> Vec<String> {
    let mut entries: Vec<String> = Vec::new();
    for line in report.lines() {
        if line.starts_with("not ok ") {
            entries.push(String::new());
        } else if let (Some(text), Some(entry)) = (line.strip_prefix("# "), entries.last_mut()) {
            *entry += &format!("{text}\n");
        }
    }
    entries
}

fn command(name: &str, role: &str) -> Command {
    let tools = env::var_os("CRASHFS_TOOLS").map(PathBuf::from);
    let mut command = Command::new(tools.unwrap_or_default().join(name));
    command.env(ROLE, role);
    command
}

fn expect_status(command: &mut Command, wanted: &[i32]) -> Outcome {
    let name = command.get_program().to_string_lossy().into_owned();
    let ran = command.output().map_err(|error| {
        format!("{name}: {error} (set CRASHFS_TOOLS to the directory that has it)")
    })?;
    if ran.status.code().map_or(false, |it| wanted.contains(&it)) {
        return Ok(());
    }
    let printed = [ran.stdout, ran.stderr].concat();
    let printed = String::from_utf8_lossy(&printed);
    Err(format!("{name}: {}\n{printed}", ran.status).into())
}

fn run_session(session: Session) -> Outcome {
    // SAFETY: the descriptor is open, and nothing else in this process has it.
    let says = unsafe { File::from_raw_fd(SAYS) };
    session(&env::current_dir()?, &|line| {
        writeln!(&says, "{line}").expect("a line can be acknowledged");
    })
}

fn run_recovery(recovery: Recovery) -> Outcome {
    let lines: io::Result<Vec<String>> = io::stdin().lock().lines().collect();
    recovery(&env::current_dir()?, &lines?)
}

/// Runs a part of the test and ends the process. The last line that it prints is the cause of a
/// failure.
fn run_and_exit(part: impl FnOnce() -> Outcome) -> ! {
    let cause = match panic::catch_unwind(AssertUnwindSafe(part)) {
        Ok(Ok(())) => process::exit(0),
        Ok(Err(error)) => error.to_string(),
        Err(panic) => match (panic.downcast_ref::<String>(), panic.downcast_ref::<&str>()) {
            (Some(text), _) => text.clone(),
            (_, Some(text)) => text.to_string(),
            _ => "a panic without a text".to_string(),
        },
    };
    println!("\n{}", cause.replace('\n', " "));
    process::exit(1)
}

#[cfg(test)]
mod tests {
    use super::entries_of;

    #[test]
    fn each_failing_test_of_a_report_is_an_entry() {
        let report = "1..4\nnot ok 1 - lost: \\#1\n# lost: #1\n#   line 5\nok 2 - old # SKIP why\n\
                      not ok 3 - odd\n# odd\nok 4 - all other states (7)\n";
        assert_eq!(entries_of(report), ["lost: #1\n  line 5\n", "odd\n"]);
        assert!(entries_of("1..1\nok 1 - all other states (7)\n").is_empty());
    }
}

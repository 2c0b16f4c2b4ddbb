//! One run of the program: it is started, fed, watched, and its whole output taken.

use crate::case::{Case, Feed, PlanFile};
use std::fs::{self, File, OpenOptions};
use std::io::{Read, Write};
use std::os::fd::OwnedFd;
use std::os::unix::net::UnixStream;
use std::os::unix::process::ExitStatusExt;
use std::path::Path;
use std::process::{Child, ChildStdin, Command, ExitStatus, Stdio};
use std::sync::atomic::{AtomicBool, Ordering};
use std::sync::{Arc, Mutex};
use std::time::{Duration, Instant};

/// Longest wait for one line.
const PATIENCE: Duration = Duration::from_secs(60);

/// A child that the watch may end.
pub type Watched = Arc<Mutex<Option<(Child, Instant)>>>;

pub struct Runner<'a> {
    pub program: &'a Path,
    pub base: &'a Path,
    pub slot: Watched,
}

fn put_plan(plan: &PlanFile, file: &Path) -> std::io::Result<()> {
    match plan {
        PlanFile::Stored(bytes) => fs::write(file, bytes),
        PlanFile::Folder => fs::create_dir(file),
        PlanFile::Missing => Ok(()),
    }
}

/// Writes the input, and hands the pipe back where its end is to be held back. The program may be gone before all is
/// written: no matter.
fn feed(case: &Case, mut to: ChildStdin) -> Option<ChildStdin> {
    if case.feed == Feed::Pieces {
        for piece in case.input.chunks(case.input.len() / 3 + 1) {
            if to.write_all(piece).and_then(|_| to.flush()).is_err() {
                break;
            }
            std::thread::sleep(Duration::from_millis(2));
        }
    } else {
        let _ = to.write_all(&case.input);
    }
    (case.feed == Feed::Held).then_some(to)
}

/// An input whose reading fails, after the case's own input where it takes one; none for other cases.
fn failing(case: &Case) -> std::io::Result<Option<OwnedFd>> {
    Ok(match case.feed {
        Feed::Folder => Some(File::open("/")?.into()),
        Feed::WriteOnly => Some(OpenOptions::new().write(true).open("/dev/null")?.into()),
        Feed::Reset => {
            let (mut sender, mut receiver) = UnixStream::pair()?;
            sender.write_all(&case.input)?;
            // A sender gone with something unread leaves an error behind its bytes.
            receiver.write_all(b"unread")?;
            Some(receiver.into())
        }
        _ => None,
    })
}

/// The program started on the case's input, a pipe that is still to be fed where its reading need not fail.
pub fn start(program: &Path, case: &Case, folder: &Path) -> std::io::Result<Child> {
    let mut command = Command::new(program);
    if case.feed == Feed::Closed {
        command = Command::new("sh");
        command.args(["-c", "exec \"$0\" <&-"]).arg(program);
    }
    command
        .current_dir(folder)
        .stdin(failing(case)?.map_or(Stdio::piped(), Stdio::from))
        .stdout(Stdio::piped())
        .stderr(Stdio::null())
        .spawn()
}

/// The output, or how the program ended badly.
fn accepted(status: ExitStatus, since: Instant, out: Vec<u8>) -> Result<Vec<u8>, String> {
    match status.signal() {
        Some(_) if since.elapsed() >= PATIENCE => Err(format!("no end within {} s", PATIENCE.as_secs())),
        Some(signal) => Err(format!("ended by signal {signal} after {:?}", String::from_utf8_lossy(&out))),
        None if !status.success() => Err(format!("{status} after {:?}", String::from_utf8_lossy(&out))),
        None => Ok(out),
    }
}

impl Runner<'_> {
    /// The program's whole standard output, or what went wrong.
    pub fn output(&self, case: &Case, place: u64) -> Result<Vec<u8>, String> {
        let folder = self.base.join(place.to_string());
        fs::create_dir(&folder).map_err(|e| format!("temporary folder: {e}"))?;
        let result = self.output_in(case, &folder);
        let _ = fs::remove_dir_all(&folder);
        result
    }

    fn output_in(&self, case: &Case, folder: &Path) -> Result<Vec<u8>, String> {
        put_plan(&case.plan, &folder.join("plan")).map_err(|e| e.to_string())?;
        let mut child = start(self.program, case, folder).map_err(|e| format!("cannot start the program: {e}"))?;
        let to = child.stdin.take();
        let mut from = child.stdout.take().expect("piped");
        *self.slot.lock().unwrap() = Some((child, Instant::now()));
        let held = to.and_then(|to| feed(case, to));
        let mut out = Vec::new();
        let read = from.read_to_end(&mut out);
        drop(held);
        let (mut child, since) = self.slot.lock().unwrap().take().expect("the child");
        let status = child.wait().map_err(|e| e.to_string())?;
        read.map_err(|e| e.to_string())?;
        accepted(status, since, out)
    }
}

pub fn watch(slots: Vec<Watched>, done: Arc<AtomicBool>) {
    while !done.load(Ordering::Relaxed) {
        std::thread::sleep(Duration::from_millis(200));
        for slot in &slots {
            if let Some((child, since)) = slot.lock().unwrap().as_mut() {
                if since.elapsed() >= PATIENCE {
                    let _ = child.kill();
                }
            }
        }
    }
}

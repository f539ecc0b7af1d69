//! The file layer: reading, replacing in one step, locking. Every change of the disk goes through `step`.

use crate::answers::{cannot, Answer, No};
use fs2::FileExt;
use std::ffi::OsString;
use std::fs::{self, File, OpenOptions, Permissions};
use std::io::{self, Read, Seek, Write};
use std::os::unix::fs::{MetadataExt, OpenOptionsExt, PermissionsExt};
use std::path::{Path, PathBuf};
use std::sync::atomic::{AtomicUsize, Ordering};
use tempfile::TempPath;

/// The longest journal or code file that is read.
pub const LONGEST: u64 = 1 << 28;

/// How many steps there were.
static STEPS: AtomicUsize = AtomicUsize::new(0);

/// One step before each change of the disk, for the tests: `DESK_STOP_AT=n` ends the process before the n-th, with nothing
/// put in order, `DESK_FAIL_AT=n` has it fail as a broken disk would.
fn step(what: &str, path: &Path) -> io::Result<()> {
    let number = (STEPS.fetch_add(1, Ordering::Relaxed) + 1).to_string();
    let what = format!("{} of {}", what, path.file_name().unwrap_or_default().to_string_lossy());
    let is = |name: &str| std::env::var(name).map_or(false, |at| at == number);
    if is("DESK_STOP_AT") {
        eprintln!("stopped before step {}: {}", number, what);
        std::process::exit(99);
    }
    if is("DESK_FAIL_AT") {
        return Err(io::Error::new(io::ErrorKind::Other, format!("failed on purpose at step {}: {}", number, what)));
    }
    Ok(())
}

/// The bytes of a plain file of at most `longest` bytes.
pub fn read(path: &Path, longest: u64) -> Answer<Vec<u8>> {
    let no = |error: io::Error| cannot("read", path.display(), error);
    let about = fs::metadata(path).map_err(no)?;
    if !about.is_file() {
        return Err(No::Files(format!("{} is no plain file", path.display())));
    }
    if about.len() > longest {
        return Err(No::Files(format!(
            "{} has {} bytes, more than the {} that are read",
            path.display(),
            about.len(),
            longest
        )));
    }
    let mut bytes = Vec::new();
    File::open(path).and_then(|file| file.take(longest).read_to_end(&mut bytes)).map_err(no)?;
    Ok(bytes)
}

/// The file that a path leads to, links followed; it need not be there, but its folder must.
pub fn real(path: &Path) -> Answer<PathBuf> {
    if let Ok(real) = path.canonicalize() {
        return Ok(real);
    }
    let name = path.file_name().ok_or_else(|| No::Files(format!("{} names no file", path.display())))?;
    let folder = path.parent().filter(|folder| !folder.as_os_str().is_empty()).unwrap_or_else(|| Path::new("."));
    let folder = folder.canonicalize().map_err(|error| cannot("written", path.display(), error))?;
    Ok(folder.join(name))
}

/// A name beside a path's own.
fn beside(path: &Path, before: &str, after: &str) -> OsString {
    let mut name = OsString::from(before);
    name.push(path.file_name().unwrap_or_default());
    name.push(after);
    name
}

fn folder(path: &Path) -> &Path {
    path.parent().unwrap_or_else(|| Path::new("/"))
}

/// Bytes that stand beside their place, written and synced, and are put there in one step.
pub struct Draft {
    draft: TempPath,
    path: PathBuf,
}

impl Draft {
    /// The path is `real`. A file that is there already keeps its permissions, and must not be read-only; a new one gets
    /// those that the umask leaves.
    pub fn new(path: &Path, bytes: &[u8]) -> Answer<Draft> {
        let no = |error: io::Error| cannot("written", path.display(), error);
        let kept = match fs::metadata(path) {
            Ok(about) if !about.is_file() => return Err(No::Files(format!("{} is no plain file", path.display()))),
            Ok(about) if about.permissions().readonly() => {
                return Err(No::Files(format!("{} is read-only: nothing was changed", path.display())))
            }
            Ok(about) => Some(about.permissions()),
            Err(_) => None,
        };
        Draft::written(path, bytes, kept).map_err(no)
    }

    fn written(path: &Path, bytes: &[u8], kept: Option<Permissions>) -> io::Result<Draft> {
        step("make a draft", path)?;
        // Never more open than the file whose place it takes, while it is written too.
        let (mut file, draft) = made(path, kept.as_ref().map_or(0o666, |kept| kept.mode() & 0o777))?;
        let (first, second) = bytes.split_at(bytes.len() / 2);
        for half in [first, second] {
            step("write a half", path)?;
            file.write_all(half)?;
        }
        if let Some(kept) = kept {
            step("set the permissions", path)?;
            file.set_permissions(kept)?;
        }
        step("sync the draft", path)?;
        file.sync_all()?;
        Ok(Draft { draft, path: path.to_path_buf() })
    }

    /// Puts it in its place.
    pub fn put(self) -> Answer<()> {
        let Draft { draft, path } = self;
        let no = |error: io::Error| cannot("replaced", path.display(), error);
        step("rename the draft", &path).map_err(no)?;
        draft.persist(&path).map_err(|error| no(error.error))?;
        step("sync the folder", &path).map_err(no)?;
        File::open(folder(&path)).and_then(|folder| folder.sync_all()).map_err(no)
    }
}

/// What stands in the name of every draft, after the name of the file that it is of and before a number.
const DRAFT: &str = ".desk-draft-";

/// A new file beside a path, of this mode less the umask; it is removed where it is not put in a place.
fn made(path: &Path, mode: u32) -> io::Result<(File, TempPath)> {
    let mut number = u64::from(std::process::id());
    loop {
        let draft = path.with_file_name(beside(path, ".", &format!("{}{}", DRAFT, number)));
        match OpenOptions::new().write(true).create_new(true).mode(mode).open(&draft) {
            Err(error) if error.kind() == io::ErrorKind::AlreadyExists => number += 1,
            opened => return Ok((opened?, TempPath::from_path(draft))),
        }
    }
}

/// Writes a new file in one step. One that is there is replaced only where that was asked for, and never one of `kept`.
pub fn write_new(path: &Path, bytes: &[u8], replace: bool, kept: &[&Path]) -> Answer<()> {
    let path = real(path)?;
    for other in kept {
        if other.canonicalize().map_or(false, |other| other == path) {
            return Err(No::Use(format!("--out names {}, which is read: name another file", path.display())));
        }
    }
    if path.exists() && !replace {
        return Err(No::Files(format!("{} is there already: name another file, or give --replace", path.display())));
    }
    Draft::new(&path, bytes)?.put()
}

/// A lock on a file, held in a file beside it for as long as this lives. The system frees it when its holder ends.
pub struct Lock {
    path: PathBuf,
    file: File,
}

impl Lock {
    /// Takes the lock, or says who holds it; and removes drafts that a stopped command left. The path is `real`.
    pub fn take(of: &Path) -> Answer<Lock> {
        let lock = Lock::taken(of, &lock_path(of))?;
        for entry in fs::read_dir(folder(of)).into_iter().flatten().flatten() {
            let is_draft = entry.file_name().to_string_lossy().starts_with(&*beside(of, ".", DRAFT).to_string_lossy());
            if is_draft && step("remove an old draft", of).is_ok() {
                let _ = fs::remove_file(entry.path());
            }
        }
        Ok(lock)
    }

    fn taken(of: &Path, path: &Path) -> Answer<Lock> {
        let no = |error: io::Error| cannot("locked", of.display(), error);
        loop {
            step("open the lock", of).map_err(no)?;
            let mut file = OpenOptions::new().read(true).write(true).create(true).open(path).map_err(no)?;
            match file.try_lock_exclusive() {
                Err(error) if error.kind() == io::ErrorKind::WouldBlock => return Err(held(of, &mut file)),
                other => other.map_err(no)?,
            }
            // Its last holder may have removed it between opening and locking: then there is another by that name.
            if fs::metadata(path).ok().map(|about| about.ino()) == file.metadata().ok().map(|about| about.ino()) {
                let says = says(&mut file);
                if !says.is_empty() && !says.starts_with("process ") {
                    return Err(No::Files(format!("{} is in the way: it is no lock of the desk", path.display())));
                }
                let mut lock = Lock { path: path.to_path_buf(), file };
                step("write to the lock", of).and_then(|()| lock.sign()).map_err(no)?;
                return Ok(lock);
            }
        }
    }

    /// Writes down who holds it.
    fn sign(&mut self) -> io::Result<()> {
        let now = humantime::format_rfc3339_seconds(std::time::SystemTime::now());
        self.file.set_len(0)?;
        self.file.rewind()?;
        write!(self.file, "process {} since {}", std::process::id(), now)
    }
}

impl Drop for Lock {
    fn drop(&mut self) {
        if step("remove the lock", &self.path).is_ok() {
            let _ = fs::remove_file(&self.path);
        }
    }
}

fn lock_path(of: &Path) -> PathBuf {
    of.with_file_name(beside(of, ".", ".desk-lock"))
}

/// The sentence on a file that a pass has locked just now. The path is `real`.
pub fn in_use(of: &Path) -> Answer<()> {
    match File::open(lock_path(of)) {
        Ok(mut file) if file.try_lock_shared().is_err() => Err(held(of, &mut file)),
        _ => Ok(()),
    }
}

/// Who holds the lock.
fn held(of: &Path, file: &mut File) -> No {
    let holder = Some(says(file)).filter(|holder| !holder.is_empty());
    let holder = holder.as_deref().unwrap_or("another process");
    let lock = format!("{} is in use: {} holds its lock", of.display(), holder);
    No::Files(format!("{}. Wait until that has ended, and try again", lock))
}

/// What stands in a lock's file.
fn says(file: &mut File) -> String {
    let mut says = Vec::new();
    let _ = file.take(100).read_to_end(&mut says);
    String::from_utf8_lossy(&says).into_owned()
}

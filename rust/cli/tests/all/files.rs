//! Nothing is lost: stops and faults at every step, a full disk, locks, and files that do not fit.

use crate::common::{self, command, desk, is_emulated, status, Room, AS_READ};
use fs2::FileExt;
use std::os::unix::fs::PermissionsExt;
use std::process::Command;

const PASS: [&str; 6] = ["pass", "code.toml", "image", "journal", "--stamp", "2000"];
const RESUME: [&str; 5] = ["pass", "code.toml", "image", "journal", "--resume"];

/// The status of a pass that was stopped on purpose.
const STOPPED: i32 = 99;

/// Image and journal, where there is one.
type State = (Vec<u8>, Option<Vec<u8>>);

fn state(room: &Room) -> State {
    (room.read("image"), Some("journal").filter(|name| room.has(name)).map(|name| room.read(name)))
}

/// The first image: three records, of which the first pass below goes over two.
fn first() -> Vec<u8> {
    [&AS_READ[..], &[0xA5, 0, 0, 0, 0, 0, 0, 0, 26, 0]].concat()
}

/// A room before the pass that is stopped: with no journal, or with that of a pass over the first two records.
fn before(with_journal: bool) -> Room {
    let room = Room::new();
    room.write("image", &first());
    if with_journal {
        room.says(&["pass", "code.toml", "image", "journal", "--stamp", "1000", "--run", "0..2"]);
    }
    room
}

/// What must hold after any stop or fault: before, after, or resumable; put-back gives the first image; and the work can
/// go on. Answers which of the three it was.
fn can_go_on(room: &Room, before: &State, after: &State) -> &'static str {
    let now = state(room);
    if now.1.is_some() {
        room.says(&["put-back", "image", "journal", "--out", "as-read", "--replace"]);
        assert_eq!(room.read("as-read"), first());
        room.remove("as-read");
    }
    let kind = if now == *before {
        room.says(&PASS);
        "before"
    } else if now == *after {
        assert!(room.says(&RESUME).contains("nothing to do"));
        "after"
    } else {
        assert_eq!((&now.0, &now.1), (&before.0, &after.1), "neither before nor after nor resumable");
        room.says_no(&PASS, 3, "--resume");
        room.says_no(&["report", "code.toml", "image", "journal", "--out", "page"], 3, "the journal is ahead of");
        assert_eq!(state(room), now);
        room.says(&RESUME);
        "resumable"
    };
    assert_eq!(state(room), *after);
    assert_eq!(room.names(), ["code.toml", "image", "journal"], "drafts and locks are gone");
    kind
}

/// Without a journal and with one; under the emulator with one alone.
fn beginnings() -> &'static [bool] {
    if is_emulated() {
        println!("LEFT OUT: the steps of a pass that makes its journal, under the emulator");
        return &[true];
    }
    &[false, true]
}

/// Ends or fails the pass at every step; the kinds of states that were met, and what was said at each step.
fn at_every_step(variable: &str, with_journal: bool) -> (Vec<&'static str>, Vec<String>) {
    let done = before(with_journal);
    let as_before = state(&done);
    done.says(&PASS);
    let after = state(&done);
    let (mut kinds, mut says, mut undisturbed) = (Vec::new(), Vec::new(), 0);
    for at in 1.. {
        let room = before(with_journal);
        let stopped = command(&room, &PASS).env(variable, at.to_string()).output().unwrap();
        let said = String::from_utf8_lossy(&stopped.stderr).into_owned();
        assert!(!said.contains("panicked"), "{}", said);
        let expected = if said.is_empty() {
            0
        } else if variable == "DESK_STOP_AT" {
            STOPPED
        } else {
            3
        };
        assert_eq!(status(&stopped), expected, "{}", said);
        kinds.push(can_go_on(&room, &as_before, &after));
        says.push(said);
        // To fail to remove one of two locks is no fault of the pass: after the third time the steps are at their end.
        undisturbed += usize::from(expected == 0);
        if undisturbed == if variable == "DESK_STOP_AT" { 1 } else { 3 } {
            break;
        }
    }
    (kinds, says)
}

#[test]
fn a_stop_at_any_step_loses_nothing() {
    for &with_journal in beginnings() {
        let (kinds, says) = at_every_step("DESK_STOP_AT", with_journal);
        for kind in ["before", "resumable", "after"] {
            assert!(kinds.contains(&kind), "{} was not met in {:?}", kind, kinds);
        }
        // Both drafts are synced before anything is renamed; then the journal, synced; the image last. A new journal has
        // no permissions to keep.
        let replaced = ["make a draft", "write a half", "write a half", "set the permissions", "sync the draft"];
        let made = ["make a draft", "write a half", "write a half", "sync the draft"];
        let put = ["rename the draft", "sync the folder"];
        let of =
            |steps: &[&str], name: &str| steps.iter().map(|step| format!("{} of {}", step, name)).collect::<Vec<_>>();
        let journal = of(if with_journal { &replaced } else { &made }, "journal");
        let expected = [journal, of(&replaced, "image"), of(&put, "journal"), of(&put, "image")].concat();
        let step = |said: &String| Some(said.lines().next()?.split_once(": ")?.1.to_string());
        let steps: Vec<String> = says.iter().filter_map(step).filter(|step| !step.contains("lock")).collect();
        assert_eq!(steps, expected);
    }
}

#[test]
fn a_fault_at_any_step_loses_nothing() {
    for &with_journal in beginnings() {
        let (kinds, says) = at_every_step("DESK_FAIL_AT", with_journal);
        assert!(says.iter().filter(|said| said.contains("on purpose")).count() > 15, "{:?}", says);
        for kind in ["before", "resumable", "after"] {
            assert!(kinds.contains(&kind), "{} was not met in {:?}", kind, kinds);
        }
    }
}

#[test]
fn a_stop_while_resuming_loses_nothing() {
    let done = before(true);
    let as_read = done.read("image");
    done.says(&PASS);
    let after = state(&done);
    for at in 1.. {
        let room = before(true);
        room.write("journal", after.1.as_ref().unwrap());
        room.write("image", &as_read);
        let stopped = command(&room, &RESUME).env("DESK_STOP_AT", at.to_string()).output().unwrap();
        let now = state(&room);
        assert!(now == after || now == (as_read.clone(), after.1.clone()));
        room.says(&RESUME);
        assert_eq!(state(&room), after);
        if status(&stopped) == 0 {
            assert!(at > 5);
            break;
        }
    }
}

#[test]
fn a_stop_leaves_no_half_file() {
    for asked in [
        &["put-back", "image", "journal", "--out", "new"][..],
        &["report", "code.toml", "image", "journal", "--out", "new"],
        &["code", "make", "8", "--out", "new"],
    ] {
        let whole = before(true);
        whole.says(asked);
        for at in 1.. {
            let room = before(true);
            let now = state(&room);
            let stopped = command(&room, asked).env("DESK_STOP_AT", at.to_string()).output().unwrap();
            assert!(!room.has("new") || room.read("new") == whole.read("new"));
            assert_eq!(state(&room), now);
            if status(&stopped) == 0 {
                assert!(at > 5);
                break;
            }
        }
    }
}

/// The longest image, every record of which has a flip.
fn long_image() -> Vec<u8> {
    AS_READ[..10].repeat(6553)
}

/// After a pass on a disk that was too small: as before, or as after, or resumable, and put-back gives the first image.
fn holds_after_a_full_disk(room: &Room, done: bool) {
    let image = room.read("image");
    match room.has("journal") {
        false => assert_eq!(image, long_image()),
        true => {
            room.says(&["put-back", "image", "journal", "--out", "as-read", "--replace"]);
            assert_eq!(room.read("as-read"), long_image());
            room.says(&RESUME);
        }
    }
    assert_eq!(room.has("journal"), done, "both drafts are written before either is put in its place");
}

#[test]
fn a_limit_on_file_size_loses_nothing() {
    let mut met = [0, 0];
    for blocks in [0, 1, 100, 127, 128, 200, 383, 384, 500] {
        let room = Room::new();
        room.write("image", &long_image());
        let pass = command(&room, &PASS);
        let words: Vec<_> = std::iter::once(pass.get_program()).chain(pass.get_args()).collect();
        let script = format!("trap '' XFSZ; ulimit -f {}; exec \"$@\"", blocks);
        let done =
            Command::new("sh").args(["-c", &script, "sh"]).args(words).current_dir(room.path("")).output().unwrap();
        let is_done = status(&done) == 0;
        assert!(is_done || status(&done) == 3, "{:?}", done);
        met[usize::from(is_done)] += 1;
        holds_after_a_full_disk(&room, is_done);
    }
    assert!(met[0] >= 3 && met[1] >= 1, "{:?}", met);
}

#[test]
fn a_full_disk_loses_nothing() {
    // The room itself, and a disk of 128 pages mounted in it for this test alone, of which `filler` leaves some.
    let script = "mkdir disk out && mount -t tmpfs -o size=512k tmpfs disk || exit 77
        cp code.toml image disk && head -c $((4096 * (110 - $1))) /dev/zero >disk/filler; shift
        cd disk; \"$@\"; status=$?; cd ..; rm disk/filler; cp disk/* out; exit $status";
    let mut met = [0, 0];
    for free in [0, 1, 2, 10, 16, 17, 30, 48, 49, 64, 65, 66, 67, 70, 90] {
        let room = Room::new();
        room.write("image", &long_image());
        let pass = command(&room, &PASS);
        let words: Vec<_> = std::iter::once(pass.get_program()).chain(pass.get_args()).collect();
        let mut mounted = Command::new("unshare");
        mounted.args(["-rm", "sh", "-c", script, "sh", &free.to_string()]).args(words).current_dir(room.path(""));
        let done = mounted.output().unwrap();
        if status(&done) == 77 || String::from_utf8_lossy(&done.stderr).contains("unshare") {
            println!("LEFT OUT: a full disk, since nothing can be mounted here; the limit on file size stands for it");
            return;
        }
        let is_done = status(&done) == 0;
        assert!(is_done || status(&done) == 3, "{} pages: {:?}", free, done);
        met[usize::from(is_done)] += 1;
        let after = Room::new();
        for name in ["image", "journal"] {
            if room.path("out").join(name).exists() {
                after.write(name, &std::fs::read(room.path("out").join(name)).unwrap());
            }
        }
        holds_after_a_full_disk(&after, is_done);
    }
    assert!(met[0] >= 5 && met[1] >= 2, "{:?}", met);
}

#[test]
fn a_lock_says_who_holds_it() {
    let room = before(true);
    let now = state(&room);
    for name in [".image.desk-lock", ".journal.desk-lock"] {
        let lock = std::fs::File::create(room.path(name)).unwrap();
        lock.lock_exclusive().unwrap();
        room.write(name, b"process 4711 since 2026-11-15T12:00:00Z");
        room.says_no(&PASS, 3, "process 4711 since 2026-11-15T12:00:00Z holds its lock");
        if name == ".image.desk-lock" {
            room.says_no(&["put-back", "image", "journal", "--out", "new"], 3, "process 4711");
            room.says_no(&["report", "code.toml", "image", "journal", "--out", "new"], 3, "process 4711");
        }
        assert_eq!(state(&room), now);
        drop(lock);
    }
    // A file by that name which is no lock stays.
    room.write(".image.desk-lock", b"a letter");
    room.says_no(&PASS, 3, "it is no lock of the desk");
    assert_eq!(room.read(".image.desk-lock"), b"a letter");
    // A lock whose holder was stopped is free.
    room.write(".image.desk-lock", b"process 4711 since 2026-11-15T12:00:00Z");
    room.says(&PASS);
    assert_eq!(room.names(), ["code.toml", "image", "journal"]);
}

#[test]
fn passes_at_once_do_not_mix() {
    let room = before(false);
    let passes: Vec<_> = (0..16)
        .map(|_| {
            command(&room, &PASS)
                .stderr(std::process::Stdio::piped())
                .stdout(std::process::Stdio::null())
                .spawn()
                .unwrap()
        })
        .collect();
    let done: Vec<_> = passes.into_iter().map(|pass| pass.wait_with_output().unwrap()).collect();
    let count = |status: i32| done.iter().filter(|done| done.status.code() == Some(status)).count();
    assert_eq!(count(0) + count(3), 16);
    assert!(count(0) >= 1);
    // The first enters all three records, each later one that which stays as read.
    assert_eq!(room.read("journal").len(), 30 * (2 + count(0)));
    room.says(&["put-back", "image", "journal", "--out", "as-read"]);
    assert_eq!(room.read("as-read"), first());
}

#[test]
fn a_read_only_file_stays() {
    for name in ["image", "journal"] {
        let room = before(true);
        let now = state(&room);
        std::fs::set_permissions(room.path(name), PermissionsExt::from_mode(0o444)).unwrap();
        room.says_no(&PASS, 3, "is read-only");
        assert_eq!(state(&room), now);
        assert_eq!(room.names(), ["code.toml", "image", "journal"]);
    }
}

#[test]
fn permissions_and_links_stay() {
    let room = before(true);
    std::fs::set_permissions(room.path("image"), PermissionsExt::from_mode(0o640)).unwrap();
    std::fs::rename(room.path("journal"), room.path("real")).unwrap();
    std::os::unix::fs::symlink("real", room.path("journal")).unwrap();
    room.says(&PASS);
    assert_eq!(std::fs::metadata(room.path("image")).unwrap().permissions().mode() & 0o777, 0o640);
    assert!(std::fs::symlink_metadata(room.path("journal")).unwrap().file_type().is_symlink());
    assert_eq!(room.read("real").len(), 4 * 30);
}

/// The permissions of a file.
fn mode(room: &Room, name: &str) -> u32 {
    std::fs::metadata(room.path(name)).unwrap().permissions().mode() & 0o777
}

/// A question that is asked under this umask.
fn under(umask: &str, room: &Room, asked: &[&str]) -> Command {
    let asked = command(room, asked);
    let mut under = Command::new("sh");
    under.args(["-c", "umask $0; exec \"$@\"", umask]).arg(asked.get_program()).args(asked.get_args());
    under.current_dir(room.path(""));
    under
}

#[test]
fn new_files_keep_to_the_umask() {
    for (umask, expected) in [("022", 0o644), ("027", 0o640), ("077", 0o600), ("000", 0o666)] {
        let room = before(false);
        for asked in [
            &PASS[..],
            &["put-back", "image", "journal", "--out", "as-read"],
            &["report", "code.toml", "image", "journal", "--out", "page"],
            &["code", "make", "8", "--out", "made"],
        ] {
            assert_eq!(status(&under(umask, &room, asked).output().unwrap()), 0);
        }
        for name in ["journal", "as-read", "page", "made"] {
            assert_eq!(mode(&room, name), expected, "{} under {}", name, umask);
        }
    }
}

#[test]
fn a_draft_is_no_more_open_than_its_file() {
    let mut met = 0;
    for at in 1.. {
        let room = before(true);
        for name in ["image", "journal"] {
            std::fs::set_permissions(room.path(name), PermissionsExt::from_mode(0o600)).unwrap();
        }
        let stopped = under("000", &room, &PASS).env("DESK_STOP_AT", at.to_string()).output().unwrap();
        for draft in room.names().iter().filter(|name| name.contains("desk-draft")) {
            assert_eq!(mode(&room, draft), 0o600, "{} before step {}", draft, at);
            met += 1;
        }
        if status(&stopped) == 0 {
            break;
        }
    }
    assert!(met > 10, "{}", met);
}

#[test]
fn files_that_do_not_fit_are_3_and_stay() {
    let room = before(true);
    let (image, journal) = (room.read("image"), room.read("journal"));
    room.write("torn", &journal[..59]);
    room.write("wide", &[0; 46]);
    room.write("changed", &[&[0xA7], &image[1..]].concat());
    room.write("short", &image[..10]);
    room.write("of-two", &[&journal[..], &journal[..]].concat());
    std::fs::create_dir(room.path("folder")).unwrap();
    let cases: &[(&[&str], &str)] = &[
        (&["pass", "none.toml", "image", "journal"], "none.toml cannot be read: No such file"),
        (&["pass", "code.toml", "none", "journal"], "none is not there"),
        (&["pass", "code.toml", "image", "none/journal"], "cannot be written"),
        (&["pass", "code.toml", "image", "torn"], "after 1 whole entry there are 29 bytes over. Its end is missing"),
        (&["pass", "code.toml", "image", "wide"], "It is one of edition 128"),
        (&["journal", "wide"], "It is one of edition 128"),
        (&["journal", "journal", "--edition", "128"], "It is one of edition 64"),
        (&["journal", "none"], "No such file"),
        (&["journal", "folder"], "is no plain file"),
        (&["journal", "/dev/zero"], "is no plain file"),
        (&["pass", "code.toml", "folder", "journal"], "is no plain file"),
        (&["pass", "code.toml", "changed", "journal"], "record 0 holds bytes that no entry left"),
        (&["pass", "code.toml", "changed", "journal", "--resume"], "record 0 holds bytes that no entry left"),
        (&["report", "code.toml", "changed", "journal", "--out", "page"], "record 0 holds bytes that no entry left"),
        (&["pass", "code.toml", "short", "journal"], "record 1 holds bytes that no entry left"),
        (&["pass", "code.toml", "image", "of-two"], "entry 2 found its record with other bytes"),
        (&["put-back", "image", "journal", "--out", "torn"], "is there already"),
        (&["put-back", "image", "journal", "--out", "folder/none/file"], "cannot be written"),
        (&["code", "judge", "image"], "no code file"),
    ];
    let names = room.names();
    for (asked, words) in cases {
        room.says_no(asked, 3, words);
    }
    assert_eq!((room.read("image"), room.read("journal"), room.names()), (image, journal, names));
}

#[test]
fn a_file_of_another_edition() {
    let room = Room::new();
    room.says(&["code", "make", "128", "--edition", "128", "--out", "wide.toml"]);
    room.write("wide", &[0; 36]);
    room.says_no(&["pass", "code.toml", "wide", "journal"], 1, "it fits edition 128");
    room.says_no(&["pass", "wide.toml", "image", "journal"], 1, "it fits edition 64");
    let mut image = vec![0; 36];
    image[17] = 1;
    room.write("wide", &image);
    room.says(&["pass", "wide.toml", "wide", "journal", "--stamp", "7"]);
    assert_eq!((room.read("wide"), room.read("journal").len()), (vec![0; 36], 46));
    assert!(
        common::json(&room, &["journal", "journal", "--edition", "128"])["entries"][0]["turned"][0] == "check bit 8"
    );
    room.says(&["put-back", "wide", "journal", "--edition", "128", "--out", "as-read"]);
    assert_eq!(room.read("as-read"), image);
    assert_eq!(status(&desk(&room, &["report", "wide.toml", "wide", "journal", "--out", "page"])), 0);
}

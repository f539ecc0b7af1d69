//! A folder to work in, and the program started in it.

use std::path::PathBuf;
use std::process::{Command, Output};

/// Document 01's worked image: one flip, and two.
pub const AS_READ: [u8; 20] = [0xA4, 0, 0, 0, 0, 0, 0, 0, 27, 0, 0xA6, 0, 0, 0, 0, 0, 0, 0, 27, 0];

/// A folder with `code.toml`, the sample code, and `image`, the worked image.
pub struct Room(tempfile::TempDir);

impl Room {
    pub fn new() -> Room {
        let room = Room(tempfile::tempdir().unwrap());
        room.write("code.toml", include_bytes!("../../../../docs/sample.toml"));
        room.write("image", &AS_READ);
        room
    }

    pub fn path(&self, name: &str) -> PathBuf {
        self.0.path().join(name)
    }

    pub fn read(&self, name: &str) -> Vec<u8> {
        std::fs::read(self.path(name)).unwrap()
    }

    pub fn write(&self, name: &str, bytes: &[u8]) {
        std::fs::write(self.path(name), bytes).unwrap();
    }

    pub fn remove(&self, name: &str) {
        std::fs::remove_file(self.path(name)).unwrap();
    }

    pub fn has(&self, name: &str) -> bool {
        self.path(name).exists()
    }

    pub fn names(&self) -> Vec<String> {
        let mut names: Vec<String> = std::fs::read_dir(self.0.path())
            .unwrap()
            .map(|entry| entry.unwrap().file_name().into_string().unwrap())
            .collect();
        names.sort();
        names
    }

    /// What a question that is done prints.
    pub fn says(&self, asked: &[&str]) -> String {
        let done = desk(self, asked);
        assert_eq!(status(&done), 0, "{:?}: {:?}", asked, done);
        String::from_utf8(done.stdout).unwrap()
    }

    /// The sentence of a question that is not done, which has these words; its lines are joined.
    pub fn says_no(&self, asked: &[&str], expected: i32, words: &str) -> String {
        let done = desk(self, asked);
        let says = String::from_utf8_lossy(&done.stderr).split_whitespace().collect::<Vec<_>>().join(" ");
        assert_eq!(status(&done), expected, "{:?}: {}", asked, says);
        assert!(says.contains(words), "{:?}: {} is not in {}", asked, words, says);
        assert!(done.stdout.is_empty() || asked.contains(&"--json"), "{:?}", done);
        says
    }

    /// The files that a question's example wants.
    pub fn prepare_for(&self, question: &[&str]) {
        if matches!(question, ["journal"] | ["put-back"] | ["report"]) {
            self.says(&["pass", "code.toml", "image", "journal"]);
        }
        if question == ["pass"] {
            self.write("image", &AS_READ.repeat(50));
        }
    }
}

/// Whether the program runs under an emulator, where every start takes longer.
pub fn is_emulated() -> bool {
    std::env::var_os("DESK_EMULATED").is_some()
}

/// The program in a room, under the emulator where there is one.
pub fn command(room: &Room, asked: &[&str]) -> Command {
    let program = env!("CARGO_BIN_EXE_desk");
    let mut command = match std::env::var("CARGO_TARGET_X86_64_UNKNOWN_LINUX_GNU_RUNNER") {
        Ok(runner) if !runner.is_empty() => {
            let mut command = Command::new(runner);
            command.arg(program);
            command
        }
        _ => Command::new(program),
    };
    command.args(asked).current_dir(room.0.path()).env_remove("DESK_STOP_AT").env_remove("DESK_FAIL_AT");
    command
}

pub fn desk(room: &Room, asked: &[&str]) -> Output {
    command(room, asked).output().unwrap()
}

/// The exit status, which a stopped program does not have.
pub fn status(done: &Output) -> i32 {
    done.status.code().unwrap_or(-1)
}

/// The answer in JSON of a question that is done.
pub fn json(room: &Room, asked: &[&str]) -> serde_json::Value {
    serde_json::from_str(&room.says(&[&["--json"], asked].concat())).unwrap()
}

/// The words of a line as a shell would have them: apart by spaces, or between quotes.
pub fn words(line: &str) -> Vec<String> {
    let parts = line.split('\'').enumerate();
    parts
        .flat_map(|(i, part)| match i % 2 {
            0 => part.split_whitespace().map(str::to_string).collect(),
            _ => vec![part.to_string()],
        })
        .collect()
}

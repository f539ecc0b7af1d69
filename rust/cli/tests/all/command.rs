//! The questions, their answers and their refusals.

use crate::common::{self, desk, json, status, Room};

/// Every question, as it is asked for help.
const QUESTIONS: &[&[&str]] = &[
    &[],
    &["code"],
    &["code", "make"],
    &["code", "judge"],
    &["code", "show"],
    &["word"],
    &["word", "write"],
    &["word", "read"],
    &["word", "explain"],
    &["word", "recover"],
    &["pass"],
    &["journal"],
    &["put-back"],
    &["sheet"],
    &["bytes"],
    &["bytes", "write"],
    &["bytes", "read"],
    &["report"],
];

#[test]
fn every_help_has_an_example_and_the_examples_run() {
    for question in QUESTIONS {
        let room = Room::new();
        let asked = desk(&room, &[question, &["--help"][..]].concat());
        assert_eq!(status(&asked), 0, "{:?}", question);
        let help = String::from_utf8(asked.stdout).unwrap();
        assert!(help.lines().all(|line| line.chars().count() <= 80), "{}", help);
        let examples: Vec<&str> = help.lines().skip_while(|line| !line.starts_with("Example")).skip(1).collect();
        assert!(!examples.is_empty(), "{:?} has no example", question);
        if examples[0].contains("code make") {
            room.remove("code.toml");
        }
        room.prepare_for(question);
        for example in examples {
            let words = common::words(example.trim().strip_prefix("desk ").expect(example));
            let words: Vec<&str> = words.iter().map(String::as_str).collect();
            let done = desk(&room, &words);
            assert_eq!(status(&done), 0, "{}: {:?}", example, done);
            let text = String::from_utf8(done.stdout).unwrap();
            assert!(text.lines().all(|line| line.chars().count() <= 80), "{}", text);
        }
    }
}

#[test]
fn the_worked_image() {
    let room = Room::new();
    let passed = json(&room, &["pass", "code.toml", "image", "journal", "--stamp", "1000"]);
    assert_eq!(
        passed["tally"],
        serde_json::json!({ "clean": 0, "data": 1, "check": 0, "even": 1, "odd": 0, "stray": 0 })
    );
    assert_eq!(room.read("image")[..10], [0xA5, 0, 0, 0, 0, 0, 0, 0, 27, 0]);
    assert_eq!(room.read("journal").len(), 60);
    let told = room.says(&["journal", "journal"]);
    for words in [
        "entry 0: record 0, 1970-01-01 00:16:40 UTC, stamp 1000",
        "one data bit flipped (verdict 1, syndrome 1C)",
        "data bit 0 turned from 0 to 1",
        "before  A4 00 00 00 00 00 00 00  1B 00\n  after   A5 00 00 00 00 00 00 00  1B 00\n           ^\n",
        "entry 1: record 1",
        "two flips, or another even count (verdict 3, syndrome 6)\n  done    left as read",
    ] {
        assert!(told.contains(words), "{} is not in {}", words, told);
    }
    let second = json(&room, &["pass", "code.toml", "image", "journal", "--run", "1..2"]);
    assert_eq!((second["used"].as_u64(), second["entries"][0]["record"].as_u64()), (Some(3), Some(1)));
    assert!(second["stamp"].as_u64() > Some(1_700_000_000), "the stamp is now");
    room.says(&["put-back", "image", "journal", "--out", "as-read"]);
    assert_eq!(room.read("as-read"), common::AS_READ);
}

#[test]
fn words_in_hexadecimal_and_places_by_name() {
    let room = Room::new();
    assert_eq!(room.says(&["word", "write", "code.toml", "A5"]), "data A5  check 1B\n");
    assert!(room.says(&["word", "read", "code.toml", "A5", "1A"]).contains("check bit 0 is turned"));
    let explained = room.says(&["word", "explain", "code.toml", "0xa6", "1b"]);
    assert!(explained.contains("data bit 0 and data bit 1\n  data bit 3 and check bit 4"), "{}", explained);
    for bad in ["d0,d1,c1", "data bit 0,data bit 1,check bit 1", "0,1,9", "Check-1,D0,data 1"] {
        let recovered = json(&room, &["word", "recover", "code.toml", "A6", "19", "--bad", bad]);
        assert_eq!((&recovered["written"]["data"], &recovered["written"]["check"]), (&"A5".into(), &"1B".into()));
    }
    let shown = room.says(&["code", "show", "code.toml"]);
    for words in [
        "row 4  111111..",
        "row 4  ....1          7       +6",
        "cards of 2: proof",
        "cards of 3: weak at card 1, data bits 3, 4 and 5",
    ] {
        assert!(shown.contains(words), "{} is not in {}", words, shown);
    }
    assert!(room.says(&["bytes", "read", "223C0008"]).contains("data byte 6 was wrong"));
    assert!(room
        .says(&["sheet", "--hours", "6", "--devices", "4", "--words", "8", "--mended", "1", "--band", "0.2..0.3"])
        .contains("outside the band"));
}

#[test]
fn a_code_that_is_made_is_a_code_file_of_either_edition() {
    let room = Room::new();
    for (k, edition) in [("16", "64"), ("128", "128")] {
        room.says(&["code", "make", k, "--edition", edition, "--out", "made.toml", "--replace"]);
        let made = json(&room, &["code", "show", "made.toml"]);
        assert_eq!((made["k"].to_string(), made["edition"].to_string()), (k.to_string(), edition.to_string()));
    }
    room.write("rows.toml", b"family = \"rows\"\nedition = 64\nr = 5\nrows = [4]\ncolumns = [28, 26, 25, 22, 21, 19, 30, 29, 17, 18, 20, 24, 16]\n");
    assert_eq!(room.says(&["word", "write", "rows.toml", "A5"]), "data A5  check 1B\n");
}

#[test]
fn either_corner_of_the_check_columns_may_be_the_empty_one() {
    let room = Room::new();
    let of = |columns: &str, row: usize| {
        format!("family = \"rows\"\nedition = 64\nr = 4\nrows = [{}]\ncolumns = [{}]\n", row, columns)
    };
    for (columns, row) in [("7, 1, 3, 5, 9", 0), ("14, 9, 10, 12, 8", 3)] {
        room.write("rows.toml", of(columns, row).as_bytes());
        room.says(&["code", "judge", "rows.toml"]);
    }
    // Column 1 of them has a one in row 3, and the others have one in row 0.
    room.write("rows.toml", of("7, 1, 11, 5, 9", 0).as_bytes());
    let says = room.says_no(&["code", "judge", "rows.toml"], 1, "by reason 3 (rows.toml, line 5)");
    for words in ["none has a one in a row of a lower number than its own,", "or none in a row of a higher one."] {
        assert!(says.contains(words), "{} is not in {}", words, says);
    }
}

#[test]
fn a_wrong_code_file_gets_line_and_reason() {
    let room = Room::new();
    let cases: &[(&str, i32, &str)] = &[
        ("family = \"hsiao\"\nedition = 64\nr = 5\ncolumns = [\n28,\n26,\n24]\n", 1, "refused 4: column 2 has an even count of ones (f.toml, line 7, 0b11000)"),
        ("family = \"hsiao\"\nedition = 64\nr = 5\ncolumns = [28,\n28]\n", 1, "refused 6: column 1 equals an earlier one (f.toml, line 5, 0b11100)"),
        ("family = \"hsiao\"\nedition = 64\nr = 5\ncolumns = [28,\n32]\n", 1, "refused 3: column 1 is 2^r or more (f.toml, line 5, 0b100000)"),
        ("family = \"hsiao\"\nedition = 64\nr = 5\ncolumns = [\n\n16]\n", 1, "refused 5: column 0 has a single one (f.toml, line 6, 0b10000)"),
        ("family = \"hsiao\"\nedition = 64\nr = 2\ncolumns = [28]\n", 1, "(f.toml, line 3)"),
        ("family = \"hsiao\"\nedition = 64\nr = 5\ncolumns = []\n", 1, "(f.toml, line 4, 0 columns)"),
        ("family = \"rows\"\nedition = 64\nr = 5\nrows = []\ncolumns = [28, 26, 25, 22, 21, 19, 30, 29, 17, 18, 20, 24, 16]\n", 1, "reason 1 (f.toml, line 4)"),
        ("family = \"hsiao\"\nedition = 64\nr = 5\ncolums = [28]\n", 3, "line 4: unknown field `colums`"),
        ("family = \"hsiao\"\nedition = 64\ncolumns = [28]\n", 3, "missing field `r`"),
        ("family = \"hsiao\"\nedition = 64\nr =\ncolumns = [28]\n", 3, "line 3: expected a value"),
        ("family = \"hsiao\"\nedition = 65\nr = 5\ncolumns = [28]\n", 3, "line 2: edition is 64 or 128"),
        ("family = \"other\"\nedition = 64\nr = 5\ncolumns = [28]\n", 3, "line 1: family is"),
        ("family = \"rows\"\nedition = 64\nr = 5\ncolumns = [28]\n", 3, "line 1: family \"rows\" wants `rows`"),
        ("family = \"hsiao\"\nedition = 64\nrows = [1]\nr = 5\ncolumns = [28]\n", 3, "line 3: rows belong to"),
        ("family = \"hsiao\"\nedition = 64\nr = -5\ncolumns = [28]\n", 3, "line 3: r is a count"),
        ("family = \"hsiao\"\nedition = 64\nr = 5\ncolumns = [28,\n70000]\n", 3, "line 5: a column has at most 16"),
        ("family = \"hsiao\"\nedition = 64\nr = 5\ncolumns = [28,\n\"7\"]\n", 3, "line 5: invalid type"),
        ("family = \"rows\"\nedition = 64\nr = 5\nrows = [3,\n16]\ncolumns = [28]\n", 3, "line 5: a row has a number from 0 to 15"),
    ];
    for (text, expected, reason) in cases {
        room.write("f.toml", text.as_bytes());
        room.says_no(&["code", "judge", "f.toml"], *expected, reason);
    }
    room.write("f.toml", b"\xff\xfe");
    room.says_no(&["code", "judge", "f.toml"], 3, "no text in UTF-8");
}

/// Questions that the desk refuses, each by its number, in the room of the test below.
fn refused() -> Vec<(usize, Vec<&'static str>)> {
    let sheet =
        |figure: &'static str| vec!["sheet", "--devices", "4", "--words", "8", "--mended", "1", "--hours", figure];
    vec![
        (1, vec!["code", "make", "65"]),
        (2, vec!["code", "make", "8", "2"]),
        (15, vec!["code", "make", "12", "5"]),
        (7, vec!["word", "write", "code.toml", "100"]),
        (7, vec!["word", "write", "code.toml", "10000000000000000"]),
        (7, vec!["word", "read", "code.toml", "A5", "20"]),
        (7, vec!["word", "read", "code.toml", "A5", "10000"]),
        (7, vec!["bytes", "write", "200000"]),
        (7, vec!["bytes", "read", "10000000000000000"]),
        (11, vec!["word", "explain", "code.toml", "A6", "1B", "--limit", "3"]),
        (12, vec!["pass", "code.toml", "odd", "new"]),
        (12, vec!["pass", "code.toml", "long", "new"]),
        (14, vec!["pass", "code.toml", "image", "journal", "--run", "0..3"]),
        (14, vec!["pass", "code.toml", "image", "journal", "--run", "2..1"]),
        (16, vec!["pass", "code.toml", "image", "journal", "--stamp", "999"]),
        (18, vec!["put-back", "changed", "journal", "--out", "new"]),
        (19, sheet("0")),
        (19, sheet("-1")),
        (19, sheet("NaN")),
        (22, vec!["word", "recover", "code.toml", "A6", "19", "--bad", "d0,d1,c1,c2"]),
        (22, vec!["word", "recover", "code.toml", "A6", "19", "--bad", "d8"]),
        (22, vec!["word", "recover", "code.toml", "A6", "19", "--bad", "c5"]),
        (23, vec!["word", "recover", "code.toml", "A6", "1B"]),
    ]
}

#[test]
fn a_refusal_has_number_and_what_to_do() {
    let room = Room::new();
    room.write("odd", &[0; 19]);
    room.write("long", &vec![0; 65_540]);
    room.write("changed", &[1; 20]);
    room.says(&["pass", "code.toml", "image", "journal", "--stamp", "1000"]);
    for (number, asked) in refused() {
        let says = room.says_no(&asked, 1, &format!("refused {}: ", number));
        assert!(says.contains("What to do: "), "{}", says);
        let told = desk(&room, &[&["--json"][..], &asked].concat());
        let told: serde_json::Value = serde_json::from_slice(&told.stdout).unwrap();
        assert_eq!((told["refused"].as_u64(), told["status"].as_u64()), (Some(number as u64), Some(1)));
    }
    assert!(!room.has("new"), "a refusal writes nothing");
}

#[test]
fn wrong_use_is_2() {
    let room = Room::new();
    for asked in [
        &["nothing"][..],
        &["pass", "code.toml"],
        &["word", "read", "code.toml", "XY", "1B"],
        &["pass", "code.toml", "image", "./image"],
        &["pass", "code.toml", "image", "code.toml"],
        &["pass", "code.toml", "image", "journal", "--run", "1-2"],
        &["pass", "code.toml", "image", "journal", "--stamp", "tomorrow"],
        &["pass", "code.toml", "image", "journal", "--resume", "--stamp", "1"],
        &["journal", "journal", "--edition", "65"],
    ] {
        assert_eq!(status(&desk(&room, asked)), 2, "{:?}", asked);
    }
    room.says(&["pass", "code.toml", "image", "journal"]);
    for out in ["image", "journal", "./image", "code.toml"] {
        let asked = ["report", "code.toml", "image", "journal", "--out", out, "--replace"];
        room.says_no(&asked, 2, "which is read");
    }
}

#[test]
fn an_answer_that_cannot_be_printed_is_3() {
    let room = Room::new();
    let full = std::fs::OpenOptions::new().write(true).open("/dev/full").unwrap();
    let done = common::command(&room, &["code", "make", "64"]).stdout(full).output().unwrap();
    assert_eq!(status(&done), 3);
}

//! The report in headless Chromium: the page's own counts are those of the tally.

use crate::common::{json, Room, AS_READ};
use std::process::Command;

/// The page as the browser has it after loading. It is not asked over any network.
fn dom(room: &Room, name: &str) -> String {
    let page = format!("file://{}", room.path(name).display());
    let flags = ["--headless", "--no-sandbox", "--disable-gpu", "--host-resolver-rules=MAP * ~NOTFOUND", "--dump-dom"];
    let done = Command::new("chromium-headless-shell").args(flags).arg(page).output();
    let done = done.expect("chromium-headless-shell, which rust/set-up installs");
    assert!(done.status.success(), "{}", String::from_utf8_lossy(&done.stderr));
    String::from_utf8(done.stdout).unwrap()
}

/// The text of the element of this id, as a number.
fn count(dom: &str, id: &str) -> u64 {
    let rest = dom.split_once(&format!("id=\"{}\"", id)).unwrap_or_else(|| panic!("no {}", id)).1;
    let text = rest.split_once('>').unwrap().1.split('<').next().unwrap();
    text.replace(',', "").parse().unwrap()
}

fn compare(records: usize) {
    let room = Room::new();
    let kinds: Vec<[u8; 10]> = vec![
        AS_READ[..10].try_into().unwrap(),
        AS_READ[10..].try_into().unwrap(),
        [0xA5, 0, 0, 0, 0, 0, 0, 0, 27, 0],
        [0xA5, 0, 0, 0, 0, 0, 0, 0, 26, 0],
        [0xA5, 1, 0, 0, 0, 0, 0, 0, 27, 0],
        [0xA2, 0, 0, 0, 0, 0, 0, 0, 27, 0],
        [0xA5, 0, 0, 0, 0, 0, 0, 0, 27, 0],
    ];
    let image: Vec<u8> = (0..records).flat_map(|record| kinds[record * record % 11 % kinds.len()]).collect();
    room.write("image", if records == 2 { &AS_READ } else { &image });
    let passed = json(&room, &["pass", "code.toml", "image", "journal", "--stamp", "1000"]);
    room.says(&["report", "code.toml", "image", "journal", "--out", "page.html"]);
    let dom = dom(&room, "page.html");
    let mut all = 0;
    for (name, expected) in passed["tally"].as_object().unwrap() {
        let expected = expected.as_u64().unwrap();
        assert_eq!(count(&dom, &format!("count-{}", name)), expected, "{}", name);
        let cells = dom.matches(&format!("<use href=\"#{}\" x=", name)).count() as u64;
        assert_eq!(cells, expected, "cells of {}", name);
        all += expected;
    }
    assert_eq!((count(&dom, "count-all"), all), (records as u64, records as u64));
    let entries = passed["entries"].as_array().unwrap();
    // A reader finds a record by its number.
    let found: Vec<&str> = dom.split("<article id=\"r").skip(1).filter_map(|rest| rest.split('"').next()).collect();
    let numbers: Vec<String> = entries.iter().map(|entry| entry["record"].to_string()).collect();
    assert_eq!(found, numbers);
    let stray = passed["tally"]["stray"].as_u64().unwrap();
    assert_eq!(dom.matches("no place of the code: data bit 8.").count() as u64, stray);
    assert!(!dom.contains("http") && !dom.contains("<script"), "the page needs nothing else");
}

#[test]
fn the_counts_of_two_records() {
    compare(2);
}

#[test]
fn the_counts_of_the_longest_image() {
    compare(6553);
}

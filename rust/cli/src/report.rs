//! `desk report`: one page, which needs nothing else, of plain HTML, CSS and SVG. The same files give the same page.

use crate::answers::{counted, grouped, when, Answer, Said};
use crate::args::Report;
use crate::code_file::{self, place_name, AnyCode};
use crate::files;
use crate::journal::{self, spaced, Entry, Standing};
use crate::pass::{ahead, load_image, meaning, name, passed};
use crate::progress::Progress;
use desk::Verdict;
use serde_json::{json, Value};
use std::collections::BTreeMap;
use std::fmt::Write;

/// What became of a record.
#[derive(Clone, Copy, PartialEq, Eq)]
enum Became {
    /// Its last entry's verdict, or clean with no entry.
    Noted(Verdict),
    /// Not clean, and no entry: no pass was over it.
    Open,
    /// Its last entry has a verdict that the desk does not have.
    Unknown,
}

impl Became {
    fn all() -> Vec<Became> {
        Verdict::ALL.iter().map(|&verdict| Became::Noted(verdict)).chain([Became::Open, Became::Unknown]).collect()
    }

    fn name(self) -> &'static str {
        match self {
            Became::Noted(verdict) => name(verdict),
            Became::Open => "open",
            Became::Unknown => "unknown",
        }
    }

    fn meaning(self) -> &'static str {
        match self {
            Became::Noted(verdict) => meaning(verdict),
            Became::Open => "not clean, and no pass was over it yet",
            Became::Unknown => "entered with a verdict that the desk does not have",
        }
    }

    /// How its cell is drawn, so that no colour is needed to tell it.
    fn mark(self) -> &'static str {
        match self {
            Became::Noted(Verdict::Clean) | Became::Noted(Verdict::Data) => "",
            Became::Noted(Verdict::Check) => r#"<path d="M2 4.5h5"/>"#,
            Became::Noted(Verdict::Even) => r#"<path d="M2 7L7 2"/>"#,
            Became::Noted(Verdict::Odd) => r#"<path d="M2 7L7 2M2 2l5 5"/>"#,
            Became::Noted(Verdict::Stray) => r#"<path d="M4.5 2v5M2 4.5h5"/>"#,
            Became::Open | Became::Unknown => r#"<path d="M3 3h3v3h-3z"/>"#,
        }
    }
}

/// What the page is about.
struct About<'a> {
    code: &'a AnyCode,
    title: String,
    entries: &'a [Entry<'a>],
    became: Vec<Became>,
}

pub fn report(asked: &Report) -> Answer<Said> {
    let code = code_file::load(&asked.code)?;
    let edition = code.edition();
    files::in_use(&files::real(&asked.image)?)?;
    let image = load_image(&asked.image, edition)?;
    let journal = journal::load(&asked.journal, edition, false)?;
    let entries = journal::entries(&journal, edition);
    match journal::standing(&image, &entries, edition) {
        Standing::Level => {}
        Standing::Behind(count) => return Err(ahead(&asked.image, entries.len() - count)),
        standing => return Err(journal::apart(&standing, &asked.image, &asked.journal)),
    }
    let became = became(&code, &image, &entries)?;
    let title = asked.image.file_name().unwrap_or_default().to_string_lossy().into_owned();
    let about = About { code: &code, title, entries: &entries, became };
    let page = page(&about);
    files::write_new(&asked.out.out, page.as_bytes(), asked.out.replace, &[&asked.code, &asked.image, &asked.journal])?;
    let text = format!(
        "{}: {}, {}\n",
        asked.out.out.display(),
        counted(about.became.len(), "record"),
        counted(entries.len(), "entry")
    );
    let json = json!({ "out": asked.out.out.display().to_string(), "records": about.became.len(), "entries": entries.len(),
        "counts": about.counts().iter().map(|&(kind, count)| (kind.name().to_string(), json!(count))).collect::<Value>() });
    Ok(Said { text, json, notes: Vec::new() })
}

/// What became of every record: by its last entry, else by a pass over a copy.
fn became(code: &AnyCode, image: &[u8], entries: &[Entry]) -> Answer<Vec<Became>> {
    let (mut copy, mut scratch) = (image.to_vec(), Vec::new());
    let mut became = vec![Became::Noted(Verdict::Clean); image.len() / code.edition().record()];
    passed(code, &mut copy, 0..became.len(), &mut scratch, 0, 0)?;
    for entry in journal::entries(&scratch, code.edition()) {
        became[entry.record] = Became::Open;
    }
    for entry in entries {
        if let Some(record) = became.get_mut(entry.record) {
            *record = Verdict::of(entry.verdict.into()).map_or(Became::Unknown, Became::Noted);
        }
    }
    Ok(became)
}

impl About<'_> {
    /// How many records became what; the kinds that no pass has are there only where there are some.
    fn counts(&self) -> Vec<(Became, usize)> {
        let count = |kind: Became| self.became.iter().filter(|&&became| became == kind).count();
        let kinds = Became::all().into_iter().map(|kind| (kind, count(kind)));
        kinds.filter(|&(kind, count)| count > 0 || matches!(kind, Became::Noted(_))).collect()
    }

    /// The entries of each record, by its number, with their own numbers.
    fn by_record(&self) -> BTreeMap<usize, Vec<(usize, &Entry<'_>)>> {
        let mut records: BTreeMap<usize, Vec<(usize, &Entry)>> = BTreeMap::new();
        for (number, entry) in self.entries.iter().enumerate() {
            records.entry(entry.record).or_default().push((number, entry));
        }
        records
    }
}

fn page(about: &About) -> String {
    let code = about.code;
    let mut page = format!(
        "<!DOCTYPE html>\n<html lang=\"en\"><head><meta charset=\"utf-8\">\n\
         <meta name=\"viewport\" content=\"width=device-width, initial-scale=1\">\n\
         <title>Report on {title}</title>\n<style>{style}</style></head><body><main>\n\
         <h1>Report on {title}</h1>\n\
         <p>{records} of {data} data bits and {check} check bits (family {family}, edition {edition}); \
         {entries} in the journal. Every record that is not named under Entries is as it was read.</p>\n",
        title = escaped(&about.title),
        style = STYLE,
        records = counted(about.became.len(), "record"),
        data = code.k(),
        check = code.r(),
        family = code.family(),
        edition = code.edition().number(),
        entries = counted(about.entries.len(), "entry"),
    );
    symbols(&mut page);
    tally(&mut page, about);
    map(&mut page, about);
    passes(&mut page, about);
    listed(&mut page, about);
    page + "</main></body></html>\n"
}

pub fn escaped(text: &str) -> String {
    text.replace('&', "&amp;").replace('<', "&lt;").replace('>', "&gt;").replace('"', "&quot;")
}

/// A cell for each kind, drawn once and used by its name.
fn symbols(page: &mut String) {
    page.push_str("<svg class=\"symbols\" aria-hidden=\"true\"><defs>");
    for kind in Became::all() {
        let (name, mark) = (kind.name(), kind.mark());
        let _ = write!(page, "<g id=\"{name}\" class=\"{name}\"><rect width=\"9\" height=\"9\" rx=\"1.5\"/>{mark}</g>");
    }
    page.push_str("</defs></svg>\n");
}

fn tally(page: &mut String, about: &About) {
    page.push_str("<h2>Tally</h2>\n<table class=\"tally\"><thead><tr><th></th><th>Records</th><th>What became of them</th></tr></thead><tbody>\n");
    for (kind, count) in about.counts() {
        let _ = writeln!(
            page,
            "<tr><td><svg class=\"swatch\" viewBox=\"0 0 9 9\"><use href=\"#{name}\"/></svg> {name}</td>\
             <td class=\"n\" id=\"count-{name}\" data-count=\"{count}\">{shown}</td><td>{meaning}</td></tr>",
            name = kind.name(),
            count = count,
            shown = grouped(count),
            meaning = kind.meaning(),
        );
    }
    let all = about.became.len();
    let _ = writeln!(page, "<tr class=\"sum\"><td>all</td><td class=\"n\" id=\"count-all\" data-count=\"{}\">{}</td><td></td></tr></tbody></table>", all, grouped(all));
}

/// A square for each hundred records, ten to a line.
fn map(page: &mut String, about: &About) {
    page.push_str("<h2>Map</h2>\n<p>A square has a hundred records, ten to a line: record 1234 is in the square 1200, line 3, column 4, each counted from 0. A cell leads to its entries.</p>\n");
    let few = if about.became.len() <= 100 { " few" } else { "" };
    let _ = writeln!(page, "<div class=\"map{}\">", few);
    for (hundred, records) in about.became.chunks(100).enumerate() {
        let (first, lines) = (100 * hundred, (records.len() + 9) / 10);
        let _ = write!(
            page,
            "<figure><figcaption>{first}</figcaption><svg viewBox=\"0 0 100 {height}\" role=\"img\" aria-label=\"records {first} to {last}\">",
            height = 10 * lines,
            last = first + records.len() - 1,
        );
        for (at, kind) in records.iter().enumerate() {
            cell(page, first + at, *kind);
        }
        page.push_str("</svg></figure>\n");
    }
    page.push_str("</div>\n");
}

fn cell(page: &mut String, record: usize, kind: Became) {
    let (x, y) = (10 * (record % 10), 10 * (record % 100 / 10));
    let drawn = format!(
        "<use href=\"#{}\" x=\"{}\" y=\"{}\"><title>record {}: {}</title></use>",
        kind.name(),
        x,
        y,
        record,
        kind.meaning()
    );
    if matches!(kind, Became::Noted(Verdict::Clean) | Became::Open) {
        page.push_str(&drawn);
    } else {
        let _ = write!(page, "<a href=\"#r{}\">{}</a>", record, drawn);
    }
}

/// The entries of each stamp, by verdict; the last count is of verdicts that the desk does not have.
fn by_stamp(entries: &[Entry]) -> BTreeMap<u32, [usize; 7]> {
    let mut stamps: BTreeMap<u32, [usize; 7]> = BTreeMap::new();
    for entry in entries {
        stamps.entry(entry.stamp).or_default()[usize::from(entry.verdict).min(6)] += 1;
    }
    stamps
}

fn passes(page: &mut String, about: &About) {
    page.push_str("<h2>Passes along time</h2>\n");
    let stamps = by_stamp(about.entries);
    if stamps.is_empty() {
        page.push_str("<p>The journal has no entry: no pass found anything wrong.</p>\n");
        return;
    }
    page.push_str("<p>A bar for each stamp, as high as the entries that the passes of that time wrote. A pass that found nothing wrong leaves no entry.</p>\n");
    timeline(page, &stamps);
    page.push_str(
        "<div class=\"scroll\"><table class=\"passes\"><thead><tr><th>Time</th><th>Stamp</th><th>Entries</th>",
    );
    for verdict in &Verdict::ALL[1..] {
        let _ = write!(page, "<th>{}</th>", name(*verdict));
    }
    page.push_str("</tr></thead><tbody>\n");
    for (stamp, counts) in &stamps {
        let _ = write!(
            page,
            "<tr><td>{}</td><td class=\"n\">{}</td><td class=\"n\">{}</td>",
            when(*stamp),
            stamp,
            grouped(counts.iter().sum())
        );
        for count in &counts[1..6] {
            let _ = write!(page, "<td class=\"n\">{}</td>", grouped(*count));
        }
        page.push_str("</tr>\n");
    }
    page.push_str("</tbody></table></div>\n");
}

fn timeline(page: &mut String, stamps: &BTreeMap<u32, [usize; 7]>) {
    let (first, last) = (stamps.keys().next().copied().unwrap_or(0), stamps.keys().last().copied().unwrap_or(0));
    let most = stamps.values().map(|counts| counts.iter().sum::<usize>()).max().unwrap_or(1).max(1);
    let width = 400.0 / (stamps.len() as f64 * 2.0).clamp(20.0, 400.0);
    let span = f64::from((last - first).max(1));
    page.push_str("<div class=\"time\"><svg viewBox=\"0 0 420 100\" preserveAspectRatio=\"none\" role=\"img\" aria-label=\"entries along time\">");
    for (stamp, counts) in stamps {
        let along = if first == last { 0.5 } else { f64::from(stamp - first) / span };
        let (x, mut y) = (10.0 + along * (400.0 - width), 100.0);
        let kinds = Became::all().into_iter().filter(|&kind| kind != Became::Open);
        for (kind, &count) in kinds.zip(counts).filter(|(_, &count)| count > 0) {
            let height = count as f64 * 96.0 / most as f64;
            y -= height;
            let _ = write!(
                page,
                "<rect class=\"{}\" x=\"{:.2}\" y=\"{:.2}\" width=\"{:.2}\" height=\"{:.2}\"><title>{}: {} {}</title></rect>",
                kind.name(), x, y, width, height, when(*stamp), grouped(count), kind.name()
            );
        }
    }
    let (from, to) = if first == last { (String::new(), String::new()) } else { (when(first), when(last)) };
    let middle = if first == last { when(first) } else { format!("highest bar: {}", counted(most, "entry")) };
    let _ = writeln!(
        page,
        "</svg><div class=\"ends\"><span>{}</span><span>{}</span><span>{}</span></div></div>",
        from, middle, to
    );
}

/// Every entry, by record, a section for each hundred records.
fn listed(page: &mut String, about: &About) {
    page.push_str("<h2>Entries</h2>\n");
    let records = about.by_record();
    if records.is_empty() {
        page.push_str("<p>There is none.</p>\n");
        return;
    }
    let mut hundreds: Vec<usize> = records.keys().map(|record| record / 100).collect();
    hundreds.dedup();
    page.push_str("<p>By the record's number; bit 0 is the first digit. From the hundred:</p>\n<nav>");
    for hundred in hundreds {
        let _ = write!(page, "<a href=\"#h{0}\">{0}</a> ", 100 * hundred);
    }
    page.push_str("</nav>\n");
    let (progress, mut last) = (Progress::new(records.len()), None);
    for (done, (record, entries)) in records.iter().enumerate() {
        progress.at(done);
        let hundred = record / 100;
        if last != Some(hundred) {
            let close = if last.is_some() { "</section>\n" } else { "" };
            let _ = writeln!(page, "{}<section id=\"h{}\">", close, 100 * hundred);
            last = Some(hundred);
        }
        let _ = writeln!(page, "<article id=\"r{0}\"><h3>Record {0}</h3>", record);
        for (number, entry) in entries {
            one(page, about.code, *number, entry);
        }
        page.push_str("</article>\n");
    }
    page.push_str("</section>\n");
}

/// One entry with its bits before and after.
fn one(page: &mut String, code: &AnyCode, number: usize, entry: &Entry) {
    let name = Verdict::of(entry.verdict.into()).map_or("unknown", name);
    let _ = writeln!(
        page,
        "<p><svg class=\"swatch\" viewBox=\"0 0 9 9\"><use href=\"#{}\"/></svg> Entry {}, {}, stamp {}: {} (verdict {}, syndrome {:X}); <strong>{}</strong>.</p>",
        name, number, when(entry.stamp), entry.stamp, entry.found(), entry.verdict, entry.syndrome, entry.done()
    );
    let outside = outside(code, entry.before);
    if !outside.is_empty() {
        let _ = writeln!(page, "<p>Set, and no place of the code: {}.</p>", outside.join(", "));
    }
    let deep = if code.k() > 64 { " deep" } else { "" };
    let _ = write!(page, "<table class=\"bits{}\">", deep);
    for (label, bytes, other) in [("before", entry.before, entry.after), ("after", entry.after, entry.before)] {
        let _ = write!(page, "<tr><th>{}</th><td>", label);
        bits(page, code, bytes, other);
        let _ = writeln!(page, "</td><td class=\"hex\">{}</td></tr>", spaced(bytes));
    }
    page.push_str("</table>\n");
}

/// The bits that are set in a record and that the code has no place for.
fn outside(code: &AnyCode, bytes: &[u8]) -> Vec<String> {
    let data = 8 * (bytes.len() - 2);
    let is_set = |at: &usize| bytes[at / 8] >> (at % 8) & 1 == 1;
    let above_k = (code.k()..data).filter(is_set).map(|at| format!("data bit {}", at));
    let above_r = (data + code.r()..8 * bytes.len()).filter(is_set).map(|at| format!("check bit {}", at - data));
    above_k.chain(above_r).collect()
}

/// The bits of a record that the code has places for, those that differ from the other's marked.
fn bits(page: &mut String, code: &AnyCode, bytes: &[u8], other: &[u8]) {
    let bit = |bytes: &[u8], at: usize| bytes[at / 8] >> (at % 8) & 1;
    let check = 8 * (bytes.len() - 2);
    for (first, count, part) in [(0, code.k(), "data"), (check, code.r(), "check")] {
        for from in (0..count).step_by(8) {
            let _ = write!(page, "<span class=\"{}\">", part);
            for at in from..count.min(from + 8) {
                let (own, differs) = (bit(bytes, first + at), bit(bytes, first + at) != bit(other, first + at));
                if differs {
                    let place = if part == "data" { at } else { code.k() + at };
                    let _ = write!(page, "<mark title=\"{}\">{}</mark>", place_name(place, code.k()), own);
                } else {
                    page.push(if own == 1 { '1' } else { '0' });
                }
            }
            page.push_str("</span> ");
        }
    }
}

const STYLE: &str = include_str!("report.css");

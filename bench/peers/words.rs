// `punch`, `spell` and `fit` as a plain Rust program, with nothing proved of it: what bench/words.py times the program against.
//
//     words punch TABLE TEXT | words spell TABLE TAPE | words fit TABLE WIDTHS TAPE
//
// It reads a table with one entry a line, as examples/wire/codes.toml, and takes its inputs as they are right.
use std::collections::HashMap;
use std::fmt::Write as _;
use std::io::Write as _;

const FUNCTIONS: [&str; 14] = [
    "@shift", "@unshift", "@elevate", "@return", "@spaceband", "@thin", "@en", "@em", "@upper", "@lower", "@quadleft",
    "@quadcenter", "@quadright", "@ignore",
];

fn text_of(value: &str) -> String {
    let value = value.trim();
    let inner = &value[1..value.len() - 1];
    if value.starts_with('"') { inner.replace("\\\"", "\"").replace("\\\\", "\\") } else { inner.to_string() }
}

struct Table {
    means: Vec<[Option<String>; 2]>,
    least: [HashMap<String, u8>; 2],
    selects: Vec<Option<usize>>,
    turns: [Option<u8>; 2],
}

fn values(line: &str) -> Vec<String> {
    let mut found = Vec::new();
    let mut rest = line;
    while let Some(at) = rest.find(" = ") {
        rest = &rest[at + 3..];
        let end = match rest.as_bytes()[0] {
            quote @ (b'"' | b'\'') => {
                let mut end = 1;
                while rest.as_bytes()[end] != quote {
                    end += if quote == b'"' && rest.as_bytes()[end] == b'\\' { 2 } else { 1 };
                }
                end + 1
            }
            _ => rest.find([',', ' ']).unwrap_or(rest.len()),
        };
        found.push(rest[..end].to_string());
        rest = &rest[end..];
    }
    found
}

fn table_at(path: &str) -> Table {
    let mut table = Table { means: vec![[None, None]; 64], least: [HashMap::new(), HashMap::new()], selects: vec![None; 64], turns: [None, None] };
    for line in std::fs::read_to_string(path).unwrap().lines() {
        if !line.contains("frame = ") || line.starts_with('#') {
            continue;
        }
        let found = values(&line[line.find('{').unwrap()..]);
        let frame = match found[0].strip_prefix("0b") {
            Some(bits) => usize::from_str_radix(bits, 2).unwrap(),
            None => found[0].parse().unwrap(),
        };
        table.means[frame] = [Some(text_of(&found[1])), Some(text_of(&found[2]))];
    }
    for frame in 0..64 {
        for case in 0..2 {
            if let Some(name) = &table.means[frame][case] {
                table.least[case].entry(name.clone()).or_insert(frame as u8);
            }
        }
        let turn = match table.means[frame][0].as_deref() {
            Some("@unshift") => Some(0),
            Some("@shift") => Some(1),
            _ => None,
        };
        table.selects[frame] = turn;
        if let Some(case) = turn {
            table.turns[case].get_or_insert(frame as u8);
        }
    }
    table
}

impl Table {
    fn adds(&self, case: usize, name: &str) -> Option<(Option<u8>, u8)> {
        if let Some(frame) = self.least[case].get(name) {
            return Some((None, *frame));
        }
        Some((Some(self.turns[1 - case]?), *self.least[1 - case].get(name)?))
    }
}

fn number_of(name: &str) -> Option<u8> {
    let digits = name.strip_prefix('@')?;
    if digits.is_empty() || digits.len() > 2 || !digits.bytes().all(|b| b.is_ascii_digit()) || (digits.len() == 2 && digits.starts_with('0')) {
        return None;
    }
    digits.parse().ok().filter(|frame| *frame < 64)
}

fn punch(table: &Table, text: &[u8]) -> Vec<u8> {
    let (mut frames, mut case, mut at) = (Vec::new(), 0, 0);
    let mut line = 1;
    let mut start = 0;
    while at < text.len() {
        let mut one = [0; 4];
        let (name, len) = match text[at] {
            b'\n' => ("@elevate", 1),
            b'\r' => ("@return", 1),
            b' ' => ("@spaceband", 1),
            b'{' => {
                let len = 1 + text[at + 2..].iter().position(|b| *b == b'}').unwrap();
                (std::str::from_utf8(&text[at + 1..at + 1 + len]).unwrap(), len + 2)
            }
            byte => (&*(byte as char).encode_utf8(&mut one), 1),
        };
        let added = match number_of(name) {
            Some(frame) => Some((None, frame)),
            None if name.starts_with('@') && !FUNCTIONS.contains(&name) => None,
            None => table.adds(case, name),
        };
        let many = match added {
            Some((Some(_), _)) => 2,
            _ => 1,
        };
        let Some((turn, frame)) = added.filter(|_| frames.len() + many <= 16384) else {
            eprintln!("text: at line {line} column {}", at - start + 1);
            std::process::exit(1);
        };
        for frame in turn.into_iter().chain([frame]) {
            frames.push(frame);
            case = table.selects[frame as usize].unwrap_or(case);
        }
        if text[at] == b'\n' {
            line += 1;
            start = at + 1;
        }
        at += len;
    }
    frames
}

fn spell(table: &Table, tape: &[u8]) -> Vec<u8> {
    let mut text = Vec::new();
    let (mut case, mut behind) = (0, false);
    for (i, frame) in tape.iter().enumerate() {
        let next = table.selects[*frame as usize].unwrap_or(case);
        let worded = |case: usize, at: usize, holds: usize, wanted: (Option<u8>, u8)| {
            table.means[tape[at] as usize][holds].as_deref().is_some_and(|name| !(name.len() > 1 && name[1..].contains('}')) && table.adds(case, name) == Some(wanted))
        };
        if !behind && i + 1 < tape.len() && worded(case, i + 1, next, (Some(*frame), tape[i + 1])) {
            behind = true;
        } else {
            match table.means[*frame as usize][case].as_deref() {
                Some(name) if behind || worded(case, i, case, (None, *frame)) => match name {
                    "@elevate" => text.push(b'\n'),
                    "@spaceband" => text.push(b' '),
                    name if name.len() == 1 && name != "{" => text.extend_from_slice(name.as_bytes()),
                    name => {
                        text.push(b'{');
                        text.extend_from_slice(name.as_bytes());
                        text.push(b'}');
                    }
                },
                _ => write!(text, "{{@{frame}}}").unwrap(),
            }
            behind = false;
        }
        case = next;
    }
    text
}

fn widths_at(path: &str) -> HashMap<String, u32> {
    let mut widths = HashMap::new();
    let mut of_matrix = false;
    for line in std::fs::read_to_string(path).unwrap().lines() {
        if line == "[matrix]" {
            of_matrix = true;
        } else if let Some((key, value)) = line.split_once(" = ").filter(|_| !line.starts_with('#')) {
            let key = if key.starts_with(['"', '\'']) { text_of(key) } else { key.to_string() };
            widths.insert(if of_matrix { key } else { format!("@{key}") }, value.parse().unwrap());
        }
    }
    widths
}

#[derive(Default)]
struct Line {
    fixed: u32,
    bands: u32,
    items: usize,
    read: String,
    quad: Option<char>,
    fault: Option<String>,
}

fn verdict(line: &Line, widths: &HashMap<String, u32>) -> (String, bool) {
    let (measure, least) = (widths["@measure"], line.fixed + line.bands * widths["@band_min"]);
    let greatest = line.fixed + line.bands * widths["@band_max"];
    match (&line.fault, line.items, line.quad) {
        (Some(fault), _, _) => (fault.clone(), false),
        (None, 0, _) => ("nothing".to_string(), false),
        _ if least > measure => (format!("overset {}", least - measure), false),
        (None, _, None) if greatest < measure => (format!("loose {}", measure - greatest), false),
        (None, _, Some(quad)) => (format!("{quad} {}", measure - least), true),
        _ if line.bands == 0 => ("J".to_string(), true),
        _ => {
            let left = measure - line.fixed;
            (format!("J {}{}", left / line.bands, if left % line.bands == 0 { "" } else { "+" }), true)
        }
    }
}

fn fit(table: &Table, widths: &HashMap<String, u32>, tape: &[u8]) -> String {
    let mut out = format!("line  slug  verdict        least .. most of {}\n", widths["@measure"]);
    let (mut case, mut number, mut slug, mut faults, mut line) = (0, 1, 0, 0, Line::default());
    for (at, frame) in tape.iter().enumerate() {
        let Some(name) = table.means[*frame as usize][case].as_deref() else {
            line.fault.get_or_insert(format!("unknown-code {at}"));
            continue;
        };
        case = table.selects[*frame as usize].unwrap_or(case);
        match name {
            "@spaceband" => {
                line.bands += 1;
                line.items += 1;
                line.read.push(' ');
            }
            "@thin" | "@en" | "@em" => {
                line.fixed += widths[name];
                line.items += 1;
                line.read.push(' ');
            }
            "@quadleft" => line.quad = Some('L'),
            "@quadcenter" => line.quad = Some('C'),
            "@quadright" => line.quad = Some('R'),
            "@elevate" => {
                let (words, sets) = verdict(&line, widths);
                slug += u32::from(sets);
                faults += u32::from(!sets && words != "nothing");
                let shown = if sets { slug.to_string() } else { String::new() };
                if line.items == 0 {
                    writeln!(out, "{number:4}  {shown:>4}  {words}").unwrap();
                } else {
                    let least = line.fixed + line.bands * widths["@band_min"];
                    let greatest = line.fixed + line.bands * widths["@band_max"];
                    writeln!(out, "{number:4}  {shown:>4}  {words:15} {least:4} .. {greatest:<3}  {}", line.read).unwrap();
                }
                number += 1;
                line = Line::default();
            }
            name if name.starts_with('@') => {}
            name => match widths.get(name) {
                Some(width) => {
                    line.fixed += width;
                    line.items += 1;
                    line.read.push_str(name);
                }
                None => {
                    line.fault.get_or_insert(format!("no-width {at}"));
                }
            },
        }
    }
    let mut lines = number - 1;
    if line.fault.is_some() || line.items > 0 {
        writeln!(out, "{number:4}        {}", line.fault.as_deref().unwrap_or("unfinished")).unwrap();
        faults += 1;
        lines += 1;
    }
    writeln!(out, "{faults} of {lines} lines do not set").unwrap();
    out
}

fn main() {
    let words: Vec<String> = std::env::args().collect();
    let table = table_at(&words[2]);
    let given = std::fs::read(words.last().unwrap()).unwrap();
    let written = match words[1].as_str() {
        "punch" => punch(&table, &given),
        "spell" => spell(&table, &given),
        _ => fit(&table, &widths_at(&words[3]), &given).into_bytes(),
    };
    std::io::stdout().write_all(&written).unwrap();
}

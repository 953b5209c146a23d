//! A rehearsal in plain Rust: the work that `circuitd rehearse` does where all goes well, with nothing proved of it.
//!
//!     rehearse TABLE WIDTHS SCRIPT
//!
//! It knows the orders `members`, `offer` and `deliver`, and circuits in which each number has one proposer, so that no
//! ballot but its first is ever begun. Anything else ends it.

use std::collections::{BTreeMap, HashMap, HashSet};
use std::fmt;
use std::io::{self, BufWriter, Write};
use std::rc::Rc;

type Tape = Rc<[u8]>;

// ---- tables, widths and slugs

#[derive(Clone)]
enum Meaning {
    Matrix(String),
    Space(&'static str),
    Code(String),
}

struct Setting {
    codes: Vec<Option<[Meaning; 2]>>,
    widths: HashMap<String, u32>,
    matrix: HashMap<String, u32>,
}

enum Item<'a> {
    Matrix(&'a str, bool),
    Band(u32),
    Space(u32),
}

struct Slug<'a> {
    kind: char,
    left: u32,
    right: u32,
    items: Vec<Item<'a>>,
}

fn meaning(text: &str) -> Meaning {
    match text {
        "@thin" => Meaning::Space("thin"),
        "@en" => Meaning::Space("en"),
        "@em" => Meaning::Space("em"),
        _ if text.starts_with('@') => Meaning::Code(text.to_string()),
        _ => Meaning::Matrix(text.to_string()),
    }
}

impl Setting {
    /// Of a TOML file in the layout of the examples: a key and a value a line.
    fn read(table: &str, widths: &str) -> Setting {
        let (mut codes, mut frame, mut unshift) = (vec![None; 64], 0, None);
        for line in table.lines() {
            let Some((key, value)) = line.split_once('=') else { continue };
            let value = value.trim().trim_matches('"');
            match key.trim() {
                "frame" => frame = value.parse().expect("a frame"),
                "unshift" => unshift = Some(meaning(value)),
                _ => codes[frame] = Some([unshift.take().expect("a first meaning"), meaning(value)]),
            }
        }
        let (mut measures, mut matrix, mut inside) = (HashMap::new(), HashMap::new(), false);
        for line in widths.lines() {
            inside |= line.starts_with("[matrix]");
            let Some((key, value)) = line.split_once('=') else { continue };
            let into = if inside { &mut matrix } else { &mut measures };
            into.insert(key.trim().trim_matches('"').to_string(), value.trim().parse().expect("a width"));
        }
        Setting { codes, widths: measures, matrix }
    }

    fn set(&self, tape: &[u8]) -> Option<Vec<Slug<'_>>> {
        let (mut case, mut upper, mut slugs) = (0, false, Vec::new());
        let (mut items, mut fixed, mut bands, mut quad) = (Vec::new(), 0, 0, None);
        for frame in tape {
            match &self.codes[usize::from(*frame)].as_ref()?[case] {
                Meaning::Matrix(name) => {
                    fixed += self.matrix.get(name)?;
                    items.push(Item::Matrix(name, upper));
                }
                Meaning::Space(key) => {
                    fixed += self.widths[*key];
                    items.push(Item::Space(self.widths[*key]));
                }
                Meaning::Code(code) => match code.as_str() {
                    "@shift" => case = 1,
                    "@unshift" => case = 0,
                    "@upper" => upper = true,
                    "@lower" => upper = false,
                    "@quadleft" => quad = Some('L'),
                    "@quadcenter" => quad = Some('C'),
                    "@quadright" => quad = Some('R'),
                    "@spaceband" => {
                        bands += 1;
                        items.push(Item::Band(0));
                    }
                    "@elevate" => {
                        if !items.is_empty() {
                            slugs.push(self.cast(std::mem::take(&mut items), fixed, bands, quad)?);
                        }
                        (fixed, bands, quad) = (0, 0, None);
                    }
                    _ => {}
                },
            }
        }
        items.is_empty().then_some(slugs)
    }

    fn cast<'a>(&self, mut items: Vec<Item<'a>>, fixed: u32, bands: u32, quad: Option<char>) -> Option<Slug<'a>> {
        let (measure, least) = (self.widths["measure"], self.widths["band_min"]);
        let blank = measure.checked_sub(fixed + bands * least)?;
        let (kind, left, right, width, mut wider) = match quad {
            None if fixed + bands * self.widths["band_max"] < measure => return None,
            None if bands == 0 => ('J', 0, 0, 0, 0),
            None => ('J', 0, 0, (measure - fixed) / bands, (measure - fixed) % bands),
            Some('L') => ('L', 0, blank, least, 0),
            Some('C') => ('C', blank / 2, blank - blank / 2, least, 0),
            Some(_) => ('R', blank, 0, least, 0),
        };
        for item in &mut items {
            if let Item::Band(band) = item {
                *band = width + wider.min(1);
                wider = wider.saturating_sub(1);
            }
        }
        Some(Slug { kind, left, right, items })
    }
}

impl fmt::Display for Slug<'_> {
    fn fmt(&self, f: &mut fmt::Formatter<'_>) -> fmt::Result {
        write!(f, "{} {} {}", self.kind, self.left, self.right)?;
        for item in &self.items {
            match item {
                Item::Matrix(name, upper) => write!(f, " {}{name}", if *upper { "^" } else { "" })?,
                Item::Band(width) => write!(f, " _{width}")?,
                Item::Space(width) => write!(f, " ~{width}")?,
            }
        }
        Ok(())
    }
}

// ---- packets

type Ballot = (u32, u8);

#[derive(Clone, Copy)]
enum Body<'a> {
    Prepare,
    Promise,
    Accept(&'a [u8]),
    Accepted(&'a [u8]),
}

struct Datagram {
    to: u8,
    bytes: Vec<u8>,
}

struct Packet<'a> {
    from: u8,
    to: u8,
    number: u32,
    ballot: Ballot,
    body: Body<'a>,
}

impl<'a> Packet<'a> {
    fn spell(&self) -> Datagram {
        let (kind, tape) = match self.body {
            Body::Prepare => (1, None),
            Body::Promise => (2, None),
            Body::Accept(tape) => (3, Some(tape)),
            Body::Accepted(tape) => (4, Some(tape)),
        };
        let mut bytes = Vec::with_capacity(19 + tape.map_or(0, <[u8]>::len));
        bytes.extend([b'T', b'N', 1, kind, 0, 7, self.from, self.to]);
        bytes.extend(self.number.to_be_bytes());
        bytes.extend(self.ballot.0.to_be_bytes());
        bytes.push(self.ballot.1);
        match tape {
            Some(tape) => {
                bytes.extend((tape.len() as u16).to_be_bytes());
                bytes.extend(tape);
            }
            None if kind == 2 => bytes.push(0),
            None => {}
        }
        Datagram { to: self.to, bytes }
    }

    fn read(bytes: &'a [u8]) -> Option<Packet<'a>> {
        let (head, rest) = bytes.split_at_checked(17)?;
        let word = |at: usize| u32::from_be_bytes([head[at], head[at + 1], head[at + 2], head[at + 3]]);
        let (kind, from, to, number, ballot) = (head[3], head[6], head[7], word(8), (word(12), head[16]));
        let member = 1..=15;
        if head[..3] != *b"TN\x01" || from == to || ballot.0 == 0 || !(1..=999_999).contains(&number) {
            return None;
        }
        if ![from, to, ballot.1].iter().all(|m| member.contains(m)) || head[4..6] != [0, 7] {
            return None;
        }
        let body = match (kind, rest) {
            (1, []) if ballot.1 == from => Body::Prepare,
            (2, [0]) if ballot.1 == to => Body::Promise,
            (3 | 4, [a, b, tape @ ..]) => {
                let length = usize::from(u16::from_be_bytes([*a, *b]));
                if length != tape.len() || !is_tape(tape) {
                    return None;
                }
                if kind == 3 { Body::Accept(tape) } else { Body::Accepted(tape) }
            }
            _ => return None,
        };
        Some(Packet { from, to, number, ballot, body })
    }

    fn word(&self) -> &'static str {
        match self.body {
            Body::Prepare => "prepare",
            Body::Promise => "promise",
            Body::Accept(_) => "accept",
            Body::Accepted(_) => "accepted",
        }
    }
}

fn is_tape(frames: &[u8]) -> bool {
    (1..=4096).contains(&frames.len()) && frames.iter().all(|f| *f < 64)
}

// ---- stations

#[derive(Clone, Default)]
struct Row {
    promised: Option<Ballot>,
    vote: Option<(Ballot, Tape)>,
}

struct Proposal {
    ballot: Ballot,
    own: Tape,
    promised: u16,
    proposed: bool,
}

#[derive(Default)]
struct Station {
    me: u8,
    members: u8,
    rows: HashMap<u32, Row>,
    open: BTreeMap<u32, Proposal>,
    heard: HashMap<u32, BTreeMap<u8, (Ballot, Tape)>>,
    released: HashSet<u32>,
}

/// What a step did, what it sends, and the tape that it releases.
type Answer = (&'static str, Ballot, Vec<Datagram>, Option<Tape>);

impl Station {
    fn spell(&self, to: u8, number: u32, ballot: Ballot, body: Body<'_>) -> Datagram {
        Packet { from: self.me, to, number, ballot, body }.spell()
    }

    fn to_others(&self, number: u32, ballot: Ballot, body: Body<'_>, out: &mut Vec<Datagram>) {
        for to in (1..=self.members).filter(|to| *to != self.me) {
            out.push(self.spell(to, number, ballot, body));
        }
    }

    fn is_majority(&self, count: u32) -> bool {
        2 * count > u32::from(self.members)
    }

    fn offer(&mut self, number: u32, tape: Tape, setting: &Setting) -> Option<Answer> {
        if self.released.contains(&number) || self.open.contains_key(&number) {
            return None;
        }
        setting.set(&tape)?;
        let mut row = self.rows.get(&number).cloned().unwrap_or_default();
        let ballot = (row.promised.map_or(0, |b| b.0) + 1, self.me);
        row.promised = Some(ballot);
        let (mut out, promised) = (Vec::new(), 1 << self.me);
        self.open.insert(number, Proposal { ballot, own: tape, promised, proposed: false });
        self.to_others(number, ballot, Body::Prepare, &mut out);
        self.rows.insert(number, row);
        Some(("began", ballot, out, None))
    }

    fn receive(&mut self, bytes: &[u8]) -> Option<Answer> {
        let packet = Packet::read(bytes)?;
        let (number, ballot, mut out) = (packet.number, packet.ballot, Vec::new());
        let mut row = self.rows.get(&number).cloned().unwrap_or_default();
        match packet.body {
            Body::Prepare => {
                if row.promised.is_some_and(|promised| promised >= ballot) {
                    return None;
                }
                out.push(self.spell(packet.from, number, ballot, Body::Promise));
                row.promised = Some(ballot);
                self.rows.insert(number, row);
                Some(("promised", ballot, out, None))
            }
            Body::Promise => {
                let all = self.members;
                let proposal = self.open.get_mut(&number).filter(|p| p.ballot == ballot && !p.proposed)?;
                proposal.promised |= 1 << packet.from;
                if 2 * proposal.promised.count_ones() <= u32::from(all) {
                    return Some(("counted", ballot, out, None));
                }
                proposal.proposed = true;
                let tape = proposal.own.clone();
                self.vote("proposed", number, ballot, tape, true)
            }
            Body::Accept(tape) => match row.vote {
                _ if row.promised.is_some_and(|promised| promised > ballot) => None,
                Some((at, _)) if at == ballot => None,
                _ => self.vote("voted", number, ballot, tape.into(), false),
            },
            Body::Accepted(tape) => {
                if self.released.contains(&number) {
                    return Some(("settled", (0, 0), out, None));
                }
                let release = self.hear(number, packet.from, ballot, tape.into());
                Some(("heard", ballot, out, release))
            }
        }
    }

    fn vote(&mut self, word: &'static str, number: u32, ballot: Ballot, tape: Tape, asks: bool) -> Option<Answer> {
        let mut out = Vec::new();
        if asks {
            self.to_others(number, ballot, Body::Accept(&tape), &mut out);
        }
        self.to_others(number, ballot, Body::Accepted(&tape), &mut out);
        let release = self.hear(number, self.me, ballot, tape.clone());
        self.rows.insert(number, Row { promised: Some(ballot), vote: Some((ballot, tape)) });
        Some((word, ballot, out, release))
    }

    fn hear(&mut self, number: u32, member: u8, ballot: Ballot, tape: Tape) -> Option<Tape> {
        let votes = self.heard.entry(number).or_default();
        if votes.get(&member).is_some_and(|(latest, _)| *latest >= ballot) {
            return None;
        }
        votes.insert(member, (ballot, tape));
        let count = votes.values().filter(|(at, _)| *at == ballot).count();
        if !self.is_majority(count as u32) {
            return None;
        }
        let (_, tape) = self.heard.remove(&number)?.remove(&member)?;
        self.open.remove(&number);
        self.released.insert(number);
        Some(tape)
    }
}

// ---- the script

fn unhex(text: &str) -> Option<Tape> {
    let digit = |b: u8| (b as char).to_digit(16).map(|d| d as u8);
    let pairs = text.as_bytes().chunks(2);
    let frames: Option<Vec<u8>> = pairs.map(|p| Some(digit(p[0])? << 4 | digit(*p.get(1)?)?)).collect();
    frames.filter(|frames| is_tape(frames)).map(Tape::from)
}

fn show<W: Write>(out: &mut W, setting: &Setting, sent: &mut Vec<Datagram>, member: u8, number: u32, answer: Answer) -> io::Result<()> {
    let (word, ballot, datagrams, release) = answer;
    match word {
        "settled" => writeln!(out, "{member} {word}")?,
        _ => writeln!(out, "{member} {word} {}.{}", ballot.0, ballot.1)?,
    }
    for datagram in datagrams {
        let k = sent.len() + 1;
        let p = Packet::read(&datagram.bytes).expect("a packet");
        writeln!(out, " #{k} {} {}>{} {} {}.{}", p.word(), p.from, p.to, p.number, p.ballot.0, p.ballot.1)?;
        sent.push(datagram);
    }
    if let Some(tape) = release {
        write!(out, " release {number} ")?;
        for frame in tape.iter() {
            write!(out, "{frame:02x}")?;
        }
        writeln!(out)?;
        for (before, slug) in setting.set(&tape).expect("a tape that sets").iter().enumerate() {
            writeln!(out, "{:04} {slug}", before + 1)?;
        }
    }
    Ok(())
}

fn main() -> io::Result<()> {
    let args: Vec<String> = std::env::args().skip(1).collect();
    let texts: Vec<String> = args.iter().map(std::fs::read_to_string).collect::<Result<_, _>>()?;
    let setting = Setting::read(&texts[0], &texts[1]);
    let mut out = BufWriter::new(io::stdout().lock());
    let (mut stations, mut sent): (Vec<Station>, Vec<Datagram>) = (Vec::new(), Vec::new());
    let mut words = Vec::new();
    for line in texts[2].lines() {
        words.clear();
        words.extend(line.split(' ').filter(|word| !word.is_empty()));
        let (member, number, answer) = match words.as_slice() {
            ["members", count] => {
                let members = count.parse().expect("a count");
                stations = (1..=members).map(|me| Station { me, members, ..Station::default() }).collect();
                continue;
            }
            ["offer", member, number, frames] => {
                let (member, number) = (member.parse::<u8>().expect("a member"), number.parse().expect("a number"));
                let tape = unhex(frames).expect("a tape");
                (member, number, stations[usize::from(member) - 1].offer(number, tape, &setting))
            }
            ["deliver", k] => {
                let datagram = &sent[k.parse::<usize>().expect("a datagram") - 1];
                let number = u32::from_be_bytes(datagram.bytes[8..12].try_into().expect("four bytes"));
                (datagram.to, number, stations[usize::from(datagram.to) - 1].receive(&datagram.bytes))
            }
            _ => panic!("no order: {line}"),
        };
        let answer = answer.unwrap_or_else(|| panic!("not played here: {line}"));
        show(&mut out, &setting, &mut sent, member, number, answer)?;
    }
    out.flush()
}

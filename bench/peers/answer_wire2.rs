//! An acceptor over version 2 of packets in plain Rust: the work that `circuitd answer CIRCUIT MEMBER --wire 2` does, with nothing
//! proved of it.
//!
//!     answer_wire2 CIRCUIT MEMBER
//!
//! It reads versions 1 and 2 and replies in version 2. It keeps each entry's frames one a byte, as the program does, so that a
//! tape is unpacked when it is voted for and packed each time it is sent.

use std::collections::HashMap;
use std::env;
use std::io::{self, BufWriter, Read, Write};

const MOST_FRAMES: usize = 16_384;
const MOST_FRAMES_ONE: usize = 4_096;

type Fault = &'static str;

#[derive(Clone, Copy, PartialEq, Eq, PartialOrd, Ord)]
struct Ballot {
    round: u32,
    owner: u8,
}

// ---- entries

/// An entry as a packet has it.
enum Lent<'a> {
    Void,
    Plain(&'a [u8]),
    Packed(usize, &'a [u8]),
}

fn packed_len(frames: usize) -> usize {
    (3 * frames).div_ceil(4)
}

fn unpack(count: usize, bytes: &[u8]) -> Vec<u8> {
    let mut frames = Vec::with_capacity(count + 3);
    for group in bytes.chunks(3) {
        let (a, b, c) = (group[0], group.get(1).copied().unwrap_or(0), group.get(2).copied().unwrap_or(0));
        frames.extend_from_slice(&[a >> 2, (a & 3) << 4 | b >> 4, (b & 15) << 2 | c >> 6, c & 63]);
    }
    frames.truncate(count);
    frames
}

fn pack(frames: &[u8], out: &mut Vec<u8>) {
    out.reserve(packed_len(frames.len()));
    let groups = frames.chunks_exact(4);
    let rest = groups.remainder();
    for group in groups {
        let (a, b, c, d) = (group[0], group[1], group[2], group[3]);
        out.extend_from_slice(&[a << 2 | b >> 4, b << 4 | c >> 2, c << 6 | d]);
    }
    match *rest {
        [a] => out.push(a << 2),
        [a, b] => out.extend_from_slice(&[a << 2 | b >> 4, b << 4]),
        [a, b, c] => out.extend_from_slice(&[a << 2 | b >> 4, b << 4 | c >> 2, c << 6]),
        _ => {}
    }
}

impl Lent<'_> {
    /// Its frames, none where it is a withdrawal.
    fn copy(&self) -> Option<Vec<u8>> {
        match *self {
            Lent::Void => None,
            Lent::Plain(frames) => Some(frames.to_vec()),
            Lent::Packed(count, bytes) => Some(unpack(count, bytes)),
        }
    }
}

// ---- packets in

struct Request<'a> {
    circuit: u16,
    from: u8,
    to: u8,
    number: u32,
    ballot: Ballot,
    body: Body<'a>,
}

enum Body<'a> {
    Prepare,
    Accept(Lent<'a>),
    Other,
}

fn u32_at(bytes: &[u8], at: usize) -> u32 {
    u32::from_be_bytes([bytes[at], bytes[at + 1], bytes[at + 2], bytes[at + 3]])
}

fn ballot_at(bytes: &[u8], at: usize) -> Option<Ballot> {
    let ballot = Ballot { round: u32_at(bytes, at), owner: bytes[at + 4] };
    (ballot.round >= 1 && (1..=15).contains(&ballot.owner)).then_some(ballot)
}

fn plain_at(bytes: &[u8], count: usize) -> Result<(Lent<'_>, &[u8]), Fault> {
    if !(1..=MOST_FRAMES_ONE).contains(&count) {
        return Err("bad-frames");
    }
    let (frames, rest) = bytes.split_at_checked(count).ok_or("short")?;
    if frames.iter().any(|frame| *frame > 63) {
        return Err("bad-frames");
    }
    Ok((Lent::Plain(frames), rest))
}

fn packed_at(bytes: &[u8], count: usize) -> Result<(Lent<'_>, &[u8]), Fault> {
    if count > MOST_FRAMES {
        return Err("bad-frames");
    }
    let (packed, rest) = bytes.split_at_checked(packed_len(count)).ok_or("short")?;
    let Some(last) = packed.last() else {
        return Ok((Lent::Void, rest));
    };
    // A byte of each three has 2 bits left behind one frame, 4 behind two and 6 behind three.
    let pad = [0, 3, 15, 63][count % 4];
    if last & pad != 0 {
        return Err("bad-pad");
    }
    Ok((Lent::Packed(count, packed), rest))
}

fn entry_at(version: u8, bytes: &[u8]) -> Result<(Lent<'_>, &[u8]), Fault> {
    let (count, rest) = bytes.split_at_checked(2).ok_or("short")?;
    let count = usize::from(u16::from_be_bytes([count[0], count[1]]));
    if version == 1 { plain_at(rest, count) } else { packed_at(rest, count) }
}

fn ends<T>(value: T, rest: &[u8]) -> Result<T, Fault> {
    if rest.is_empty() { Ok(value) } else { Err("long") }
}

fn whole_entry(version: u8, bytes: &[u8]) -> Result<Lent<'_>, Fault> {
    let (entry, rest) = entry_at(version, bytes)?;
    ends(entry, rest)
}

fn promise(version: u8, ballot: Ballot, bytes: &[u8]) -> Result<Body<'_>, Fault> {
    match bytes {
        [] => Err("short"),
        [0, rest @ ..] => ends(Body::Other, rest),
        [1, vote @ ..] => {
            if vote.len() < 7 {
                return Err("short");
            }
            if ballot_at(vote, 0).ok_or("bad-report")? >= ballot {
                return Err("bad-report");
            }
            let (_, rest) = entry_at(version, &vote[5..])?;
            ends(Body::Other, rest)
        }
        _ => Err("bad-report"),
    }
}

fn nack(ballot: Ballot, bytes: &[u8]) -> Result<Body<'_>, Fault> {
    if bytes.len() < 5 {
        return Err("short");
    }
    if ballot_at(bytes, 0).ok_or("bad-report")? <= ballot {
        return Err("bad-report");
    }
    ends(Body::Other, &bytes[5..])
}

fn decode(bytes: &[u8]) -> Result<Request<'_>, Fault> {
    if bytes.len() < 17 {
        return Err("short");
    }
    if bytes[..2] != *b"TN" {
        return Err("bad-mark");
    }
    let (version, kind, from, to) = (bytes[2], bytes[3], bytes[6], bytes[7]);
    if !(1..=2).contains(&version) {
        return Err("bad-version");
    }
    if !(1..=5).contains(&kind) {
        return Err("bad-kind");
    }
    if !(1..=15).contains(&from) || !(1..=15).contains(&to) || from == to {
        return Err("bad-member");
    }
    let number = u32_at(bytes, 8);
    if !(1..=999_999).contains(&number) {
        return Err("bad-number");
    }
    let ballot = ballot_at(bytes, 12).ok_or("bad-ballot")?;
    let owned = match kind {
        1 | 3 => ballot.owner == from,
        2 | 5 => ballot.owner == to,
        _ => true,
    };
    if !owned {
        return Err("bad-sender");
    }
    let rest = &bytes[17..];
    let body = match kind {
        1 => ends(Body::Prepare, rest)?,
        2 => promise(version, ballot, rest)?,
        3 => Body::Accept(whole_entry(version, rest)?),
        4 => whole_entry(version, rest).map(|_| Body::Other)?,
        _ => nack(ballot, rest)?,
    };
    Ok(Request { circuit: u16::from_be_bytes([bytes[4], bytes[5]]), from, to, number, ballot, body })
}

// ---- replies out

fn put_ballot(out: &mut Vec<u8>, ballot: Ballot) {
    out.extend_from_slice(&ballot.round.to_be_bytes());
    out.push(ballot.owner);
}

fn put_entry(out: &mut Vec<u8>, entry: Option<&[u8]>) {
    let frames = entry.unwrap_or(&[]);
    out.extend_from_slice(&(frames.len() as u16).to_be_bytes());
    pack(frames, out);
}

struct Vote {
    ballot: Ballot,
    /// None where it is a withdrawal.
    entry: Option<Vec<u8>>,
}

#[derive(Default)]
struct Row {
    promised: Option<Ballot>,
    vote: Option<Vote>,
}

struct Acceptor {
    circuit: u16,
    me: u8,
    rows: HashMap<u32, Row>,
}

fn put_header(out: &mut Vec<u8>, me: u8, kind: u8, request: &Request<'_>) {
    out.extend_from_slice(&[b'T', b'N', 2, kind]);
    out.extend_from_slice(&request.circuit.to_be_bytes());
    out.extend_from_slice(&[me, request.from]);
    out.extend_from_slice(&request.number.to_be_bytes());
    put_ballot(out, request.ballot);
}

/// Answers a prepare request; nothing is said to a repeated one.
fn prepare(row: &mut Row, me: u8, request: &Request<'_>) -> Option<Vec<u8>> {
    let mut out = Vec::new();
    match row.promised {
        Some(promised) if promised > request.ballot => {
            put_header(&mut out, me, 5, request);
            put_ballot(&mut out, promised);
        }
        Some(promised) if promised == request.ballot => return None,
        _ => {
            row.promised = Some(request.ballot);
            put_header(&mut out, me, 2, request);
            out.push(u8::from(row.vote.is_some()));
            if let Some(vote) = &row.vote {
                put_ballot(&mut out, vote.ballot);
                put_entry(&mut out, vote.entry.as_deref());
            }
        }
    }
    Some(out)
}

/// Answers an accept request. The entry is copied only where it is voted for.
fn accept(row: &mut Row, me: u8, request: &Request<'_>, entry: &Lent<'_>) -> Vec<u8> {
    let mut out = Vec::new();
    if let Some(promised) = row.promised.filter(|promised| *promised > request.ballot) {
        put_header(&mut out, me, 5, request);
        put_ballot(&mut out, promised);
        return out;
    }
    if row.vote.as_ref().is_none_or(|vote| vote.ballot != request.ballot) {
        row.promised = Some(request.ballot);
        row.vote = Some(Vote { ballot: request.ballot, entry: entry.copy() });
    }
    put_header(&mut out, me, 4, request);
    put_entry(&mut out, row.vote.as_ref().and_then(|vote| vote.entry.as_deref()));
    out
}

impl Acceptor {
    /// The reply to the bytes of a line; `None` where there is none.
    fn answer(&mut self, bytes: &[u8]) -> Result<Option<Vec<u8>>, Fault> {
        let request = decode(bytes)?;
        if request.circuit != self.circuit {
            return Err("wrong-circuit");
        }
        if request.to != self.me {
            return Err("not-for-me");
        }
        let row = match request.body {
            Body::Other => return Err("not-a-request"),
            _ => self.rows.entry(request.number).or_default(),
        };
        match &request.body {
            Body::Accept(entry) => Ok(Some(accept(row, self.me, &request, entry))),
            _ => Ok(prepare(row, self.me, &request)),
        }
    }
}

// ---- lines

fn digit(byte: u8) -> Option<u8> {
    match byte {
        b'0'..=b'9' => Some(byte - b'0'),
        b'a'..=b'f' => Some(byte - b'a' + 10),
        b'A'..=b'F' => Some(byte - b'A' + 10),
        _ => None,
    }
}

fn from_hex(line: &[u8]) -> Option<Vec<u8>> {
    if line.len() % 2 == 1 {
        return None;
    }
    let mut bytes = Vec::with_capacity(line.len() / 2);
    for pair in line.chunks_exact(2) {
        bytes.push(digit(pair[0])? << 4 | digit(pair[1])?);
    }
    Some(bytes)
}

fn put_hex(out: &mut impl Write, bytes: &[u8]) -> io::Result<()> {
    const DIGITS: &[u8; 16] = b"0123456789abcdef";
    let mut text = Vec::with_capacity(2 * bytes.len() + 1);
    for byte in bytes {
        text.push(DIGITS[usize::from(byte >> 4)]);
        text.push(DIGITS[usize::from(byte & 15)]);
    }
    text.push(b'\n');
    out.write_all(&text)
}

fn main() -> io::Result<()> {
    let words: Vec<String> = env::args().collect();
    let circuit = words[1].parse().expect("a circuit");
    let me = words[2].parse().expect("a member");
    let mut acceptor = Acceptor { circuit, me, rows: HashMap::new() };
    let mut input = Vec::new();
    io::stdin().read_to_end(&mut input)?;
    let mut out = BufWriter::new(io::stdout().lock());
    for line in input.split(|byte| *byte == b'\n') {
        if line.iter().all(|byte| *byte == b' ') {
            continue;
        }
        let Some(bytes) = from_hex(line) else {
            writeln!(out, "refused not-hex")?;
            continue;
        };
        match acceptor.answer(&bytes) {
            Ok(Some(reply)) => put_hex(&mut out, &reply)?,
            Ok(None) => writeln!(out, "silent")?,
            Err(fault) => writeln!(out, "refused {fault}")?,
        }
    }
    out.flush()
}

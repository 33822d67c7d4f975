//! hand QUERY TRACE: what marple makes of a trace for these queries, handwritten in Rust with only std: the same
//! records (quotes, empty lines, CR LF, a byte order mark), the same forms of numbers, the same first fault, and the
//! fold over all packets of each key. There are no epochs: one pass, and a map from key to state.

mod trace;

use std::collections::HashMap;
use std::hash::{BuildHasherDefault, Hash, Hasher};
use std::io::{self, BufWriter, Write};
use std::process::ExitCode;
use trace::*;

/// A hash by multiplication, a word at a time.
#[derive(Default)]
struct Mixed(u64);

impl Hasher for Mixed {
    fn write(&mut self, bytes: &[u8]) {
        for word in bytes.chunks(8) {
            let mut whole = [0; 8];
            whole[..word.len()].copy_from_slice(word);
            self.write_u64(u64::from_le_bytes(whole));
        }
    }
    fn write_u64(&mut self, word: u64) {
        self.0 = (self.0.rotate_left(5) ^ word).wrapping_mul(0x9E37_79B9_7F4A_7C15);
    }
    fn write_usize(&mut self, word: usize) {
        self.write_u64(word as u64)
    }
    fn finish(&self) -> u64 {
        self.0 ^ (self.0 >> 32)
    }
}

type Map<K, V> = HashMap<K, V, BuildHasherDefault<Mixed>>;

fn five(words: &Words) -> [u64; 5] {
    [words[3], words[4], words[5], words[6], words[7]]
}

/// Writes the rows of a table in ascending order of their keys, each after this.
fn rows<const K: usize, const S: usize>(
    out: &mut impl Write,
    name: &str,
    map: Map<[u64; K], [u64; S]>,
) -> io::Result<()>
where
    [u64; K]: Hash + Ord,
{
    let mut rows: Vec<_> = map.into_iter().collect();
    rows.sort_unstable();
    for (key, state) in rows {
        write!(out, "{name}{}", key[0])?;
        for word in key[1..].iter().chain(&state) {
            write!(out, ",{word}")?;
        }
        writeln!(out)?;
    }
    Ok(())
}

fn count(text: &[u8], out: &mut impl Write) -> Result<io::Result<()>, String> {
    let mut map = Map::default();
    packets(text, 1 << SRCIP, |p| {
        let state = map.entry([p[SRCIP]]).or_insert([0u64]);
        state[0] = state[0].wrapping_add(1);
    })?;
    Ok(rows(out, "", map))
}

fn sum(text: &[u8], out: &mut impl Write) -> Result<io::Result<()>, String> {
    let mut map = Map::default();
    packets(text, FIVE | 1 << PKT_LEN, |p| {
        let state = map.entry(five(p)).or_insert([0u64]);
        state[0] = state[0].wrapping_add(p[PKT_LEN]);
    })?;
    Ok(rows(out, "", map))
}

fn max(text: &[u8], out: &mut impl Write) -> Result<io::Result<()>, String> {
    let mut map = Map::default();
    packets(text, 1 << SRCIP | 1 << QSIZE, |p| {
        let state = map.entry([p[SRCIP]]).or_insert([0u64]);
        state[0] = state[0].max(p[QSIZE]);
    })?;
    Ok(rows(out, "", map))
}

/// The last sequence number and the packets out of sequence.
fn sequence(state: &mut [u64; 2], p: &Words) {
    if state[0] != p[TCPSEQ] {
        state[1] = state[1].wrapping_add(1);
    }
    state[0] = p[TCPSEQ].wrapping_add(p[PAYLOAD_LEN]);
}

fn oos(text: &[u8], out: &mut impl Write) -> Result<io::Result<()>, String> {
    let mut map: Map<[u64; 5], [u64; 2]> = Map::default();
    packets(text, FIVE | 1 << TCPSEQ | 1 << PAYLOAD_LEN, |p| {
        sequence(map.entry(five(p)).or_default(), p);
    })?;
    Ok(rows(out, "", map))
}

/// The states of the eight groupbys.
#[derive(Default)]
struct Eight {
    flows: Map<[u64; 5], [u64; 2]>,
    orders: Map<[u64; 5], [u64; 2]>,
    queues: Map<[u64; 2], [u64; 2]>,
    delays: Map<[u64; 1], [u64; 1]>,
    trails: Map<[u64; 1], [u64; 2]>,
    drops: Map<[u64; 4], [u64; 2]>,
    victims: Map<[u64; 2], [u64; 1]>,
    ports: Map<[u64; 1], [u64; 1]>,
}

impl Eight {
    fn take(&mut self, p: &Words) {
        let flow = self.flows.entry(five(p)).or_default();
        flow[0] = flow[0].wrapping_add(1);
        flow[1] = flow[1].wrapping_add(p[PKT_LEN]);
        sequence(self.orders.entry(five(p)).or_default(), p);
        if p[TOUT] != u64::MAX {
            self.take_kept(p, p[TOUT].wrapping_sub(p[TIN]));
        }
        let trail = self.trails.entry([p[SWITCH]]).or_default();
        if p[UID] < trail[0] {
            trail[1] = trail[1].wrapping_add(1);
        }
        trail[0] = trail[0].max(p[UID]);
        let drop = self
            .drops
            .entry([p[SWITCH], p[SRCIP], p[DSTPORT], p[PROTO]])
            .or_default();
        drop[0] = drop[0].wrapping_add(1);
        if p[TOUT] == u64::MAX {
            drop[1] = drop[1].wrapping_add(1);
            self.take_dropped(p);
        }
    }

    /// A packet that wasn't dropped, with its delay.
    fn take_kept(&mut self, p: &Words, delay: u64) {
        let queue = self.queues.entry([p[SWITCH], p[QID]]).or_default();
        queue[0] = queue[0].max(p[QSIZE]);
        queue[1] = queue[1].max(delay);
        let average = self.delays.entry([p[SRCIP]]).or_default();
        average[0] = (average[0] - (average[0] >> 3)).wrapping_add(delay >> 3);
    }

    /// A packet that was dropped.
    fn take_dropped(&mut self, p: &Words) {
        let victim = self.victims.entry([p[SRCIP], p[DSTPORT]]).or_default();
        victim[0] = victim[0].wrapping_add(1);
        if p[DSTPORT] != 0 {
            let port = self.ports.entry([p[DSTPORT]]).or_default();
            port[0] = port[0].wrapping_add(1);
        }
    }

    fn write(self, out: &mut impl Write) -> io::Result<()> {
        rows(out, "flows,", self.flows)?;
        rows(out, "orders,", self.orders)?;
        rows(out, "queues,", self.queues)?;
        rows(out, "delays,", self.delays)?;
        rows(out, "trails,", self.trails)?;
        rows(out, "drops,", self.drops)?;
        rows(out, "victims,", self.victims)?;
        rows(out, "ports,", self.ports)
    }
}

fn eight(text: &[u8], out: &mut impl Write) -> Result<io::Result<()>, String> {
    let mut states = Eight::default();
    packets(text, ALL, |p| states.take(p))?;
    Ok(states.write(out))
}

fn main() -> ExitCode {
    let words: Vec<String> = std::env::args().collect();
    let [_, query, trace] = words.as_slice() else {
        return ExitCode::from(2);
    };
    let Ok(text) = std::fs::read(trace) else {
        return ExitCode::from(3);
    };
    let mut out = BufWriter::new(io::stdout().lock());
    let written = match query.as_str() {
        "count" => count(&text, &mut out),
        "sum" => sum(&text, &mut out),
        "max" => max(&text, &mut out),
        "oos" => oos(&text, &mut out),
        "eight" => eight(&text, &mut out),
        _ => return ExitCode::from(2),
    };
    match written.map(|written| written.and_then(|()| out.flush())) {
        Ok(Ok(())) => ExitCode::SUCCESS,
        Ok(Err(_)) => ExitCode::from(6),
        Err(fault) => {
            eprintln!("marple: trace: {fault}");
            ExitCode::from(5)
        }
    }
}

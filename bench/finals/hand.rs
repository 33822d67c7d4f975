//! What the five queries print, in Rust: no quotes, no check of the number of fields, and a map from key to state for
//! each groupby, whose rows are sorted by their keys before a final takes them.
use std::cmp::Reverse;
use std::collections::HashMap;
use std::io::{BufWriter, Write};

type Flow = [u64; 5];
type Rows = Vec<(Flow, [u64; 2])>;

/// The fields of a line of nine numbers.
fn fields(line: &[u8]) -> [u64; 9] {
    let mut words = [0u64; 9];
    for (word, digits) in words.iter_mut().zip(line.split(|byte| *byte == b',')) {
        for digit in digits {
            *word = *word * 10 + u64::from(*digit - b'0');
        }
    }
    words
}

/// Calls `take` on the fields of each packet.
fn each_packet(trace: &[u8], mut take: impl FnMut(&[u64; 9])) {
    for line in trace.split(|byte| *byte == b'\n').skip(1).filter(|line| !line.is_empty()) {
        take(&fields(line));
    }
}

/// Adds two numbers to those of a packet's flow.
fn add(sums: &mut HashMap<Flow, [u64; 2]>, words: &[u64; 9], more: [u64; 2]) {
    let sum = sums.entry([words[0], words[1], words[2], words[3], words[4]]).or_default();
    *sum = [sum[0].wrapping_add(more[0]), sum[1].wrapping_add(more[1])];
}

/// The rows of a groupby, by their keys.
fn sorted(sums: HashMap<Flow, [u64; 2]>) -> Rows {
    let mut rows: Rows = sums.into_iter().collect();
    rows.sort_unstable_by_key(|(flow, _)| *flow);
    rows
}

/// Bytes and packets of each flow.
fn volumes(trace: &[u8]) -> Rows {
    let mut sums = HashMap::new();
    each_packet(trace, |words| add(&mut sums, words, [words[5], 1]));
    sorted(sums)
}

/// Bytes and packets of each flow, and the sum of its queues' sizes, by one pass over the packets.
fn volumes_and_queues(trace: &[u8]) -> (Rows, Rows) {
    let (mut sums, mut queues) = (HashMap::new(), HashMap::new());
    each_packet(trace, |words| {
        add(&mut sums, words, [words[5], 1]);
        add(&mut queues, words, [words[8], 0]);
    });
    (sorted(sums), sorted(queues))
}

/// Writes a table of flows with these columns.
fn write_flows(columns: &str, rows: &[(Flow, Vec<u64>)]) -> std::io::Result<()> {
    let mut out = BufWriter::with_capacity(1 << 16, std::io::stdout().lock());
    writeln!(out, "table t final {}\nsrcip,dstip,srcport,dstport,proto,{columns}", rows.len())?;
    for ([srcip, dstip, srcport, dstport, proto], values) in rows {
        write!(out, "{srcip},{dstip},{srcport},{dstport},{proto}")?;
        for value in values {
            write!(out, ",{value}")?;
        }
        writeln!(out)?;
    }
    out.flush()
}

/// The sums of a table by source port, and how many rows it has of each.
fn write_by_port(rows: &Rows) -> std::io::Result<()> {
    let mut found: HashMap<u64, [u64; 2]> = HashMap::new();
    for (flow, values) in rows {
        let sum = found.entry(flow[2]).or_default();
        *sum = [sum[0].wrapping_add(values[0]), sum[1] + 1];
    }
    let mut ports: Vec<_> = found.into_iter().collect();
    ports.sort_unstable();
    let mut out = BufWriter::with_capacity(1 << 16, std::io::stdout().lock());
    writeln!(out, "table t final {}\nsrcport,b,f", ports.len())?;
    for (port, [bytes, flows]) in ports {
        writeln!(out, "{port},{bytes},{flows}")?;
    }
    out.flush()
}

fn main() -> std::io::Result<()> {
    let words: Vec<String> = std::env::args().collect();
    let trace = std::fs::read(&words[2])?;
    let whole = |(flow, [s, n]): (Flow, [u64; 2])| (flow, vec![s, n]);
    match words[1].as_str() {
        "filter" => {
            let kept = volumes(&trace).into_iter().filter(|(_, [s, _])| *s < 60);
            write_flows("s,n", &kept.map(whole).collect::<Vec<_>>())
        }
        "map" => {
            let mapped = volumes(&trace).into_iter().map(|(flow, [s, n])| (flow, vec![s, n, s.wrapping_mul(8), s / 2]));
            write_flows("s,n,bits,half", &mapped.collect::<Vec<_>>())
        }
        "groupby" => write_by_port(&volumes(&trace)),
        "join" => {
            // both have the same keys in the same order
            let (rows, queues) = volumes_and_queues(&trace);
            let joined = rows.into_iter().zip(queues).map(|((flow, [s, n]), (_, [q, _]))| (flow, vec![s, n, q]));
            write_flows("s,n,q", &joined.collect::<Vec<_>>())
        }
        "top" => {
            let mut best = volumes(&trace);
            best.sort_by_key(|(_, [s, _])| Reverse(*s));
            best.truncate(5);
            best.sort_unstable_by_key(|(flow, _)| *flow);
            write_flows("s,n", &best.into_iter().map(whole).collect::<Vec<_>>())
        }
        _ => std::process::exit(2),
    }
}

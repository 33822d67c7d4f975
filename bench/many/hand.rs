//! What `many.query` prints, handwritten: no quotes, no check of the number of fields, and two maps from key to state.
use std::cmp::Reverse;
use std::collections::HashMap;

/// The fields of a line of nine numbers.
fn fields(line: &[u8]) -> [u64; 9] {
    let mut words = [0u64; 9];
    for (word, digits) in words.iter_mut().zip(line.split(|byte| *byte == b',')) {
        for digit in digits {
            *word = *word * 10 + u64::from(*digit - b'0');
        }
    }
    words
}

#[derive(Default)]
struct Sum {
    bytes: u64,
    packets: u64,
}

#[derive(Default)]
struct NonMonotone {
    highest: u64,
    count: u64,
}

fn main() {
    let path = std::env::args().nth(1).expect("a trace");
    let trace = std::fs::read(path).expect("a trace that can be read");
    let mut sums: HashMap<[u64; 5], Sum> = HashMap::new();
    let mut late: HashMap<u64, NonMonotone> = HashMap::new();
    for line in trace.split(|byte| *byte == b'\n').skip(1).filter(|line| !line.is_empty()) {
        let [srcip, dstip, srcport, dstport, proto, pkt_len, tin, _, _] = fields(line);
        let sum = sums.entry([srcip, dstip, srcport, dstport, proto]).or_default();
        sum.bytes = sum.bytes.wrapping_add(pkt_len);
        sum.packets += 1;
        let state = late.entry(srcip).or_default();
        state.count += u64::from(tin < state.highest);
        state.highest = state.highest.max(tin);
    }
    // marple makes both tables, in the order of their keys, before it takes the greatest of one
    let mut rows: Vec<_> = sums.into_iter().collect();
    rows.sort_unstable_by_key(|(key, _)| *key);
    let mut others: Vec<_> = late.into_iter().collect();
    others.sort_unstable_by_key(|(key, _)| *key);
    assert!(others.iter().all(|(_, state)| state.count <= state.highest));
    rows.sort_by_key(|(_, sum)| Reverse(sum.bytes));
    rows.truncate(5);
    rows.sort_unstable_by_key(|(key, _)| *key);
    println!("table t final {}", rows.len());
    println!("srcip,dstip,srcport,dstport,proto,s,n");
    for ([srcip, dstip, srcport, dstport, proto], sum) in rows {
        println!("{srcip},{dstip},{srcport},{dstport},{proto},{},{}", sum.bytes, sum.packets);
    }
}

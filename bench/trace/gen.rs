// gen PACKETS START: the same generator, handwritten, std only: a queue of departure times for each switch, and digits
// into one buffer.
use std::collections::VecDeque;
use std::io::Write;

fn put(out: &mut Vec<u8>, mut n: u64, end: u8) {
    let mut digits = [0u8; 20];
    let mut at = 20;
    loop {
        at -= 1;
        digits[at] = b'0' + (n % 10) as u8;
        n /= 10;
        if n == 0 {
            break;
        }
    }
    out.extend_from_slice(&digits[at..]);
    out.push(end);
}

fn main() {
    let words: Vec<u64> = std::env::args().skip(1).map(|w| w.parse().unwrap()).collect();
    let (packets, mut x) = (words[0], words[1]);
    let mut draw = || {
        x = (x * 1103515245 + 12345) % (1 << 31);
        x >> 16
    };
    let mut out = Vec::with_capacity(1 << 20);
    out.extend_from_slice(b"switch,qid,uid,srcip,dstip,srcport,dstport,proto,pkt_len,payload_len,tcpseq,tin,tout,qsize\n");
    let mut next = [0u64; 64];
    let mut last = [0u64; 4];
    let mut queues: Vec<VecDeque<u64>> = (0..4).map(|_| VecDeque::new()).collect();
    let mut time = 0;
    for i in 1..=packets {
        let (d1, d2, d3, d4) = (draw(), draw(), draw(), draw());
        time += d1 % 50;
        let flow = d2 % 64;
        let (f, s) = (flow as usize, (flow % 4) as usize);
        let payload = d3 % 1461;
        let seq = next[f] + u64::from(d4 % 16 == 0);
        next[f] = seq + payload;
        let queue = &mut queues[s];
        while queue.front().is_some_and(|&t| t <= time) {
            queue.pop_front();
        }
        let qsize = queue.len() as u64;
        let tout = if qsize >= 16 {
            None
        } else {
            last[s] = time.max(last[s]) + (payload + 40) / 8;
            queue.push_back(last[s]);
            Some(last[s])
        };
        for n in [1 + flow % 4, 0, i, 167772160 + flow, 167837696 + flow % 8, 1024 + flow, 80, 6, payload + 40, payload, seq, time] {
            put(&mut out, n, b',');
        }
        match tout {
            Some(t) => put(&mut out, t, b','),
            None => out.extend_from_slice(b"inf,"),
        }
        put(&mut out, qsize, b'\n');
        if out.len() > 1 << 19 {
            std::io::stdout().write_all(&out).unwrap();
            out.clear();
        }
    }
    std::io::stdout().write_all(&out).unwrap();
}

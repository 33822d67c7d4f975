// count TRACE: packets by srcip, handwritten, std only: the whole file in memory, columns found by a scan for ',' and
// LF, one map from word to count.
use std::collections::HashMap;
use std::hash::{BuildHasherDefault, Hasher};

#[derive(Default)]
struct Mixed(u64);

impl Hasher for Mixed {
    fn write(&mut self, bytes: &[u8]) {
        for &byte in bytes {
            self.write_u64(u64::from(byte));
        }
    }
    fn write_u64(&mut self, word: u64) {
        self.0 = (self.0.rotate_left(5) ^ word).wrapping_mul(0x9E37_79B9_7F4A_7C15);
    }
    fn finish(&self) -> u64 {
        self.0 ^ (self.0 >> 32)
    }
}

fn main() {
    let path = std::env::args().nth(1).unwrap();
    let bytes = std::fs::read(path).unwrap();
    let mut lines = bytes.split(|&byte| byte == b'\n').filter(|line| !line.is_empty());
    let column = lines.next().unwrap().split(|&byte| byte == b',').position(|name| name == b"srcip").unwrap();
    let mut counts: HashMap<u64, u64, BuildHasherDefault<Mixed>> = HashMap::default();
    for line in lines {
        let text = line.split(|&byte| byte == b',').nth(column).unwrap();
        let mut word = 0u64;
        for &byte in text {
            assert!(byte.is_ascii_digit());
            word = word.checked_mul(10).unwrap().checked_add(u64::from(byte - b'0')).unwrap();
        }
        *counts.entry(word).or_default() += 1;
    }
    let mut rows: Vec<_> = counts.into_iter().collect();
    rows.sort();
    for (key, count) in rows {
        println!("{key},{count}");
    }
}

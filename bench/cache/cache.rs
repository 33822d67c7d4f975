// The same algorithm as the proved cache, in plain Rust: buckets with an order of ways and the words of their keys, and
// the words of an entry at each place. It counts steps as the proved one does.

struct Steps(u64);

impl Steps {
    #[inline]
    fn tick(&mut self) {
        self.0 = self.0.saturating_add(1);
    }
}

enum Touch {
    Hit(usize),
    Free(usize),
    Full(usize),
}

struct Bucket {
    first: usize,
    key_words: usize,
    used: usize,
    order: Vec<usize>,
    words: Vec<u64>,
}

fn same_words(a: &[u64], b: &[u64], steps: &mut Steps) -> bool {
    for i in 0..a.len() {
        steps.tick();
        if a[i] != b[i] {
            return false;
        }
    }
    true
}

fn copy_words(to: &mut [u64], from: &[u64], steps: &mut Steps) {
    for i in 0..from.len() {
        to[i] = from[i];
        steps.tick();
    }
}

fn move_to_front(order: &mut [usize], at: usize, steps: &mut Steps) {
    let mut carried = order[at];
    for i in 0..at + 1 {
        let next = order[i];
        order[i] = carried;
        carried = next;
        steps.tick();
    }
}

impl Bucket {
    fn find_key(&self, key: &[u64], steps: &mut Steps) -> Option<usize> {
        for i in 0..self.used {
            let start = self.order[i] * key.len();
            if same_words(&self.words[start..start + key.len()], key, steps) {
                return Some(i);
            }
        }
        None
    }

    fn put(&mut self, at: usize, key: &[u64], steps: &mut Steps) -> usize {
        let way = self.order[at];
        move_to_front(&mut self.order, at, steps);
        let start = way * key.len();
        copy_words(&mut self.words[start..start + key.len()], key, steps);
        way
    }

    fn touch(&mut self, key: &[u64], steps: &mut Steps) -> Touch {
        match self.find_key(key, steps) {
            Some(at) => {
                let way = self.order[at];
                move_to_front(&mut self.order, at, steps);
                Touch::Hit(self.first + way)
            }
            None => {
                if self.used < self.order.len() {
                    let way = self.put(self.used, key, steps);
                    self.used += 1;
                    Touch::Free(self.first + way)
                } else {
                    Touch::Full(self.first + self.order[self.used - 1])
                }
            }
        }
    }

    fn replace(&mut self, key: &[u64], steps: &mut Steps) -> usize {
        let last = self.order.len() - 1;
        self.first + self.put(last, key, steps)
    }
}

struct Cache {
    buckets: Vec<Bucket>,
    entries: Vec<Vec<u64>>,
}

impl Cache {
    fn new(buckets: usize, ways: usize, key_words: usize, entry_words: usize) -> Cache {
        Cache {
            buckets: (0..buckets)
                .map(|i| Bucket {
                    first: i * ways,
                    key_words,
                    used: 0,
                    order: (0..ways).collect(),
                    words: vec![0; ways * key_words],
                })
                .collect(),
            entries: (0..buckets * ways).map(|_| vec![0; entry_words]).collect(),
        }
    }
}

fn bucket_of(key: &[u64], buckets: u32, steps: &mut Steps) -> u32 {
    let mut hash: u64 = 0;
    for word in key {
        hash = (hash ^ *word).wrapping_mul(0x9E37_79B9_7F4A_7C15);
        steps.tick();
    }
    ((hash >> 32) % u64::from(buckets)) as u32
}

fn use_key(cache: &mut Cache, key: &[u64], tally: &mut (u64, u64), steps: &mut Steps) {
    let bucket = bucket_of(key, 1024, steps) as usize;
    match cache.buckets[bucket].touch(key, steps) {
        Touch::Hit(place) => {
            tally.0 = tally.0.wrapping_add(1);
            let count = cache.entries[place][0];
            cache.entries[place][0] = count.wrapping_add(1);
        }
        Touch::Free(place) => cache.entries[place][0] = 1,
        Touch::Full(place) => {
            tally.1 = tally.1.wrapping_add(cache.entries[place][0]);
            cache.buckets[bucket].replace(key, steps);
            cache.entries[place][0] = 1;
        }
    }
}

fn main() {
    let mut cache = Cache::new(1024, 8, 2, 8);
    let mut steps = Steps(0);
    let mut seed: u64 = 1;
    let mut tally = (0, 0);
    for _ in 0..4_000_000 {
        seed = seed
            .wrapping_mul(6364136223846793005)
            .wrapping_add(1442695040888963407);
        let key = [(seed >> 33) % 200, (seed >> 45) % 100];
        use_key(&mut cache, &key, &mut tally, &mut steps);
    }
    assert!(cache.buckets[0].key_words == 2 && steps.0 > 0);
    println!("{} {}", tally.0, tally.1);
}

//! A small deterministic generator of numbers (splitmix64).

pub struct Rng(u64);

impl Rng {
    /// The numbers of one case: seed, family and index decide them.
    pub fn of(seed: u64, family: &str, index: u64) -> Rng {
        let mut rng = Rng(seed);
        for word in family.bytes().map(u64::from).chain([index]) {
            rng.0 = rng.next() ^ word;
        }
        rng
    }

    pub fn next(&mut self) -> u64 {
        self.0 = self.0.wrapping_add(0x9e3779b97f4a7c15);
        let mut z = self.0;
        z = (z ^ (z >> 30)).wrapping_mul(0xbf58476d1ce4e5b9);
        z = (z ^ (z >> 27)).wrapping_mul(0x94d049bb133111eb);
        z ^ (z >> 31)
    }

    /// One of 0 to count - 1; 0 for a count of 0.
    pub fn below(&mut self, count: usize) -> usize {
        (self.next() % count.max(1) as u64) as usize
    }

    /// One of low to high.
    pub fn range(&mut self, low: i32, high: i32) -> i32 {
        let width = (high as i64 - low as i64 + 1).max(1) as u64;
        (low as i64 + (self.next() % width) as i64) as i32
    }

    pub fn size(&mut self, low: usize, high: usize) -> usize {
        low + self.below(high + 1 - low)
    }

    pub fn chance(&mut self, percent: usize) -> bool {
        self.below(100) < percent
    }

    pub fn pick<T: Clone>(&mut self, items: &[T]) -> T {
        items[self.below(items.len())].clone()
    }

    pub fn shuffle<T>(&mut self, items: &mut [T]) {
        for at in (1..items.len()).rev() {
            items.swap(at, self.below(at + 1));
        }
    }
}

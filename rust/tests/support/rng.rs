//! Splitmix64.

pub struct Rng(u64);

const STEP: u64 = 0x9e37_79b9_7f4a_7c15;

fn mix(z: u64) -> u64 {
    let z = (z ^ (z >> 30)).wrapping_mul(0xbf58_476d_1ce4_e5b9);
    let z = (z ^ (z >> 27)).wrapping_mul(0x94d0_49bb_1331_11eb);
    z ^ (z >> 31)
}

impl Rng {
    /// The numbers of one round, which don't depend on the rounds before it.
    pub fn of_round(seed: u64, family: &str, round: u64) -> Rng {
        let mut state = mix(seed.wrapping_add(STEP));
        for byte in family.bytes() {
            state = mix(state ^ byte as u64);
        }
        Rng(mix(state ^ mix(round.wrapping_add(STEP))))
    }

    pub fn next(&mut self) -> u64 {
        self.0 = self.0.wrapping_add(STEP);
        mix(self.0)
    }

    /// 0 to n − 1.
    pub fn below(&mut self, n: usize) -> usize {
        ((self.next() as u128 * n as u128) >> 64) as usize
    }

    /// 0 to n.
    pub fn up_to(&mut self, n: usize) -> usize {
        self.below(n + 1)
    }

    pub fn one_in(&mut self, n: usize) -> bool {
        self.below(n) == 0
    }

    pub fn pick<T: Copy>(&mut self, from: &[T]) -> T {
        from[self.below(from.len())]
    }
}

//! A small seeded generator of numbers (splitmix64), so that every script can
//! be made again from its seed and number alone.

/// Steps the counter; odd, so that all 2^64 states are met.
const STRIDE: u64 = 0x9E37_79B9_7F4A_7C15;

pub struct Prng {
    state: u64,
}

impl Prng {
    pub fn new(seed: u64) -> Prng {
        Prng { state: seed }
    }

    /// The generator of one script. The seed is mixed first, so that script 2
    /// of seed 1 is not script 1 of seed 2.
    pub fn of_script(seed: u64, number: usize) -> Prng {
        let mixed = Prng::new(seed).next();
        Prng::new(mixed ^ (number as u64).wrapping_mul(STRIDE.rotate_left(32)))
    }

    /// A generator beside this one that takes nothing from it: what is drawn
    /// there leaves what this one gives as it was.
    pub fn apart(&self) -> Prng {
        Prng::new(Prng::new(!self.state).next())
    }

    pub fn next(&mut self) -> u64 {
        self.state = self.state.wrapping_add(STRIDE);
        let mut mixed = self.state;
        mixed = (mixed ^ (mixed >> 30)).wrapping_mul(0xBF58_476D_1CE4_E5B9);
        mixed = (mixed ^ (mixed >> 27)).wrapping_mul(0x94D0_49BB_1331_11EB);
        mixed ^ (mixed >> 31)
    }

    /// From 0 to `bound` − 1; `bound` is not 0. Its bias is of no account for
    /// bounds as small as those used here.
    pub fn below(&mut self, bound: usize) -> usize {
        (self.next() % bound as u64) as usize
    }

    /// From `low` to `high`, both included.
    pub fn between(&mut self, low: i32, high: i32) -> i32 {
        let width = (i64::from(high) - i64::from(low)) as u64 + 1;
        (i64::from(low) + (self.next() % width) as i64) as i32
    }

    /// True in so many of a hundred cases.
    pub fn chance(&mut self, percent: usize) -> bool {
        self.below(100) < percent
    }

    /// One of several; there is at least one.
    pub fn pick<T: Copy>(&mut self, choices: &[T]) -> T {
        choices[self.below(choices.len())]
    }

    pub fn shuffle<T>(&mut self, items: &mut [T]) {
        for end in (1..items.len()).rev() {
            items.swap(end, self.below(end + 1));
        }
    }
}

#[cfg(test)]
mod tests {
    use super::*;

    #[test]
    fn known_numbers_of_splitmix64() {
        let mut prng = Prng::new(1_234_567);
        let first = [prng.next(), prng.next(), prng.next()];
        let expected = [
            6_457_827_717_110_365_317,
            3_203_168_211_198_807_973,
            9_817_491_932_198_370_423,
        ];
        assert_eq!(first, expected);
    }

    #[test]
    fn scripts_have_generators_of_their_own() {
        let first = |seed, number| Prng::of_script(seed, number).next();
        assert_eq!(first(1, 2), first(1, 2));
        assert_ne!(first(1, 2), first(2, 1));
        assert_ne!(first(1, 1), first(1, 2));
    }

    #[test]
    fn a_generator_apart_takes_nothing() {
        let mut prng = Prng::of_script(1, 2);
        let mut apart = prng.apart();
        assert_ne!(apart.next(), prng.next());
        assert_eq!(prng.next(), {
            let mut alone = Prng::of_script(1, 2);
            alone.next();
            alone.next()
        });
        let first = |number| Prng::of_script(1, number).apart().next();
        assert_eq!(first(2), first(2));
        assert_ne!(first(2), first(3));
    }

    #[test]
    fn ranges_are_met_to_their_ends() {
        let mut prng = Prng::new(7);
        let mut met = [false; 5];
        for _ in 0..1_000 {
            let value = prng.between(-2, 2);
            met[usize::try_from(value + 2).unwrap()] = true;
            assert!(prng.below(3) < 3);
        }
        assert_eq!(met, [true; 5]);
        assert_eq!(prng.between(i32::MAX, i32::MAX), i32::MAX);
        let wide: Vec<i32> = (0..100).map(|_| prng.between(i32::MIN, i32::MAX)).collect();
        assert!(wide.iter().any(|&value| value < 0) && wide.iter().any(|&value| value > 0));
    }

    #[test]
    fn chance_keeps_its_share() {
        let mut prng = Prng::new(3);
        let hits = (0..10_000).filter(|_| prng.chance(30)).count();
        assert!((2_700..3_300).contains(&hits), "{hits}");
        assert!(!prng.chance(0) && prng.chance(100));
    }

    #[test]
    fn shuffle_keeps_the_items() {
        let mut items: Vec<usize> = (0..9).collect();
        Prng::new(5).shuffle(&mut items);
        assert_ne!(items, (0..9).collect::<Vec<_>>());
        items.sort_unstable();
        assert_eq!(items, (0..9).collect::<Vec<_>>());
    }
}

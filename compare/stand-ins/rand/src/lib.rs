//! Stand-in for `rand`: what the given sources call, on a trivial generator that can tell what was drawn from it.

use std::ops::Range;

pub trait Rng {
    fn gen(&mut self) -> u32;

    fn gen_range(&mut self, range: Range<u32>) -> u32;
}

pub trait SeedableRng: Sized {
    fn seed_from_u64(seed: u64) -> Self;

    /// The same numbers at every run: nothing here may depend on chance.
    fn from_entropy() -> Self {
        Self::seed_from_u64(0)
    }
}

/// A number that was drawn from those below `end`.
#[derive(Clone, Copy, Debug)]
pub struct Draw {
    pub number: u32,
    pub end: u32,
}

pub mod rngs {
    use crate::Draw;
    use std::ops::Range;

    /// The state of a linear congruential generator, and what was drawn since that is kept.
    #[derive(Debug)]
    pub struct SmallRng {
        state: u64,
        log: Option<Vec<Draw>>,
    }

    impl SmallRng {
        pub fn keep_log(&mut self) {
            self.log = Some(Vec::new());
        }

        pub fn log(&self) -> &[Draw] {
            self.log.as_deref().unwrap_or(&[])
        }
    }

    impl crate::Rng for SmallRng {
        fn gen(&mut self) -> u32 {
            self.state =
                self.state.wrapping_mul(6364136223846793005).wrapping_add(1442695040888963407);
            (self.state >> 32) as u32
        }

        fn gen_range(&mut self, range: Range<u32>) -> u32 {
            let end = range.end - range.start;
            let number = self.gen() % end;
            if let Some(log) = &mut self.log {
                log.push(Draw { number, end });
            }
            range.start + number
        }
    }

    impl crate::SeedableRng for SmallRng {
        fn seed_from_u64(seed: u64) -> Self {
            Self { state: seed, log: None }
        }
    }
}

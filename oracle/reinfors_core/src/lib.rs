//! The published files of `reinfors-core` that the rules name, unchanged, under their crate's name.
//! `oracle/setup` copies them; only what they name and the rules never reach is stood in for below.

#[path = "../../../target/oracle/published/crates/reinfors-core/src/codec.rs"]
pub mod codec;
#[path = "../../../target/oracle/published/crates/reinfors-core/src/encoder.rs"]
pub mod encoder;
#[path = "../../../target/oracle/published/crates/reinfors-core/src/game.rs"]
pub mod game;
#[path = "../../../target/oracle/published/crates/reinfors-core/src/reward.rs"]
pub mod reward;
#[path = "../../../target/oracle/published/crates/reinfors-core/src/space.rs"]
pub mod space;

pub use encoder::{ActionView, StateEncoder};
pub use game::{ChanceDist, Rng};
pub use reward::Reward;
pub use space::Space;

/// Stand-in: only the weighted draws of `ChanceDist::draw` ask it, and every draw of the rules is uniform.
pub mod rng {
    pub fn weighted_index(_rng: &mut dyn crate::game::Rng, _weights: &[f64]) -> usize {
        unreachable!("the rules draw uniformly")
    }
}

/// Stand-in: only the default `StateEncoder::cache_key` names it, and nothing calls that.
pub mod rollout {
    pub mod infer_cache {
        pub struct CacheHasher;
    }
}

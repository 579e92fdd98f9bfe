//! A second implementation of the registry of a MOST ring, of the comparison of two listings, of a unit on the ring, and of the
//! cutting and joining of telegrams.

pub mod compare;
pub mod generate;
pub mod order;
pub mod player;
pub mod refusal;
pub mod registry;
pub mod sizes;
pub mod telegrams;
pub mod unit;
pub mod wire;

/// The hand-written scripts that play every edge and every outside vector.
pub mod scripts {
    pub const RINGBOX_EDGES: &str = include_str!("../scripts/ringbox-edges.txt");
    pub const LISTS_EDGES: &str = include_str!("../scripts/lists-edges.txt");
    pub const TELEGRAMS_EDGES: &str = include_str!("../scripts/telegrams-edges.txt");
    pub const UNIT_EDGES: &str = include_str!("../scripts/unit-edges.txt");
}

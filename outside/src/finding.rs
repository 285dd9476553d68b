//! What a call reports of each slot of the stripe that it looked at.

use crate::block::MAX_CARDS;

#[derive(Clone, Copy, Debug, PartialEq, Eq)]
pub enum Condition {
    NotLooked,
    Readable,
    Blind,
    Broken,
    Foreign,
    /// It missed a write.
    Behind,
}

/// The layer that showed what is wrong with a block.
#[derive(Clone, Copy, Debug, PartialEq, Eq)]
pub enum Layer {
    Card,
    Checksum,
    Identity,
    Version,
}

impl Condition {
    pub fn layer(self) -> Option<Layer> {
        match self {
            Condition::NotLooked | Condition::Readable => None,
            Condition::Blind => Some(Layer::Card),
            Condition::Broken => Some(Layer::Checksum),
            Condition::Foreign => Some(Layer::Identity),
            Condition::Behind => Some(Layer::Version),
        }
    }
}

#[derive(Clone, Copy, Debug, PartialEq, Eq)]
pub struct Finding {
    pub slot: u32,
    pub block: u32,
    /// What was judged before any mending.
    pub condition: Condition,
    /// The version less the mirrored one; for parity the greatest of the leads that were seen.
    pub lead: Option<i64>,
    pub mended: bool,
}

pub type Findings = [Finding; MAX_CARDS];

/// Rows for a stripe of which nothing was looked at.
pub fn blank(stripe: u32) -> Findings {
    std::array::from_fn(|slot| Finding {
        slot: slot as u32,
        block: stripe,
        condition: Condition::NotLooked,
        lead: None,
        mended: false,
    })
}

//! Images to start scripts from: valid arrays, and valid arrays with chosen damage.

use crate::block::{
    self, BLOCK, Block, CARDS, Identity, KIND, Kind, MARK, NUMBER, PAYLOAD, Payload, SLOT, Shape, TAG, VERSION,
    VERSIONS, data_slot, encode, put_word, seal, single_version,
};
use crate::checksum::{Checksum, Fletcher, Turning};
use crate::rng::Rng;

/// Where the versions of a made array lie.
#[derive(Clone, Copy, Debug)]
pub enum Versions {
    Small,
    NearLimit,
    Any,
}

impl Versions {
    pub fn draw(self, rng: &mut Rng) -> u32 {
        match self {
            Versions::Small => rng.below(5),
            Versions::NearLimit => u32::MAX - rng.pick(&[0, 0, 1, 1, 2, 3, 9]),
            Versions::Any => rng.word(),
        }
    }
}

/// How much damage is done.
#[derive(Clone, Copy, Debug)]
pub enum Harm {
    None,
    /// One bad block in some stripes.
    Light,
    /// Up to all blocks of most stripes.
    Heavy,
}

pub fn draw_payload(rng: &mut Rng) -> Payload {
    let mut payload = [0; PAYLOAD];
    match rng.below(4) {
        0 => payload.fill(rng.byte()),
        1 => payload[rng.below(PAYLOAD as u32) as usize] = rng.byte(),
        _ => rng.fill(&mut payload),
    }
    payload
}

/// The bytes of an image while it is made.
struct Draft {
    shape: Shape,
    bytes: Vec<u8>,
}

impl Draft {
    fn new(shape: Shape) -> Self {
        Self { shape, bytes: vec![0; shape.places() * (BLOCK + 1)] }
    }

    fn place(&self, slot: usize, number: u32) -> usize {
        slot * self.shape.blocks() as usize + number as usize
    }

    fn block(&mut self, slot: usize, number: u32) -> &mut Block {
        let start = self.place(slot, number) * BLOCK;
        self.bytes[start..].first_chunk_mut().expect("the place is in the image")
    }

    fn flag(&mut self, slot: usize, number: u32) -> &mut u8 {
        let index = self.shape.places() * BLOCK + self.place(slot, number);
        &mut self.bytes[index]
    }
}

/// A valid array with random records, then damaged.
pub fn crafted<C: Checksum>(
    rng: &mut Rng,
    shape: Shape,
    tag: u32,
    owners: &[u32],
    versions: Versions,
    harm: Harm,
) -> Vec<u8> {
    let mut draft = Draft::new(shape);
    for number in 0..shape.blocks() {
        for (slot, block) in stripe_blocks::<C>(rng, shape, tag, number, owners, versions).iter().enumerate() {
            *draft.block(slot, number) = *block;
        }
    }
    for number in 0..shape.blocks() {
        let bad = match harm {
            Harm::None => 0,
            Harm::Light => u32::from(rng.chance(40)),
            Harm::Heavy => rng.pick(&[0, 1, 1, 2, 2, 3, shape.cards()]),
        };
        for _ in 0..bad {
            let slot = rng.below(shape.cards()) as usize;
            damage::<C>(&mut draft, rng, slot, number);
        }
    }
    draft.bytes
}

/// The blocks of a clean stripe with random records, slot by slot.
pub fn stripe_blocks<C: Checksum>(
    rng: &mut Rng,
    shape: Shape,
    tag: u32,
    number: u32,
    owners: &[u32],
    versions: Versions,
) -> Vec<Block> {
    let parity = shape.parity_slot(number);
    let mut blocks = vec![[0; BLOCK]; shape.cards() as usize];
    let mut sum = [0; PAYLOAD];
    let mut sum_of_owners = 0;
    let mut mirrored = [0; VERSIONS];
    for (index, mirror) in mirrored.iter_mut().enumerate().take(shape.cards() as usize - 1) {
        let slot = data_slot(parity, index);
        let payload = draw_payload(rng);
        let owner = rng.pick(owners);
        *mirror = versions.draw(rng);
        block::xor_payload(&mut sum, &payload);
        sum_of_owners ^= owner;
        let identity = Identity::of_place(shape, tag, number, parity, slot);
        blocks[slot] = encode::<C>(&identity, &payload, owner, &single_version(*mirror));
    }
    let identity = Identity::of_place(shape, tag, number, parity, parity);
    blocks[parity] = encode::<C>(&identity, &sum, sum_of_owners, &mirrored);
    blocks
}

fn damage<C: Checksum>(draft: &mut Draft, rng: &mut Rng, slot: usize, number: u32) {
    let shape = draft.shape;
    match rng.below(10) {
        0 | 1 => *draft.flag(slot, number) = 1,
        2 => {
            let other = *draft.block(rng.below(shape.cards()) as usize, rng.below(shape.blocks()));
            *draft.block(slot, number) = other;
        }
        _ => {
            let block = *draft.block(slot, number);
            *draft.block(slot, number) = altered::<C>(rng, shape, block);
        }
    }
}

/// A block changed in one way. Most of the ways keep its checksum right.
pub fn altered<C: Checksum>(rng: &mut Rng, shape: Shape, mut block: Block) -> Block {
    match rng.below(14) {
        0 => block[rng.below(BLOCK as u32) as usize] ^= rng.range(1, 255) as u8,
        1 => block[rng.range(KIND as u32, 127) as usize] ^= 1 << rng.below(8),
        2 | 3 => {
            change_identity(rng, shape, &mut block);
            seal::<C>(&mut block);
        }
        4 | 5 => change_versions::<C>(rng, shape, &mut block, |version, rng| version.saturating_sub(rng.range(1, 3))),
        6 => change_versions::<C>(rng, shape, &mut block, |version, rng| version.saturating_add(rng.range(1, 3))),
        7 => change_versions::<C>(rng, shape, &mut block, |_, rng| rng.pick(&[0, 1, u32::MAX, u32::MAX - 1, 1 << 31])),
        8 => {
            block[rng.below(PAYLOAD as u32) as usize] ^= rng.range(1, 255) as u8;
            seal::<C>(&mut block);
        }
        9 => {
            put_word(&mut block, block::OWNER, rng.below(5));
            seal::<C>(&mut block);
        }
        10 => block.fill(0),
        11 => rng.fill(&mut block),
        12 => {
            block[MARK] = 3 - C::MARK;
            if C::MARK == Fletcher::MARK { seal::<Turning>(&mut block) } else { seal::<Fletcher>(&mut block) }
        }
        _ => {
            let length = rng.range(1, 127) as usize;
            block[length..].fill(0);
        }
    }
    block
}

/// Changes one field that the place of a block settles, or a version that it does not use.
fn change_identity(rng: &mut Rng, shape: Shape, block: &mut Block) {
    let used = used_versions(shape, block);
    let unused = if used < VERSIONS { VERSION + 4 * used } else { TAG };
    let offset = match rng.below(7) {
        0 => KIND,
        1 => MARK,
        2 => SLOT,
        3 => CARDS,
        4 => NUMBER + rng.below(4) as usize,
        5 => TAG + rng.below(4) as usize,
        _ => rng.range(unused as u32, TAG as u32 + 3) as usize,
    };
    block[offset] ^= rng.pick(&[1, 2, 3, 128, 255]);
}

/// Changes one version that a block uses, or all of them.
fn change_versions<C: Checksum>(rng: &mut Rng, shape: Shape, block: &mut Block, change: impl Fn(u32, &mut Rng) -> u32) {
    let used = used_versions(shape, block);
    let one = rng.below(used as u32) as usize;
    let all = rng.chance(20);
    for index in (0..used).filter(|&index| all || index == one) {
        let version = change(block::version(block, index), rng);
        put_word(block, VERSION + 4 * index, version);
    }
    seal::<C>(block);
}

fn used_versions(shape: Shape, block: &Block) -> usize {
    if block[KIND] == Kind::Parity as u8 { shape.cards() as usize - 1 } else { 1 }
}

/// Random bytes, with flags in range.
pub fn random(rng: &mut Rng, shape: Shape) -> Vec<u8> {
    let mut draft = Draft::new(shape);
    let flags = shape.places() * BLOCK;
    rng.fill(&mut draft.bytes[..flags]);
    let blind = rng.pick(&[0, 20, 100]);
    for flag in &mut draft.bytes[flags..] {
        *flag = u8::from(rng.chance(blind));
    }
    draft.bytes
}

//! The work that is timed: one kind of call, many times, on an array over an image.

use crate::Refusal;
use crate::array::{Array, Switch, Way, show};
use crate::block::{BLOCK, PAYLOAD};
use crate::checksum::{Checksum, Fletcher, Turning};
use crate::finding::blank;
use crate::shelf::Image;

/// What is worked on, and how.
#[derive(Clone, Copy, Debug)]
pub struct Job<'a> {
    /// 1 is Fletcher-32, any other number the turning sum.
    pub sum: u32,
    pub cards: u32,
    pub blocks: u32,
    pub tag: u32,
    pub what: u32,
    pub count: u32,
    pub image: &'a [u8],
}

pub const OPEN: u32 = 0;
pub const FORMAT: u32 = 1;
pub const READ_IN_ORDER: u32 = 2;
pub const READ_AT_RANDOM: u32 = 3;
pub const WRITE_ADDITIVE: u32 = 4;
pub const WRITE_SUBTRACTIVE: u32 = 5;
pub const SCRUB: u32 = 6;
pub const REBUILD: u32 = 7;

/// The number where the image or the tag is refused.
pub const REFUSED: u64 = u64::MAX;
/// The owner of all records that are read and written.
pub const OWNER: u32 = 7;

/// A number that depends on all results.
struct Number(u64);

impl Number {
    fn mix(&mut self, number: u32) {
        self.0 = self.0.wrapping_mul(31).wrapping_add(u64::from(number));
    }

    fn mix_all(&mut self, numbers: &[u32]) {
        numbers.iter().for_each(|&number| self.mix(number));
    }

    fn mix_refusal(&mut self, refusal: Refusal) {
        self.mix(refusal.number());
    }
}

struct RandomAddresses {
    x: u32,
    addresses: u32,
}

impl RandomAddresses {
    fn new(addresses: u32) -> Self {
        Self { x: 1, addresses }
    }

    fn next(&mut self) -> u32 {
        self.x = self.x.wrapping_mul(1_103_515_245).wrapping_add(12_345);
        self.x.rotate_left(16) % self.addresses
    }
}

pub fn bench(job: &Job) -> u64 {
    match job.sum {
        1 => bench_under::<Fletcher>(job),
        _ => bench_under::<Turning>(job),
    }
}

fn bench_under<C: Checksum>(job: &Job) -> u64 {
    let Ok(image) = Image::open(job.cards, job.blocks, job.image.to_vec()) else {
        return REFUSED;
    };
    let array = if job.what == FORMAT { Array::format(image, job.tag) } else { Array::open(image, job.tag) };
    let Ok(mut array) = array else {
        return REFUSED;
    };
    let mut number = Number(0);
    work::<C>(&mut array, job, &mut number);
    let places = array.shape().places();
    number.mix(u32::from(array.close().into_bytes()[places * BLOCK - 1]));
    number.0
}

fn work<C: Checksum>(array: &mut Array<Image, C>, job: &Job, number: &mut Number) {
    let mut random = RandomAddresses::new(array.shape().addresses());
    match job.what {
        READ_IN_ORDER => reads(array, 0..job.count, number),
        READ_AT_RANDOM => reads(array, (0..job.count).map(|_| random.next()), number),
        WRITE_ADDITIVE => writes(array, job.count, Way::Additive, random, number),
        WRITE_SUBTRACTIVE => writes(array, job.count, Way::Subtractive, random, number),
        SCRUB => scrub(array, job.count, number),
        REBUILD => {
            if let Err(refusal) = rebuild(array, job.count, number) {
                number.mix_refusal(refusal);
            }
        }
        _ => {}
    }
}

fn reads<C: Checksum>(array: &mut Array<Image, C>, addresses: impl Iterator<Item = u32>, number: &mut Number) {
    let mut found = [0; BLOCK];
    let mut rebuilt = [0; BLOCK];
    let mut findings = blank(0);
    for address in addresses {
        match array.read(address, OWNER, Switch::Off, &mut found, &mut rebuilt, &mut findings) {
            Ok(answer) => {
                match show(&found, &rebuilt, answer.source) {
                    Ok(payload) => number.mix(u32::from(payload[0])),
                    Err(refusal) => number.mix_refusal(refusal),
                }
                number.mix(answer.looks);
            }
            Err(refusal) => number.mix_refusal(refusal),
        }
    }
}

fn writes<C: Checksum>(
    array: &mut Array<Image, C>,
    count: u32,
    way: Way,
    mut random: RandomAddresses,
    number: &mut Number,
) {
    let mut findings = blank(0);
    for turn in 0..count {
        let payload = [turn as u8; PAYLOAD];
        match array.write(random.next(), OWNER, &payload, way, &mut findings) {
            Ok(answer) => number.mix(answer.looks),
            Err(refusal) => number.mix_refusal(refusal),
        }
    }
}

fn scrub<C: Checksum>(array: &mut Array<Image, C>, count: u32, number: &mut Number) {
    match array.scrub(count, &mut blank(0)) {
        Ok(answer) => {
            number.mix_all(&[answer.looked, answer.clean, answer.mended, answer.short, answer.lost]);
        }
        Err(refusal) => number.mix_refusal(refusal),
    }
}

fn rebuild<C: Checksum>(array: &mut Array<Image, C>, count: u32, number: &mut Number) -> Result<(), Refusal> {
    array.pull(1)?;
    let mut job = array.fit(1)?;
    match array.rebuild(&mut job, count) {
        Ok(answer) => number.mix_all(&[answer.moved, answer.mended, answer.lost]),
        Err(refusal) => number.mix_refusal(refusal),
    }
    // A refused finish is no result of its own: the job is then given up.
    match array.finish(job) {
        Ok(()) => Ok(()),
        Err((_, job)) => array.give_up(job),
    }
}

#[cfg(test)]
mod tests {
    use super::*;

    #[test]
    fn numbers_depend_on_the_results() {
        let image = vec![0; 3 * 4 * 129];
        let job = Job { sum: 2, cards: 3, blocks: 4, tag: 1, what: OPEN, count: 4, image: &image };
        assert_eq!(bench(&job), 0);
        assert_ne!(bench(&Job { what: FORMAT, ..job }), 0);
        // All blocks are foreign: four reads and writes refused by 8, four stripes lost, and the last byte stays 0.
        assert_eq!(bench(&Job { what: READ_IN_ORDER, ..job }), 31 * (((8 * 31 + 8) * 31 + 8) * 31 + 8));
        assert_eq!(bench(&Job { what: WRITE_ADDITIVE, ..job }), 31 * (((8 * 31 + 8) * 31 + 8) * 31 + 8));
        assert_eq!(bench(&Job { what: SCRUB, ..job }), 31 * (4 * 31u64.pow(4) + 4));
        assert_eq!(bench(&Job { what: REBUILD, ..job }), 31 * (4 * 31 * 31 + 4));
        assert_eq!(bench(&Job { what: REBUILD, count: 3, ..job }), 31 * (3 * 31 * 31 + 3));
        assert_eq!(bench(&Job { tag: 0, ..job }), REFUSED);
        assert_eq!(bench(&Job { blocks: 5, ..job }), REFUSED);
    }
}

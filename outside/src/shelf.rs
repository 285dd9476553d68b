//! Shelves: what holds the blocks of an array.
//!
//! `Image` holds them in memory, `ImageView` lends an image for reading, and `FaultLayer` stands over any shelf and
//! makes its writes go wrong as planned.

use crate::Refusal;
use crate::block::{BLOCK, Block, Shape};

/// What a read answers.
#[derive(Clone, Copy, Debug, PartialEq, Eq)]
pub enum Seen {
    Present,
    /// Nothing is seen of the place; the buffer holds zeros.
    Blind,
}

pub trait ReadableShelf {
    fn shape(&self) -> Shape;

    /// Reads a place that the shelf has.
    fn fetch(&self, slot: usize, block: u32, into: &mut Block) -> Seen;

    fn read(&self, slot: u32, block: u32, into: &mut [u8]) -> Result<Seen, Refusal> {
        let into = into.try_into().map_err(|_| Refusal::Length)?;
        check_place(self.shape(), slot, block)?;
        Ok(self.fetch(slot as usize, block, into))
    }
}

pub trait Shelf: ReadableShelf {
    /// Writes a place that the shelf has.
    fn store(&mut self, slot: usize, block: u32, bytes: &Block);

    fn write(&mut self, slot: u32, block: u32, bytes: &[u8]) -> Result<(), Refusal> {
        let bytes = bytes.try_into().map_err(|_| Refusal::Length)?;
        check_place(self.shape(), slot, block)?;
        self.store(slot as usize, block, bytes);
        Ok(())
    }
}

fn check_place(shape: Shape, slot: u32, block: u32) -> Result<(), Refusal> {
    if shape.has_place(slot, block) { Ok(()) } else { Err(Refusal::Place) }
}

/// The offset of a place in the order of an image.
fn offset(shape: Shape, slot: usize, block: u32) -> usize {
    slot * shape.blocks() as usize + block as usize
}

fn check_image(cards: u32, blocks: u32, bytes: &[u8]) -> Result<Shape, Refusal> {
    let shape = Shape::new(cards, blocks)?;
    if bytes.len() != shape.places() * (BLOCK + 1) {
        return Err(Refusal::Length);
    }
    let flags = &bytes[shape.places() * BLOCK..];
    if flags.iter().any(|&flag| flag > 1) {
        return Err(Refusal::Length);
    }
    Ok(shape)
}

fn fetch_from_image(shape: Shape, bytes: &[u8], slot: usize, block: u32, into: &mut Block) -> Seen {
    let place = offset(shape, slot, block);
    if bytes[shape.places() * BLOCK + place] == 0 {
        into.copy_from_slice(&bytes[place * BLOCK..][..BLOCK]);
        Seen::Present
    } else {
        into.fill(0);
        Seen::Blind
    }
}

/// A shelf in memory: all blocks slot by slot, then a flag byte for each.
#[derive(Debug)]
pub struct Image {
    shape: Shape,
    bytes: Vec<u8>,
}

#[derive(Debug, PartialEq, Eq)]
pub enum MakeError {
    Refused(Refusal),
    NoMemory,
}

impl Image {
    /// An image of zeros, with all places readable.
    pub fn zeroed(cards: u32, blocks: u32) -> Result<Self, MakeError> {
        let shape = Shape::new(cards, blocks).map_err(MakeError::Refused)?;
        let length = shape.places() * (BLOCK + 1);
        let mut bytes = Vec::new();
        bytes.try_reserve_exact(length).map_err(|_| MakeError::NoMemory)?;
        bytes.resize(length, 0);
        Ok(Self { shape, bytes })
    }

    /// Opens an image over bytes, which a refusal hands back.
    pub fn open(cards: u32, blocks: u32, bytes: Vec<u8>) -> Result<Self, (Refusal, Vec<u8>)> {
        match check_image(cards, blocks, &bytes) {
            Ok(shape) => Ok(Self { shape, bytes }),
            Err(refusal) => Err((refusal, bytes)),
        }
    }

    pub fn bytes(&self) -> &[u8] {
        &self.bytes
    }

    pub fn into_bytes(self) -> Vec<u8> {
        self.bytes
    }
}

impl ReadableShelf for Image {
    fn shape(&self) -> Shape {
        self.shape
    }

    fn fetch(&self, slot: usize, block: u32, into: &mut Block) -> Seen {
        fetch_from_image(self.shape, &self.bytes, slot, block, into)
    }
}

impl Shelf for Image {
    fn store(&mut self, slot: usize, block: u32, bytes: &Block) {
        let place = offset(self.shape, slot, block);
        self.bytes[place * BLOCK..][..BLOCK].copy_from_slice(bytes);
        self.bytes[self.shape.places() * BLOCK + place] = 0;
    }
}

/// An image that is only read.
#[derive(Clone, Copy, Debug)]
pub struct ImageView<'a> {
    shape: Shape,
    bytes: &'a [u8],
}

impl<'a> ImageView<'a> {
    pub fn open(cards: u32, blocks: u32, bytes: &'a [u8]) -> Result<Self, Refusal> {
        let shape = check_image(cards, blocks, bytes)?;
        Ok(Self { shape, bytes })
    }
}

impl ReadableShelf for ImageView<'_> {
    fn shape(&self) -> Shape {
        self.shape
    }

    fn fetch(&self, slot: usize, block: u32, into: &mut Block) -> Seen {
        fetch_from_image(self.shape, self.bytes, slot, block, into)
    }
}

/// What happens to a write in place of what it was told.
#[derive(Clone, Copy, Debug, PartialEq, Eq)]
pub enum Plan {
    Lose,
    /// Only so many bytes are written.
    Tear(u32),
    /// Nothing is written, and the place becomes blind.
    Spoil,
    /// The write goes to another block of the card.
    Stray(u32),
}

#[derive(Clone, Copy, Debug)]
enum Fault {
    /// The place is blind.
    Mark,
    Planned(Plan),
}

#[derive(Clone, Copy, Debug)]
struct Row {
    slot: u32,
    block: u32,
    fault: Fault,
}

impl Row {
    const EMPTY: Row = Row { slot: 0, block: 0, fault: Fault::Mark };

    fn is_at(&self, slot: u32, block: u32) -> bool {
        self.slot == slot && self.block == block
    }
}

pub const FAULT_ROWS: usize = 32;

/// A shelf over another one that loses, tears, spoils or misplaces writes as planned.
#[derive(Debug)]
pub struct FaultLayer<S> {
    below: S,
    /// In order of arrival; only the first `used` count.
    rows: [Row; FAULT_ROWS],
    used: usize,
}

impl<S> FaultLayer<S> {
    pub fn new(below: S) -> Self {
        Self { below, rows: [Row::EMPTY; FAULT_ROWS], used: 0 }
    }

    pub fn below(&self) -> &S {
        &self.below
    }

    pub fn into_below(self) -> S {
        self.below
    }

    pub fn rows_used(&self) -> usize {
        self.used
    }

    fn rows(&self) -> &[Row] {
        &self.rows[..self.used]
    }

    fn mark_at(&self, slot: u32, block: u32) -> Option<usize> {
        self.rows().iter().position(|row| row.is_at(slot, block) && matches!(row.fault, Fault::Mark))
    }

    fn is_marked(&self, slot: u32, block: u32) -> bool {
        self.mark_at(slot, block).is_some()
    }

    fn first_plan_at(&self, slot: u32, block: u32) -> Option<(usize, Plan)> {
        self.rows().iter().enumerate().find_map(|(index, row)| match row.fault {
            Fault::Planned(plan) if row.is_at(slot, block) => Some((index, plan)),
            _ => None,
        })
    }

    fn add(&mut self, slot: u32, block: u32, fault: Fault) -> Result<(), Refusal> {
        let row = self.rows.get_mut(self.used).ok_or(Refusal::TableFull)?;
        *row = Row { slot, block, fault };
        self.used += 1;
        Ok(())
    }

    fn remove(&mut self, index: usize) {
        self.rows.copy_within(index + 1..self.used, index);
        self.used -= 1;
    }

    fn remove_mark(&mut self, slot: u32, block: u32) {
        if let Some(index) = self.mark_at(slot, block) {
            self.remove(index);
        }
    }
}

impl<S: Shelf> FaultLayer<S> {
    /// Plans what happens to a coming write to a place.
    pub fn lay(&mut self, slot: u32, block: u32, plan: Plan) -> Result<(), Refusal> {
        let shape = self.shape();
        check_place(shape, slot, block)?;
        let in_range = match plan {
            Plan::Lose | Plan::Spoil => true,
            Plan::Tear(bytes) => (1..BLOCK as u32).contains(&bytes),
            Plan::Stray(target) => target < shape.blocks() && target != block,
        };
        if !in_range {
            return Err(Refusal::Place);
        }
        self.add(slot, block, Fault::Planned(plan))
    }

    /// Marks a place as blind.
    pub fn blind(&mut self, slot: u32, block: u32) -> Result<(), Refusal> {
        check_place(self.shape(), slot, block)?;
        if self.is_marked(slot, block) {
            return Ok(());
        }
        self.add(slot, block, Fault::Mark)
    }

    /// Changes one byte of a place on the shelf below. A place that is blind, by a mark or below, stays as it is.
    pub fn flip(&mut self, slot: u32, block: u32, index: u32, mask: u32) -> Result<(), Refusal> {
        check_place(self.shape(), slot, block)?;
        if index >= BLOCK as u32 || !(1..=255).contains(&mask) {
            return Err(Refusal::Place);
        }
        let mut bytes = [0; BLOCK];
        if self.fetch(slot as usize, block, &mut bytes) == Seen::Present {
            bytes[index as usize] ^= mask as u8;
            self.below.store(slot as usize, block, &bytes);
        }
        Ok(())
    }

    fn store_torn(&mut self, slot: usize, block: u32, bytes: &Block, length: usize) {
        let mut torn = [0; BLOCK];
        if self.fetch(slot, block, &mut torn) == Seen::Present {
            torn[..length].copy_from_slice(&bytes[..length]);
            self.below.store(slot, block, &torn);
        }
    }
}

impl<S: ReadableShelf> ReadableShelf for FaultLayer<S> {
    fn shape(&self) -> Shape {
        self.below.shape()
    }

    fn fetch(&self, slot: usize, block: u32, into: &mut Block) -> Seen {
        if self.is_marked(slot as u32, block) {
            into.fill(0);
            Seen::Blind
        } else {
            self.below.fetch(slot, block, into)
        }
    }
}

impl<S: Shelf> Shelf for FaultLayer<S> {
    fn store(&mut self, slot: usize, block: u32, bytes: &Block) {
        let card = slot as u32;
        let Some((row, plan)) = self.first_plan_at(card, block) else {
            self.remove_mark(card, block);
            self.below.store(slot, block, bytes);
            return;
        };
        match plan {
            Plan::Lose => self.remove(row),
            Plan::Tear(length) => {
                self.remove(row);
                self.store_torn(slot, block, bytes, length as usize);
            }
            Plan::Spoil => {
                if self.is_marked(card, block) {
                    self.remove(row);
                } else {
                    self.rows[row].fault = Fault::Mark;
                }
            }
            Plan::Stray(target) => {
                self.remove(row);
                self.remove_mark(card, target);
                self.below.store(slot, target, bytes);
            }
        }
    }
}

#[cfg(test)]
mod tests {
    use super::*;

    fn layer() -> FaultLayer<Image> {
        FaultLayer::new(Image::zeroed(3, 4).unwrap())
    }

    fn read(layer: &FaultLayer<Image>, slot: u32, block: u32) -> Option<Block> {
        let mut bytes = [7; BLOCK];
        match layer.read(slot, block, &mut bytes).unwrap() {
            Seen::Present => Some(bytes),
            Seen::Blind => {
                assert_eq!(bytes, [0; BLOCK]);
                None
            }
        }
    }

    #[test]
    fn plans() {
        let mut layer = layer();
        layer.lay(1, 2, Plan::Lose).unwrap();
        layer.lay(1, 2, Plan::Tear(3)).unwrap();
        layer.lay(1, 2, Plan::Stray(0)).unwrap();
        layer.lay(1, 2, Plan::Spoil).unwrap();
        layer.write(1, 2, &[1; BLOCK]).unwrap();
        assert_eq!(read(&layer, 1, 2), Some([0; BLOCK]));
        layer.write(1, 2, &[2; BLOCK]).unwrap();
        assert_eq!(read(&layer, 1, 2).unwrap()[..5], [2, 2, 2, 0, 0]);
        layer.write(1, 2, &[3; BLOCK]).unwrap();
        assert_eq!(read(&layer, 1, 2).unwrap()[..5], [2, 2, 2, 0, 0]);
        assert_eq!(read(&layer, 1, 0), Some([3; BLOCK]));
        layer.write(1, 2, &[4; BLOCK]).unwrap();
        assert_eq!(read(&layer, 1, 2), None);
        assert_eq!(layer.rows_used(), 1);
        layer.write(1, 2, &[5; BLOCK]).unwrap();
        assert_eq!(read(&layer, 1, 2), Some([5; BLOCK]));
        assert_eq!(layer.rows_used(), 0);
    }

    #[test]
    fn stray_clears_the_mark_of_its_target() {
        let mut layer = layer();
        layer.blind(0, 3).unwrap();
        layer.lay(0, 1, Plan::Stray(3)).unwrap();
        layer.lay(0, 3, Plan::Lose).unwrap();
        layer.write(0, 1, &[9; BLOCK]).unwrap();
        assert_eq!(read(&layer, 0, 3), Some([9; BLOCK]));
        assert_eq!(layer.rows_used(), 1);
    }

    #[test]
    fn table_of_32_rows() {
        let mut layer = layer();
        for _ in 0..FAULT_ROWS - 1 {
            layer.lay(0, 0, Plan::Lose).unwrap();
        }
        layer.blind(2, 2).unwrap();
        assert_eq!(layer.lay(0, 0, Plan::Lose), Err(Refusal::TableFull));
        assert_eq!(layer.lay(0, 0, Plan::Tear(128)), Err(Refusal::Place));
        assert_eq!(layer.blind(2, 3), Err(Refusal::TableFull));
        assert_eq!(layer.blind(2, 2), Ok(()));
    }

    #[test]
    fn images() {
        assert_eq!(Image::open(2, 1, vec![]).unwrap_err().0, Refusal::Shape);
        assert_eq!(Image::open(3, 1, vec![0; 386]).unwrap_err().0, Refusal::Length);
        let mut bytes = vec![0; 387];
        bytes[386] = 2;
        assert_eq!(ImageView::open(3, 1, &bytes).unwrap_err(), Refusal::Length);
        bytes[386] = 1;
        let mut image = Image::open(3, 1, bytes).unwrap();
        assert_eq!(image.read(2, 0, &mut [1; BLOCK]), Ok(Seen::Blind));
        image.write(2, 0, &[1; BLOCK]).unwrap();
        assert_eq!(image.read(2, 0, &mut [1; BLOCK]), Ok(Seen::Present));
        assert_eq!(image.read(3, 0, &mut [1; BLOCK]), Err(Refusal::Place));
        assert_eq!(image.read(3, 0, &mut [1; 127]), Err(Refusal::Length));
    }
}

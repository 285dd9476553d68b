//! The masks of all stripes of a shelf.

use crate::Refusal;
use crate::checksum::Checksum;
use crate::shelf::ReadableShelf;
use crate::stripe::{ALL_IN, Stripe};

/// Writes the mask of each stripe into `masks`, with all slots in.
pub fn survey<C: Checksum, S: ReadableShelf>(shelf: &S, tag: u32, masks: &mut [u8]) -> Result<(), Refusal> {
    let shape = shelf.shape();
    if masks.len() != shape.blocks() as usize {
        return Err(Refusal::Length);
    }
    if tag == 0 {
        return Err(Refusal::Shape);
    }
    let mut stripe = Stripe::new(shape, tag);
    for (number, mask) in masks.iter_mut().enumerate() {
        stripe.look::<C, S>(shelf, &ALL_IN, number as u32);
        *mask = stripe.mask();
    }
    Ok(())
}

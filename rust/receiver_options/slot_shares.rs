// Made by tools/rust of crates/receiver_options/src/slot_shares.rt: change that.
//! The shares of the slots that the options ask for.

use crate::kit::std::vec::Vec;
use crate::receiver_options::asked::text;
use crate::receiver_options::fault::OptionFault;
use crate::kit::clap::ArgMatches;
use crate::kit::std::alloc::Global;

/// The share of the slots of each client: a digit from 1 to 8 for each, or four slots each where
/// the option isn't there.
pub fn shares(alloc: Global, matches: &ArgMatches, clients: usize) -> Result<Vec<u8>, OptionFault> {
    match text(matches, "shares") {
        Some(digits) => shares_of(alloc, digits.as_bytes(), clients),
        None => four_each(alloc, clients),
    }
}

/// The shares that digits write: one digit, 1 to 8, for each client.
fn shares_of(alloc: Global, digits: &[u8], clients: usize) -> Result<Vec<u8>, OptionFault> {
    let mut shares = Vec::new(alloc);
    for digit in digits {
        if !(b'1'..=b'8').contains(digit) {
            return Err(OptionFault::Shares);
        }
        shares.push(*digit - b'0')?;
    }
    if shares.len() == clients {
        Ok(shares)
    } else {
        Err(OptionFault::Shares)
    }
}

/// Shares of four slots.
fn four_each(alloc: Global, clients: usize) -> Result<Vec<u8>, OptionFault> {
    let mut shares = Vec::new(alloc);
    for _ in 0..clients {
        shares.push(4)?;
    }
    Ok(shares)
}

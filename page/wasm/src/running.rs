//! A run of the bank.

use crate::border::Given;
use crate::files::{Lines, Recording};
use crate::numbers::{self, Ending, PACKED};
use crate::packing::{Asked, Packed};
use seldomplough::internals::channel_slots::MOST_TIME;
use seldomplough::internals::std::alloc::Global;
use seldomplough::internals::oscillators::{Settings, SettingsFault};
use seldomplough::internals::receiver::{RunFault, Source, run_shares};
use seldomplough::internals::recordings::PackFault;

/// Runs scripts over the recording, for clients with these shares of the slots.
pub fn run(
    rate: u32,
    offset: i32,
    asked: &Asked,
    scripts: &[&[u8]],
    shares: &[u8],
) -> Result<Given, Ending> {
    let format = numbers::format(asked.format)?;
    let settings = Settings::new(rate, i64::from(offset), format).map_err(|fault| match fault {
        SettingsFault::Rate => Ending::Rate,
        SettingsFault::Offset => Ending::Offset,
        _ => unreachable!("no other SettingsFault is known"),
    })?;
    if asked.kind == PACKED {
        let samples = run_over(settings, scripts, shares, &mut Recording)?;
        return Ok(Given {
            samples,
            ..Given::NONE
        });
    }
    let mut packed = Packed::new(&asked.choice()?)?;
    let ended = run_over(settings, scripts, shares, &mut packed);
    // To the bank each fault of the packer is a failed read.
    let samples = match packed.fault() {
        Some(PackFault::NotANumber) => Err(Ending::NotANumber),
        Some(PackFault::NoMemory) => Err(Ending::NoMemory),
        Some(_) => unreachable!("no other PackFault is known"),
        None => ended,
    }?;
    let (samples_left, ends_inside) = packed.left();
    Ok(Given {
        samples,
        samples_left,
        ends_inside,
        ..Given::NONE
    })
}

/// Runs scripts over samples that are packed, and gives how many these are.
fn run_over<R: Source>(
    settings: Settings,
    scripts: &[&[u8]],
    shares: &[u8],
    reader: &mut R,
) -> Result<u64, Ending> {
    let ended = run_shares(
        Global, settings, scripts, shares, MOST_TIME, reader, &mut Lines,
    );
    ended.map_err(|fault| match fault {
        RunFault::NoMemory => Ending::NoMemory,
        RunFault::Clients => Ending::Clients,
        RunFault::Share => Ending::Share,
        RunFault::Read => Ending::Read,
        RunFault::Write => Ending::Write,
        RunFault::TooLong => Ending::TooLong,
        _ => unreachable!("no other RunFault is known"),
    })
}

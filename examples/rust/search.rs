//! Searches one-bit samples from standard input for satellites, and tracks those that it finds.
use seldomplough::{Event, Format, Global, Plan, Prn, Receiver, Settings};
use seldomplough::{SlotEvent, SlotNo, SlotState, units::from_65536ths, units::seconds};
use std::io::BufRead;

fn main() -> Result<(), Box<dyn std::error::Error>> {
    let settings = Settings::new(2_046_000, 511_500, Format::Real1)?;
    let mut receiver = Receiver::open(Global, settings, &[8])?;
    let (mut slots, mut input) = (Vec::new(), std::io::stdin().lock());
    for (number, word) in (0..).zip(std::env::args().skip(1)) {
        let (prn, hertz) = word.split_once('@').ok_or("a word is SATELLITE@HERTZ")?;
        let plan = Plan::new(Prn::try_from(prn.parse::<u8>()?)?, hertz.parse()?, 4, 4, 60)?;
        slots.push((SlotNo::new(number).ok_or("there are eight slots")?, plan));
        receiver.acquire(1, slots[slots.len() - 1].0, plan)?;
    }
    while let bytes @ [_, ..] = input.fill_buf()? {
        let taken = bytes.len() - receiver.take(bytes)?.len();
        input.consume(taken);
        for SlotEvent { slot, time, event, .. } in receiver.events().to_vec() {
            let (number, plan) = slots[usize::from(slot)];
            let hertz = match (event, receiver.state(1, number)?) {
                (Event::Acquired { cell, .. }, _) => f64::from(plan.centre() + 250 * cell.bin),
                (_, SlotState::Track { v, .. }) => from_65536ths(v),
                _ => f64::NAN,
            };
            println!("{:.6} s, {hertz:.3} Hz, slot {slot}: {event:?}", seconds(time, &settings));
        }
    }
    Ok(())
}

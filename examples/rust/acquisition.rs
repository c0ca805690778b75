//! Searches the beginning of a file of one-bit samples for one satellite.
use seldomplough::units::chips;
use seldomplough::{CodeBook, Format, Global, NumberedSamples, PackedSamples};
use seldomplough::{Plan, Prn, Search, SearchRoom, Settings};

fn main() -> Result<(), Box<dyn std::error::Error>> {
    let words: Vec<String> = std::env::args().skip(1).collect();
    let [path, prn, hertz] = &words[..] else {
        return Err("the words are FILE SATELLITE HERTZ".into());
    };
    // Four bins of 250 Hz to each side of the shift, four milliseconds, and six times the mean.
    let settings = Settings::new(2_046_000, 511_500, Format::Real1)?;
    let plan = Plan::new(Prn::try_from(prn.parse::<u8>()?)?, hertz.parse()?, 4, 4, 60)?;
    let mut search = Search::new(plan, &settings, 0, SearchRoom::new(Global)?);
    let bytes = std::fs::read(path)?;
    let samples = PackedSamples::new(Format::Real1, &bytes);
    if (samples.len() as u64) < search.due() {
        return Err("the file has too few samples".into());
    }
    search.advance(plan.cells(), &NumberedSamples::new(samples, 0), &mut CodeBook::new());
    let cell = search.result().ok_or("not all cells were searched")?;
    let (shift, place) = (plan.centre() + 250 * cell.bin, chips(cell.half));
    let found = if cell.found { "found" } else { "not found" };
    println!("satellite {prn} {found}: {shift} Hz, {place} chips, power {}", cell.power);
    Ok(())
}

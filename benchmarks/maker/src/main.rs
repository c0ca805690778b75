//! Writes a made recording to standard output: white noise, and satellites that send messages.
//!
//! The receiver is measured and checked by what it makes, so it is written from the standard alone,
//! and shares no code with the receiver.

mod codes;
mod message;
mod noise;
mod satellite;
mod settings;

use noise::Chance;
use satellite::Satellite;
use settings::{Settings, DEVIATION};
use std::io::{self, Write};
use std::process::ExitCode;

/// What `--help` prints.
const HELP: &str = "\
Writes a made recording to standard output: white noise, and satellites in it where they are named.
The same command always writes the same bytes.

maker [OPTION VALUE].. [SATELLITE:DOPPLER:HALF:CN0[:PERIODS]]..
  --seconds S     whole seconds, 1 if not given
  --samples N     so many samples in the place of seconds
  --rate HZ       samples a second, at least 1100000; 2046000 if not given
  --crystal PPM   by how many parts in a million the radio's crystal is too fast, 0 if not given
  --offset HZ     the intermediate frequency, 0 if not given
  --kind KIND     iq-i8 if not given: pairs of bytes; i8: one byte a sample, in phase
  --seed N        of the noise and of the messages, 1 if not given
  --message FILE  what all satellites send: a subframe a line, as ten words of 24 bits in
                  hexadecimal; the parity is added, and data bits 23 and 24 of words 2 and 10 are
                  solved for. Behind the last line comes the first one

A satellite (1 to 32) has its Doppler shift in Hz, the half chip of its code at sample 0 (with a
fraction where wanted), its C/N0 in dB-Hz, and how many code periods of its message are over at
sample 0, 0 if not given. Where no message is named it is a frame of 30 s that passes its parity and
says nothing true. The noise has a standard deviation of 20 in each part.
";

/// The samples of a block, and the steps of a turn of the carrier.
const BLOCK: u64 = 16384;
const STEPS: usize = 4096;

/// Writes all samples.
fn write(
    settings: &Settings,
    satellites: &mut [Satellite],
    out: &mut impl Write,
) -> io::Result<()> {
    let turn = std::f64::consts::TAU / STEPS as f64;
    let waves: Vec<f32> = (0..STEPS)
        .map(|at| (at as f64 * turn).cos() as f32)
        .collect();
    let mut chance = Chance::new(settings.seed);
    let mut left = settings.samples();
    while left > 0 {
        let size = left.min(BLOCK);
        left -= size;
        let mut block = vec![(0.0, 0.0); size as usize];
        for satellite in satellites.iter_mut() {
            satellite.add_to(&mut block, &waves);
        }
        out.write_all(&bytes_of(&block, settings.pairs, &mut chance))?;
    }
    Ok(())
}

/// The bytes of a block with noise on it.
fn bytes_of(block: &[(f32, f32)], pairs: bool, chance: &mut Chance) -> Vec<u8> {
    let mut bytes = Vec::with_capacity(2 * block.len());
    if pairs {
        for (i, q) in block {
            let (x, y) = chance.normal_pair();
            bytes.extend([byte(i + DEVIATION * x), byte(q + DEVIATION * y)]);
        }
    } else {
        for two in block.chunks(2) {
            let (x, y) = chance.normal_pair();
            bytes.extend(
                two.iter()
                    .zip([x, y])
                    .map(|((i, _), it)| byte(i + DEVIATION * it)),
            );
        }
    }
    bytes
}

/// The nearest whole number in two's complement; what doesn't fit is at the end of the range.
fn byte(value: f32) -> u8 {
    value.round() as i8 as u8
}

/// How a run ended: by what went wrong with standard output, where something did. Who has closed
/// the pipe has what was wanted, and is told nothing.
fn ended(written: io::Result<()>) -> ExitCode {
    match written {
        Ok(()) => ExitCode::SUCCESS,
        Err(why) => {
            if why.kind() != io::ErrorKind::BrokenPipe {
                eprintln!("maker: standard output: {why}");
            }
            ExitCode::FAILURE
        }
    }
}

fn main() -> ExitCode {
    let words: Vec<String> = std::env::args_os()
        .skip(1)
        .map(|word| word.to_string_lossy().into_owned())
        .collect();
    let mut out = io::stdout().lock();
    if let [word] = &words[..] {
        if word == "--help" || word == "-h" {
            return ended(out.write_all(HELP.as_bytes()));
        }
    }
    let (settings, satellites) = match settings::read(&words) {
        Ok(read) => read,
        Err(why) => {
            eprintln!("maker: {why}");
            return ExitCode::from(2);
        }
    };
    let mut satellites: Vec<Satellite> = satellites
        .iter()
        .map(|named| Satellite::new(named, &settings))
        .collect();
    ended(write(&settings, &mut satellites, &mut out))
}

//! The command line.

use crate::message;
use crate::satellite::{Named, CARRIER};

/// The standard deviation of the noise in each part.
pub const DEVIATION: f32 = 20.0;

/// The most parts in a million that a crystal may be off.
const MOST_CRYSTAL: f64 = 1000.0;

/// How long a recording is.
enum Length {
    Samples(u64),
    Seconds(u64),
}

/// What the options say of a recording.
pub struct Settings {
    length: Length,
    /// Samples a second.
    rate: u64,
    /// The intermediate frequency in Hz.
    offset: f64,
    /// By how many parts in a million the radio's crystal is too fast.
    crystal: f64,
    pub pairs: bool,
    pub seed: u64,
    /// The bits of the message of all satellites, where one is named.
    pub message: Option<Vec<bool>>,
}

impl Settings {
    /// How many samples are made.
    pub fn samples(&self) -> u64 {
        match self.length {
            Length::Samples(count) => count,
            Length::Seconds(count) => count.saturating_mul(self.rate),
        }
    }

    /// The samples a second, and the intermediate frequency in Hz, as they are: the radio's crystal
    /// makes its rate and its tuner's frequency greater by the same part.
    pub fn true_rate_and_offset(&self) -> (f64, f64) {
        let fast = self.crystal / 1e6;
        (
            self.rate as f64 * (1.0 + fast),
            self.offset * (1.0 + fast) - CARRIER * fast,
        )
    }
}

/// The settings and the satellites, or what is wrong.
pub fn read(words: &[String]) -> Result<(Settings, Vec<Named>), String> {
    let mut settings = Settings {
        length: Length::Seconds(1),
        rate: 2_046_000,
        offset: 0.0,
        crystal: 0.0,
        pairs: true,
        seed: 1,
        message: None,
    };
    let mut satellites = Vec::new();
    let mut words = words.iter();
    while let Some(word) = words.next() {
        let Some(name) = word.strip_prefix("--") else {
            satellites.push(named(word).ok_or(format!("{word:?} names no satellite"))?);
            continue;
        };
        let value = words.next().ok_or(format!("{word:?} has no value"))?;
        set(&mut settings, name, value).ok_or(format!("{word:?} {value:?} can't be taken"))?;
    }
    Ok((settings, satellites))
}

/// Sets what an option says. Nothing comes back where it isn't understood.
fn set(settings: &mut Settings, name: &str, value: &str) -> Option<()> {
    match name {
        "samples" => settings.length = Length::Samples(value.parse().ok()?),
        "seconds" => settings.length = Length::Seconds(value.parse().ok()?),
        "rate" => settings.rate = value.parse().ok().filter(|it| *it >= 1_100_000)?,
        "offset" => settings.offset = value.parse().ok().filter(|it: &f64| it.is_finite())?,
        "crystal" => {
            settings.crystal = value
                .parse()
                .ok()
                .filter(|it: &f64| it.abs() <= MOST_CRYSTAL)?
        }
        "seed" => settings.seed = value.parse::<i64>().ok()? as u64,
        "message" => {
            let text = std::fs::read_to_string(value).ok()?;
            settings.message = Some(message::written(&text)?);
        }
        "kind" => {
            settings.pairs = match value {
                "iq-i8" => true,
                "i8" => false,
                _ => return None,
            }
        }
        _ => return None,
    }
    Some(())
}

/// SATELLITE:DOPPLER:HALF:CN0[:PERIODS].
fn named(word: &str) -> Option<Named> {
    let parts: Vec<&str> = word.split(':').collect();
    let (satellite, doppler, half_chip, density, periods) = match parts[..] {
        [satellite, doppler, half, density] => (satellite, doppler, half, density, "0"),
        [satellite, doppler, half, density, periods] => {
            (satellite, doppler, half, density, periods)
        }
        _ => return None,
    };
    let named = Named {
        satellite: satellite.parse().ok().filter(|it| (1..=32).contains(it))?,
        doppler: doppler
            .parse()
            .ok()
            .filter(|it: &f64| it.abs() <= 16000.0)?,
        half_chip: half_chip
            .parse()
            .ok()
            .filter(|it| (0.0..2046.0).contains(it))?,
        density: density.parse().ok().filter(|it| (0.0..60.0).contains(it))?,
        periods: periods.parse().ok()?,
    };
    Some(named)
}

#[cfg(test)]
mod tests {
    use super::read;

    /// What words say, without the satellites.
    fn settings(words: &str) -> super::Settings {
        let words: Vec<String> = words.split(' ').map(String::from).collect();
        read(&words).expect("the words are understood").0
    }

    /// By the definition of parts in a million: 100 of 1,575.42 MHz are 157,542 Hz.
    #[test]
    fn a_fast_crystal_turns_rate_and_offset() {
        let fast = settings("--rate 2000000 --offset -20000 --crystal 100");
        let (rate, offset) = fast.true_rate_and_offset();
        assert!((rate - 2_000_200.0).abs() < 1e-6);
        assert!((offset + 20_002.0 + 157_542.0).abs() < 1e-6);
    }

    #[test]
    fn seconds_are_of_the_rate_wherever_it_stands() {
        assert_eq!(settings("--seconds 3 --rate 2000000").samples(), 6_000_000);
        assert_eq!(settings("--seconds 3 --samples 5").samples(), 5);
    }

    #[test]
    fn a_satellite_has_four_numbers_or_five() {
        for (word, periods) in [
            ("6:2100:67:47", Some(0)),
            ("6:2100:67:47:9", Some(9)),
            ("6:2", None),
        ] {
            let named = super::named(word);
            assert_eq!(named.map(|it| it.periods), periods, "{word}");
        }
    }
}

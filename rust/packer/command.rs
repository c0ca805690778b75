// Made by tools/rust of crates/packer/src/command.rt: change that.
//! The options that the program takes, and its help.

use crate::kit::std::string::String;
use crate::kit::std::vec::Vec;
use crate::packer::formats::KINDS;
use crate::kit::clap::{Arg, ArgAction, ArgMatches, Command, Error, value_parser};
use crate::sample_planes::Format;
use crate::kit::std::alloc::Global;
use crate::version::VERSION;

const ABOUT: &str = "\
Packs a recording of samples as the receiver reads them: standard input to standard output.";

/// The parts that `--part` takes: in phase, and in quadrature.
static PARTS: [&str; 2] = ["i", "q"];

/// The help after the options.
const MORE: &str = "\
KIND is how the recording has its values. With `iq-` before it they are pairs, in phase and in
quadrature.
  u8          bytes without a sign; their centre is 127.5 where none is given
  i8          bytes of two's complement
  i16, i16be  16 bits of two's complement, the low byte first, or the high one
  f32         floats of 32 bits, the low byte first; their centre is 0
  bits2-low   two bits t of two's complement for 2t + 1, the earliest in a byte's low bits
  bits2-sm-low
              two bits, a sign above a size, for 1, 3, -1 and -3, the earliest in a byte's low bits
  bits1-low   one bit, 0 for 1 and 1 for -1, the earliest in a byte's low bit; or in its high bit,
  bits1-high  as in real1

A value below the centre gets the sign -1, any other 1. With two bits a part, a value farther from
its centre than the threshold gets the size 3, any other 1. One standard deviation is a good
threshold.

With --measure nothing is packed. It measures the first 1048576 bytes, or fewer by --count, and
prints: how many samples there are; of each part (`-q` for the one in quadrature) its mean, its root
mean square about the centre, the share at the ends of the range where a value has 8 bits or more,
and the shares of 1, 3, -1 and -3 that the options below them would give.

Statuses:
  0  the recording came to its end, or all that was wanted is written, or help was asked for
  1  no memory, a failed read or write, a float that is no number, or is infinite and measured
  2  an option was refused

Examples:
  rtl_sdr -f 1575420000 -s 2048000 - | pack --from iq-u8 --to iq1 > rtl.iq1
  hackrf_transfer -f 1575420000 -s 4000000 -r - | pack --from iq-i8 --to iq2 --threshold 12 > h.iq2
  pack --from iq-i16 --to iq2 --threshold 300 < usrp.i16 > usrp.iq2
  pack --from iq-f32 --to iq2 --threshold 0.35 < gnuradio.c64 > gnuradio.iq2
  pack --from bits2-low --to real2 --threshold 2 < max2769.bits > max2769.real2";

/// Reads the words of a command line, the program's name first.
pub fn matches<'a>(alloc: Global, words: &'a [String]) -> Result<ArgMatches<'a>, Error> {
    let options = Vec::from_array(alloc, options(alloc))?;
    command(alloc).args(options)?.try_get_matches_from(words)
}

/// The command without its options.
fn command<'a>(alloc: Global) -> Command<'a> {
    Command::new(alloc, "pack")
        .version(VERSION)
        .about(ABOUT)
        .override_usage("pack --from <KIND> <--to <FORMAT>|--measure> [OPTIONS]")
        .after_help(MORE)
}

/// The options, in the order that the help has.
fn options<'a>(alloc: Global) -> [Arg<'a>; 11] {
    let from = "The kind of the recording's values";
    let to = "The packing to write";
    let threshold = "Size 3 begins farther than N from the centre";
    let centre = "The centre, 0 or N; 127.5 for unsigned bytes";
    let centre_q = "That of the part in quadrature, where it is another";
    let swap = "The part in quadrature stands first in each pair";
    let conjugate = "Turns the sign of the part in quadrature";
    let part = "The part that real samples are made of";
    let measure = "Tells what the values are like, and suggests a centre and a threshold";
    let skip = "Leaves out so many samples at the beginning";
    let count = "Takes so many samples at most";
    [
        one_of(alloc, "from", "KIND", &KINDS, from).required(true),
        one_of(alloc, "to", "FORMAT", Format::names(), to),
        number(alloc, "threshold", threshold),
        number(alloc, "centre", centre),
        number(alloc, "centre-q", centre_q),
        flag(alloc, "swap", swap),
        flag(alloc, "conjugate", conjugate),
        one_of(alloc, "part", "PART", &PARTS, part).default_value("i"),
        flag(alloc, "measure", measure),
        samples(alloc, "skip", "0", skip),
        samples(alloc, "count", "1099511627776", count),
    ]
}

/// An option that takes a word.
fn named<'a>(alloc: Global, name: &'a str, value: &'a str, help: &'a str) -> Arg<'a> {
    Arg::new(alloc, name)
        .long(name)
        .value_name(value)
        .action(ArgAction::Set)
        .help(help)
}

/// An option that takes one of these words.
fn one_of<'a>(
    alloc: Global,
    name: &'a str,
    value: &'a str,
    words: &'a [&'a str],
    help: &'a str,
) -> Arg<'a> {
    named(alloc, name, value, help).value_parser(words)
}

/// An option with a number, which may end with a half.
fn number<'a>(alloc: Global, name: &'a str, help: &'a str) -> Arg<'a> {
    named(alloc, name, "N", help).allow_hyphen_values(true)
}

/// An option with a number of samples.
fn samples<'a>(alloc: Global, name: &'a str, default: &'a str, help: &'a str) -> Arg<'a> {
    named(alloc, name, "SAMPLES", help)
        .value_parser(value_parser!(u64))
        .default_value(default)
}

/// An option without a value.
fn flag<'a>(alloc: Global, name: &'a str, help: &'a str) -> Arg<'a> {
    Arg::new(alloc, name)
        .long(name)
        .action(ArgAction::SetTrue)
        .help(help)
}

// Made by tools/rust of crates/receiver_options/src/command.rt: change that.
//! The command line that the program takes.

use crate::kit::std::string::String;
use crate::kit::clap::{Arg, ArgAction, ArgMatches, Command, Error, value_parser};
use crate::sample_planes::Format;
use crate::kit::std::alloc::{AllocError, Global};
use crate::version::VERSION;

const ABOUT: &str = "\
Runs scripts of timed commands over recorded GPS L1 C/A samples.
Reads the samples from standard input and prints a line for each result.";

/// The help after the options: scripts, printed lines, refusals and statuses.
const MORE: &str = "\
The samples have no header, and the earliest of a byte is in its top bits: eight of real1, four of
real2 (sign, magnitude), four pairs of iq1 (sign in phase, sign in quadrature), or two pairs of iq2
(sign and magnitude in phase, then in quadrature). A sign of 1 is minus. A magnitude of 1 is the
size 3, of 0 the size 1. `pack` makes these of other recordings.
--offset takes no sign: --offset 5000 --minus is -5000 Hz. Real samples want an offset away from 0.

A script is lines of `T VERB WORDS`. T is a time in samples, and never falls from line to line. T
over the rate is the time in seconds. Lines without words are skipped; there are no comments.
Each script is a client with the slots 0 to 3, or with as many slots as --shares gives it.
  T hold S PRN DOPPLER HALF  follow satellite PRN (1 to 32) in slot S, at a Doppler shift of DOPPLER
                             Hz (-16000 to 16000), its code beginning at half chip HALF (0 to 2045)
  T track S PRN DOPPLER HALF follow it from there on with closed loops, and read its message
  T acquire S PRN CENTRE BINS MS THRESHOLD
                             search for satellite PRN in BINS (0 to 40) bins of 250 Hz to each side
                             of CENTRE Hz (-6000 to 6000), over MS (1 to 10) milliseconds; track it
                             where the greatest power is at least THRESHOLD (1 to 1000) tenths of
                             the mean power
  T counts S N               print the next N dumps (0 to 1000000); 0 ends printing
  T state S                  show the slot
  T stop S                   make the slot idle
A dump is the sums over one code period. The first dump after `hold` or `track` covers the rest of
the code only, which is (2046 - HALF)/2 chips.

A printed line is `CLIENT T TEXT`:
  ok                         a command other than `state` was accepted
  err N                      a line of the script was refused
  count S IE QE IP QP IL QL  a dump: sums in phase (I) and in quadrature (Q) with the early (E),
                             prompt (P) and late (L) code, half a chip apart
  acq S PRN found BIN HALF POWER
                             a search is done: its strongest cell; or none in the place of found.
                             Its Doppler shift is CENTRE + 250 BIN Hz. HALF is where the code was
                             at the time of the command, not of this line
  lock S, unlock S, lost S   the loops locked, unlocked, or lost the signal (the slot is idle then).
                             They lock on noise too, now and then
  bits S                     the edge of the data bits was found
  gap S N                    the next subframe starts N bits late
  sub S ID TOW W1 .. W10     a subframe: its words in hexadecimal, ------ where parity fails. TOW is
                             the time of the week at the start of the next one, in units of 6 s
  eph S FIELDS               clock and ephemeris; FIELDS are name=integer:exponent
  alm, utc, hlt, msg, als    a page of almanac, time, health or text; the almanacs of all
  state S idle               the slot is idle
  state S acquire PRN DONE CELLS
                             it searches for PRN, and has done DONE of CELLS cells
  state S hold PRN DUMPS     it follows PRN, and has had DUMPS dumps
  state S track PRN DUMPS V W open
                             it tracks PRN: Doppler shift V in 1/65536 Hz, code correction W in
                             1/65536 chip a second; then open, lock, or bits with their edge found
  end                        the samples came to their end

`err N` says why:
  1 longer than 80 bytes            6 another number of words
  2 a byte outside 0x20..0x7e       7 a word isn't a number
  3 no time up to 2^40              8 a number is out of range
  4 the time is before the last     9 the slot isn't idle
  5 no verb, or an unknown one     10 the slot is idle
A tab, a carriage return or a byte order mark is err 2; a line that begins with # is err 3.
Answers come in the order of the script's lines: `seldomplough answers SCRIPT < LINES` puts
each beside its line.

Statuses:
  0  the samples came to their end, or help or the version was asked for
  1  no memory, more than eight scripts, a failed read or write, more than 2^40 samples
  2  an option, the rate, the offset, the shares or a script file was refused

Example: search for satellite 5 and track it, with the line `0 acquire 0 5 1000 4 4 60` in the file
search.script:
  receiver --offset 511500 search.script < three_satellites.real1
Example: five dumps at a fixed shift, with the lines `0 hold 0 5 1250 700` and `0 counts 0 5` in the
file hold.script:
  receiver --offset 511500 hold.script < three_satellites.real1";

/// Reads the words of a command line, the program's name first.
pub fn matches<'a>(alloc: Global, words: &'a [String]) -> Result<ArgMatches<'a>, Error> {
    command(alloc)?.try_get_matches_from(words)
}

/// The command with all its options.
fn command<'a>(alloc: Global) -> Result<Command<'a>, AllocError> {
    Command::new(alloc, "receiver")
        .version(VERSION)
        .about(ABOUT)
        .override_usage("receiver [OPTIONS] [SCRIPT]...")
        .after_help(MORE)
        .arg(hertz(
            alloc,
            "rate",
            "2046000",
            "Samples a second, 2046000 to 20000000",
        ))?
        .arg(hertz(
            alloc,
            "offset",
            "0",
            "Intermediate frequency in Hz, at most half the rate; see --minus",
        ))?
        .arg(minus(alloc))?
        .arg(format(alloc))?
        .arg(shares(alloc))?
        .arg(script(alloc))
}

/// An option that takes a number of Hz.
fn hertz<'a>(alloc: Global, name: &'a str, default: &'a str, help: &'a str) -> Arg<'a> {
    Arg::new(alloc, name)
        .long(name)
        .value_name("HZ")
        .action(ArgAction::Set)
        .value_parser(value_parser!(u32))
        .default_value(default)
        .help(help)
}

/// The option that has the offset below zero.
fn minus<'a>(alloc: Global) -> Arg<'a> {
    Arg::new(alloc, "minus")
        .long("minus")
        .action(ArgAction::SetTrue)
        .help("Makes the intermediate frequency of --offset negative")
}

/// The option of the samples' format.
fn format<'a>(alloc: Global) -> Arg<'a> {
    Arg::new(alloc, "format")
        .long("format")
        .action(ArgAction::Set)
        .value_parser(Format::names())
        .default_value("real1")
        .help("Real samples of one or two bits, or complex ones of one or two bits a part")
}

/// The option of the slots that each client has.
fn shares<'a>(alloc: Global) -> Arg<'a> {
    Arg::new(alloc, "shares")
        .long("shares")
        .value_name("DIGITS")
        .action(ArgAction::Set)
        .help("Slots of each script's client, a digit 1 to 8 for each; else 4 each")
}

/// The names of script files, which stand without an option.
fn script<'a>(alloc: Global) -> Arg<'a> {
    Arg::new(alloc, "script")
        .value_name("SCRIPT")
        .num_args(0..)
        .help("Script files, one to eight, of 16 MiB at most; none is one empty script")
}

// Made by tools/rust of crates/receiver_cli/src/receiving.rt: change that.
//! The program, from its options to the end of its run.

use crate::kit::std::vec::Vec;
use crate::receiver_cli::failure::Failure;
use crate::channel_slots::MOST_TIME;
use crate::kit::clap::ArgMatches;
use crate::oscillators::Settings;
use crate::receiver::{Sink, Source, run_shares};
use crate::receiver_options::{ScriptFiles, read_scripts, shares};
use crate::kit::std::alloc::Global;

/// Runs the scripts that the options name, in their order, or an empty one where they name none,
/// over a reader and a writer.
pub fn receive<S: ScriptFiles, R: Source, W: Sink>(
    alloc: Global,
    files: &S,
    matches: &ArgMatches,
    reader: &mut R,
    writer: &mut W,
) -> Result<u64, Failure> {
    let settings = match crate::receiver_options::settings(matches) {
        Ok(settings) => settings,
        Err(fault) => return Err(Failure::Settings(fault)),
    };
    let paths = crate::receiver_options::scripts(matches);
    let shares = shares(alloc, matches, paths.len().max(1))?;
    let texts = read_scripts(alloc, files, paths)?;
    run_texts(alloc, settings, &shares, &texts, reader, writer)
}

/// Runs these scripts, or an empty one where there are none, with these shares of the slots.
fn run_texts<R: Source, W: Sink>(
    alloc: Global,
    settings: Settings,
    shares: &[u8],
    texts: &[Vec<u8>],
    reader: &mut R,
    writer: &mut W,
) -> Result<u64, Failure> {
    let scripts = one_or_more(alloc, texts)?;
    match run_shares(alloc, settings, &scripts, shares, MOST_TIME, reader, writer) {
        Ok(samples) => Ok(samples),
        Err(fault) => Err(Failure::Run(fault)),
    }
}

/// The scripts of a run: these texts, or an empty one where there are none.
fn one_or_more<'t>(alloc: Global, texts: &'t [Vec<u8>]) -> Result<Vec<&'t [u8]>, Failure> {
    let mut scripts: Vec<&[u8]> = Vec::new(alloc);
    for text in texts {
        scripts.push(text.as_slice())?;
    }
    if scripts.is_empty() {
        scripts.push(&[])?;
    }
    Ok(scripts)
}

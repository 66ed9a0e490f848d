//! The command line of the reference program.

use reference::generator::SEED_LIMIT;
use reference::inspect::inspect;
use reference::random_calls::{DELIVER, DRAIN, TRANSCRIPT};
use reference::random_runs::{fresh_clusters, random_run, FIRST_RUN, LAST_RUN};
use reference::random_states::{random_state, FIRST_STATE, LAST_STATE};
use reference::random_transcripts::{
    long_transcript_bytes, random_transcript, transcript_bytes, FIRST_TRANSCRIPT, LAST_TRANSCRIPT,
};
use reference::report::{Report, Tally, KINDS};
use reference::transcript::{listing, TRANSCRIPT_LIMIT};
use std::borrow::Cow;
use std::ffi::OsString;
use std::io::{self, BufWriter, Read, Write};
use std::ops::RangeInclusive;
use std::process::ExitCode;

const USAGE: &str = "usage: reference replay < TRANSCRIPT
       reference inspect [PREFERENCE] < TRANSCRIPT
       reference runs|states|transcripts [SEED] [--each-step]
       reference bytes|long SEED
       reference counts";

/// A part of docs/random-runs.md.
struct Part {
    /// What comes before all its seeds, but not before one alone.
    opening: fn(&mut Report) -> io::Result<()>,
    run: fn(u64, &mut Report) -> io::Result<()>,
    all: RangeInclusive<u64>,
}

const RUNS: Part = Part {
    opening: fresh_clusters,
    run: random_run,
    all: FIRST_RUN..=LAST_RUN,
};
const STATES: Part = Part {
    opening: |_| Ok(()),
    run: random_state,
    all: FIRST_STATE..=LAST_STATE,
};
const TRANSCRIPTS: Part = Part {
    opening: |_| Ok(()),
    run: random_transcript,
    all: FIRST_TRANSCRIPT..=LAST_TRANSCRIPT,
};

impl Part {
    fn run_all(self, report: &mut Report) -> io::Result<()> {
        (self.opening)(report)?;
        for seed in self.all {
            (self.run)(seed, report)?;
        }
        Ok(())
    }
}

fn main() -> ExitCode {
    let arguments: Vec<OsString> = std::env::args_os().skip(1).collect();
    // What is no text is no number and no word that is known either.
    let arguments: Vec<Cow<str>> = arguments.iter().map(|a| a.to_string_lossy()).collect();
    let words: Vec<&str> = arguments.iter().map(AsRef::as_ref).collect();
    let mut out = BufWriter::new(io::stdout().lock());
    let done = match words.as_slice() {
        ["replay"] => replay(&mut out),
        ["inspect", options @ ..] => {
            let preference = options.first().map_or(0, |word| parse_preference(word));
            read_transcript().and_then(|bytes| inspect(preference, &bytes, &mut out))
        }
        ["runs", options @ ..] => seeds(RUNS, options, &mut out),
        ["states", options @ ..] => seeds(STATES, options, &mut out),
        ["transcripts", options @ ..] => seeds(TRANSCRIPTS, options, &mut out),
        ["bytes", seed] => bytes(transcript_bytes, seed, &mut out),
        ["long", seed] => bytes(long_transcript_bytes, seed, &mut out),
        ["counts"] => counts(&mut out),
        _ => Err(usage()),
    };
    // The lines before an error come out before its words.
    let flushed = out.flush();
    match done.and(flushed) {
        Ok(()) => ExitCode::SUCCESS,
        Err(error) => {
            eprintln!("{error}");
            ExitCode::FAILURE
        }
    }
}

fn usage() -> io::Error {
    io::Error::new(io::ErrorKind::InvalidInput, USAGE)
}

fn replay(out: &mut dyn Write) -> io::Result<()> {
    out.write_all(listing(&read_transcript()?).as_bytes())
}

fn read_transcript() -> io::Result<Vec<u8>> {
    let mut transcript = Vec::new();
    // One byte above the limit is enough to know that it is passed.
    let limit = TRANSCRIPT_LIMIT as u64 + 1;
    io::stdin().take(limit).read_to_end(&mut transcript)?;
    Ok(transcript)
}

/// A decimal number; above 255, and without one, it is 255.
fn parse_preference(word: &str) -> u8 {
    let is_number = !word.is_empty() && word.bytes().all(|byte| byte.is_ascii_digit());
    // Of digits alone only a number that is too great is not parsed.
    let parsed = word.parse().ok().filter(|_| is_number);
    parsed.unwrap_or(u8::MAX)
}

/// Runs all seeds, or the one that the options name.
fn seeds(part: Part, options: &[&str], out: &mut dyn Write) -> io::Result<()> {
    let (seed, each_step) = match options {
        [] => (None, false),
        ["--each-step"] => (None, true),
        [seed] => (Some(parse_seed(seed)?), false),
        [seed, "--each-step"] | ["--each-step", seed] => (Some(parse_seed(seed)?), true),
        _ => return Err(usage()),
    };
    let mut report = Report::new(out, each_step);
    match seed {
        Some(seed) => (part.run)(seed, &mut report),
        None => part.run_all(&mut report),
    }
}

fn parse_seed(word: &str) -> io::Result<u64> {
    let seed = word.parse().ok();
    seed.filter(|&seed| seed < SEED_LIMIT).ok_or_else(usage)
}

fn bytes(make: fn(u64) -> Vec<u8>, seed: &str, out: &mut dyn Write) -> io::Result<()> {
    out.write_all(&make(parse_seed(seed)?))
}

/// How often each kind of call met each answer, from 0 to 18, and what the tests met.
fn counts(out: &mut dyn Write) -> io::Result<()> {
    // With the calls of each part that may have a handling.
    let parts = [
        ("runs", RUNS, [DELIVER, DRAIN]),
        ("states", STATES, [DELIVER, DRAIN]),
        ("transcripts", TRANSCRIPTS, [DELIVER, TRANSCRIPT]),
    ];
    for (name, part, handling_calls) in parts {
        let mut nowhere = io::sink();
        let mut report = Report::new(&mut nowhere, false);
        part.run_all(&mut report)?;
        met_lines(name, &report.tally, out)?;
        tested_lines(name, &report.tally, handling_calls, out)?;
    }
    Ok(())
}

fn met_lines(name: &str, tally: &Tally, out: &mut dyn Write) -> io::Result<()> {
    for (kind, answers) in KINDS.iter().zip(tally.answers) {
        writeln!(out, "{name} {kind} {answers:?}")?;
    }
    write!(out, "{name} reasons")?;
    for (kind, given) in (1..).zip(tally.reasons) {
        write!(out, " {kind} {given}")?;
    }
    writeln!(out)?;
    writeln!(out, "{name} several reasons {}", tally.several_reasons)?;
    writeln!(out, "{name} drain steps {}", tally.drain_steps)?;
    writeln!(out, "{name} longest drain {}", tally.longest_drain)?;
    writeln!(out, "{name} longest wire {}", tally.longest_wire)?;
    writeln!(out, "{name} incarnation wraps {}", tally.incarnation_wraps)?;
    writeln!(out, "{name} malformed states {}", tally.malformed_states)
}

fn tested_lines(
    name: &str,
    tally: &Tally,
    handling_calls: [u8; 2],
    out: &mut dyn Write,
) -> io::Result<()> {
    write!(out, "{name} tested states {} ", tally.tested_states)?;
    write!(out, "most marked {} ", tally.most_marked)?;
    writeln!(out, "most packets {}", tally.most_packets)?;
    writeln!(out, "{name} tested waits {}", tally.tested_waits)?;
    let (tested, kept) = (tally.tested_installations, tally.readers_kept);
    writeln!(
        out,
        "{name} tested installations {tested} readers kept {kept}"
    )?;
    for kind in handling_calls {
        writeln!(out, "{name} {}", tally.handled_line(kind))?;
    }
    writeln!(out, "{name} {}", tally.behind_writer_line())?;
    writeln!(out, "{name} {}", tally.still_named_line())?;
    writeln!(out, "{name} {}", tally.circled_line())?;
    writeln!(out, "{name} {}", tally.giving_up.line())?;
    writeln!(out, "{name} {}", tally.drained_waits_line())
}

#!/usr/bin/env python3
"""Times the steps of a television with 1, 16, 64 and 256 open sessions, half of either kind, each TS session with a
window.

    bench/tv.py [COUNT]                 2,000 steps of each kind, where no count is given

Printed are microseconds a step of processor time, where that of a start is taken off: of a presentation, of a text that
is refused together with the opening and the setup that it costs, of an opening with its closing, and of a viewer's
command that all sessions are told of. The program that is timed is no part of this repository: it is made, proved and
built in a folder of its own over copies of the crates, which takes a minute, or some minutes where nothing was proved
in this checkout before.
"""

import sys
import tempfile

from programs import build, seconds

LIBRARIES = ["css_num", "css_player", "css_sessions", "css_tv"]
SESSIONS = [1, 16, 64, 256]
KINDS = ["present", "refuse", "open", "change"]

PROGRAM = """//! Opens as many sessions as its first word says, and does steps of the kind of its second word as often as its
//! third says.
#![tactic(auto)]

use css_num::{Rate, Text};
use css_player::Command;
use css_sessions::Kind;
use css_tv::{Tv, TvConfig, TvEvent, TvFault, TvOut};
use std::alloc::Global;
use std::env;
use std::process::ExitCode;

const SETUP: &str = r#"{"contentIdStem":"dvb://","timelineSelector":"urn:dvb:css:timeline:pts"}"#;

const WINDOW: &str = r#"{"earliest":{"contentTime":"900000","wallClockTime":"10040000000"},"latest":{"contentTime":"900000","wallClockTime":"plusinfinity"}}"#;

fn open(tv: &mut Tv, peer: u32, kind: Kind, out: &mut Vec<TvOut>) -> Result<(), TvFault> {
    if tv.is_open(peer) {
        return Ok(());
    }
    tv.step(TvEvent::Opened { peer, kind }, out)
}

fn hear(tv: &mut Tv, alloc: Global, peer: u32, text: &str, out: &mut Vec<TvOut>) -> Result<(), TvFault> {
    let text = Text::of(alloc, text.as_bytes())?;
    tv.step(TvEvent::Heard { peer, text }, out)
}

fn change(tv: &mut Tv, programme: u32, out: &mut Vec<TvOut>) -> Result<(), TvFault> {
    let command = Command::Change(programme);
    tv.step(TvEvent::Viewer { command, reading: 10_000_000_000 }, out)
}

fn programme(tv: &mut Tv, alloc: Global, id: &str, number: u32, out: &mut Vec<TvOut>) -> Result<(), TvFault> {
    tv.step(TvEvent::Programme(Text::of(alloc, id.as_bytes())?), out)?;
    let selector = Text::of(alloc, "urn:dvb:css:timeline:pts".as_bytes())?;
    let rate = Rate { units_per_tick: 1, units_per_second: 90_000 };
    tv.step(TvEvent::AddTimeline { programme: number, selector, rate, base: i64::from(number) * 900_000 }, out)
}

fn television(alloc: Global, sessions: u32, out: &mut Vec<TvOut>) -> Result<Tv, TvFault> {
    let host = Text::of(alloc, "127.0.0.1".as_bytes())?;
    let mut tv = Tv::new(alloc, TvConfig { precision: -20, error: 0, follow: true, host, port: 6677 })?;
    programme(&mut tv, alloc, "dvb://1.2.3", 1, out)?;
    programme(&mut tv, alloc, "dvb://1.2.4", 2, out)?;
    change(&mut tv, 1, out)?;
    for peer in 0..sessions {
        if peer % 2 == 1 {
            open(&mut tv, peer, Kind::Cii, out)?;
        } else {
            open(&mut tv, peer, Kind::Ts, out)?;
            hear(&mut tv, alloc, peer, SETUP, out)?;
            hear(&mut tv, alloc, peer, WINDOW, out)?;
        }
    }
    Ok(tv)
}

fn step(tv: &mut Tv, alloc: Global, kind: &str, i: u32, out: &mut Vec<TvOut>) -> Result<(), TvFault> {
    match kind {
        "present" => hear(tv, alloc, 0, WINDOW, out),
        "refuse" => {
            hear(tv, alloc, 0, "{}", out)?;
            open(tv, 0, Kind::Ts, out)?;
            hear(tv, alloc, 0, SETUP, out)
        }
        "open" => {
            tv.step(TvEvent::Closed { peer: 0 }, out)?;
            open(tv, 0, Kind::Ts, out)
        }
        _ => change(tv, 1 + i % 2, out),
    }
}

fn run(alloc: Global, sessions: u32, kind: &str, count: u32) -> Result<(), TvFault> {
    let mut out = Vec::new(alloc);
    let mut tv = television(alloc, sessions, &mut out)?;
    for i in 0..count {
        out.clear();
        step(&mut tv, alloc, kind, i, &mut out)?;
    }
    Ok(())
}

fn main(rt: HostRuntime) -> ExitCode {
    let Ok(words) = env::args(&rt) else {
        return ExitCode::from(2);
    };
    let mut sessions = 0u32;
    let mut kind = String::new(rt.alloc());
    let mut count = 0u32;
    for (i, word) in words.enumerate() {
        if i == 1 {
            sessions = word.parse().unwrap_or(0);
        } else if i == 2 {
            kind = word;
        } else if i == 3 {
            count = word.parse().unwrap_or(0);
        }
    }
    if run(rt.alloc(), sessions, kind.as_str(), count).is_err() {
        return ExitCode::from(3);
    }
    ExitCode::from(0)
}
"""


def spent(program, sessions, kind, count):
    """Processor seconds of so many steps."""
    return seconds([program, str(sessions), kind, str(count)])


def main():
    count = int(sys.argv[1]) if len(sys.argv) > 1 else 2000
    with tempfile.TemporaryDirectory() as folder:
        program = build(folder, "tvsteps", LIBRARIES, PROGRAM)
        for sessions in SESSIONS:
            for kind in KINDS:
                steps = spent(program, sessions, kind, count) - spent(program, sessions, kind, 0)
                print(f"{sessions:4} sessions  {kind:8} {max(steps, 0) / count * 1e6:10.1f} microseconds a step")


if __name__ == "__main__":
    main()

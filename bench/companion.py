#!/usr/bin/env python3
"""Times what a companion does most: a report of its ticks, and the reading of the texts of both sessions.

    bench/companion.py [COUNT]          1,000,000 of each, where no count is given

The companion has an answer of the wall clock, a control timestamp and the rate of its timeline. Printed are nanoseconds
of processor time each, where that of a start is taken off: of a report, of a text of content identification that
changes one property, and of a control timestamp. The program that is timed is no part of this repository: it is made,
proved and built in a folder of its own over copies of the crates, which takes a minute, or some minutes where nothing
was proved in this checkout before.
"""

import sys
import tempfile

from programs import build, seconds

LIBRARIES = ["css_num", "css_client", "css_companion"]
KINDS = ["report", "cii", "control"]

PROGRAM = """//! Does what its first word says as often as its second one says.
#![tactic(auto)]

ghost use Rattle.std.specs.Prelude.{◌≡◌, ◌≤◌, IfOk, OnOk};

use css_client::Local;
use css_companion::{Companion, CompanionConfig, CompanionEvent, CompanionFault, Report};
use css_num::Text;
use std::alloc::Global;
use std::env;
use std::process::ExitCode;

/// The television answers the request of 1000 ns: the wall clock reads 10,500,000,003 ns.
const ANSWER: [u8; 32] = [
    0, 1, 226, 0, 0, 0, 0, 0, 0, 0, 0, 0, 0, 0, 3, 232, 0, 0, 0, 10, 29, 205, 101, 3, 0, 0, 0, 10, 29, 205, 101, 3,
];

const TIMELINES: &str = r#"{"timelines":[{"timelineProperties":{"unitsPerSecond":90000,"unitsPerTick":1},"timelineSelector":"urn:dvb:css:timeline:pts"}]}"#;

const CONTROLS: [&str; 2] = [
    r#"{"contentTime":"900000","timelineSpeedMultiplier":1,"wallClockTime":"10000000000"}"#,
    r#"{"contentTime":"901800","timelineSpeedMultiplier":0,"wallClockTime":"10020000000"}"#,
];

const CONTENTS: [&str; 2] = [r#"{"contentId":"dvb://1.2.3"}"#, r#"{"contentId":"dvb://1.2.4"}"#];

fn hear_cii(companion: &mut Companion, alloc: Global, text: &str) -> Result<(), CompanionFault>
    ensures { companion.new.client ≡ companion.old.client }
{
    let text = Text::of(alloc, text.as_bytes())?;
    companion.step(CompanionEvent::CiiText(text))?;
    Ok(())
}

fn hear_ts(companion: &mut Companion, alloc: Global, text: &str) -> Result<(), CompanionFault>
    ensures { companion.new.client ≡ companion.old.client }
{
    let text = Text::of(alloc, text.as_bytes())?;
    companion.step(CompanionEvent::TsText(text))?;
    Ok(())
}

fn companion(alloc: Global) -> Result<Companion, CompanionFault>
    ensures { IfOk result (λ companion. companion.client.floor ≡ 0) }
{
    let config = CompanionConfig {
        selector: Text::of(alloc, "urn:dvb:css:timeline:pts".as_bytes())?,
        stem: Text::of(alloc, "dvb://".as_bytes())?,
        local: Local { error: 128_000, precision: 1_000 },
    };
    let mut companion = Companion::new(alloc, config)?;
    hear_cii(&mut companion, alloc, TIMELINES)?;
    hear_ts(&mut companion, alloc, CONTROLS[0])?;
    Ok(companion)
}

fn answer(companion: &mut Companion) -> Result<(), CompanionFault>
    requires { companion.old.client.floor ≤ 1000 }
    ensures { OnOk result (companion.new.client.floor ≤ 23216) }
{
    let _ = companion.ask(1_000);
    let _ = companion.land(&ANSWER, 23_216)?;
    Ok(())
}

/// Whether each of so many reports tells ticks.
fn reports(companion: &Companion, count: u32) -> bool
    requires { companion.now.client.floor ≤ 23216 }
{
    for i in 0..count {
        match companion.report(1_000_000 + u64::from(i)) {
            Report::Ticks { lo, hi } if 900_000 < lo && lo <= hi => {}
            _ => return false,
        }
    }
    true
}

fn run(alloc: Global, kind: &str, count: u32) -> Result<bool, CompanionFault> {
    let mut companion = companion(alloc)?;
    answer(&mut companion)?;
    if kind == "report" {
        return Ok(reports(&companion, count));
    }
    for i in 0..count {
        let second = i % 2 == 1;
        match kind {
            "cii" => hear_cii(&mut companion, alloc, if second { CONTENTS[1] } else { CONTENTS[0] })?,
            _ => hear_ts(&mut companion, alloc, if second { CONTROLS[1] } else { CONTROLS[0] })?,
        }
    }
    Ok(true)
}

fn main(rt: HostRuntime) -> ExitCode {
    let Ok(words) = env::args(&rt) else {
        return ExitCode::from(2);
    };
    let mut kind = String::new(rt.alloc());
    let mut count = 0u32;
    for (i, word) in words.enumerate() {
        if i == 1 {
            kind = word;
        } else if i == 2 {
            count = word.parse().unwrap_or(0);
        }
    }
    match run(rt.alloc(), kind.as_str(), count) {
        Ok(true) => ExitCode::from(0),
        _ => ExitCode::from(3),
    }
}
"""


def spent(program, kind, count):
    """Processor seconds of so many of this kind."""
    return seconds([program, kind, str(count)])


def main():
    count = int(sys.argv[1]) if len(sys.argv) > 1 else 1_000_000
    with tempfile.TemporaryDirectory() as folder:
        program = build(folder, "companion", LIBRARIES, PROGRAM)
        for kind in KINDS:
            each = (spent(program, kind, count) - spent(program, kind, 0)) / count
            print(f"{kind:8} {max(each, 0) * 1e9:10.0f} ns each")


if __name__ == "__main__":
    main()

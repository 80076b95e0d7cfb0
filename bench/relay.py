#!/usr/bin/env python3
"""Times a request at a relay: its ticket, and the datagram that answers it.

    bench/relay.py [COUNT]          1,000,000 requests, where no count is given

The relay has an answer of its television's wall clock. Printed are nanoseconds of processor time for both calls of a
request together, where that of a start is taken off. The program that is timed is no part of this repository: it is
made, proved and built in a folder of its own over copies of the crates, which takes some minutes where nothing was
proved in this checkout before.
"""

import sys
import tempfile

from programs import build, seconds

LIBRARIES = ["css_num", "css_model", "css_client", "css_relay"]

PROGRAM = """//! Answers as many requests as its first word says.
#![tactic(auto)]

ghost use Rattle.std.specs.Prelude.{◌≡◌, ◌≤◌, ◌<◌, IfOk, OnOk};
ghost use Rattle.std.specs.Str.{IsUtf8};
ghost use Rattle.css_model.specs.declared.TheConstants.{LIMIT};

use css_client::Local;
use css_num::{Memory, Text};
use css_relay::{CompanionConfig, Relay};
use std::alloc::Global;
use std::env;
use std::process::ExitCode;

/// The television answers the request of 1000 ns: the wall clock reads 10,500,000,003 ns.
const ANSWER: [u8; 32] = [
    0, 1, 226, 0, 0, 0, 0, 0, 0, 0, 0, 0, 0, 0, 3, 232, 0, 0, 0, 10, 29, 205, 101, 3, 0, 0, 0, 10, 29, 205, 101, 3,
];

/// The request of another companion.
const REQUEST: [u8; 32] = [
    0, 0, 226, 0, 0, 0, 0, 0, 0, 0, 0, 0, 0, 0, 0, 42, 0, 0, 0, 0, 0, 0, 0, 0, 0, 0, 0, 0, 0, 0, 0, 0,
];

fn text(alloc: Global, words: &str) -> Result<Text, Memory>
    ensures { IfOk result (λ text. IsUtf8 text) }
{
    Ok(Text::of(alloc, words.as_bytes())?)
}

fn new_relay(alloc: Global) -> Result<Relay, Memory>
    ensures { IfOk result (λ relay. relay.companion.client.floor ≡ 0) }
{
    let config = CompanionConfig {
        selector: text(alloc, "urn:dvb:css:timeline:pts")?,
        stem: text(alloc, "dvb://")?,
        local: Local { error: 128_000, precision: 1_000 },
    };
    let host = text(alloc, "10.0.0.2")?;
    Relay::new(alloc, config, &host, 6690)
}

fn land(relay: &mut Relay) -> Result<(), Memory>
    requires { relay.old.companion.client.floor ≤ 1000 }
    ensures { OnOk result (relay.new.companion.client.floor ≤ 23216) }
{
    let _ = relay.ask(1_000);
    let _ = relay.land(&ANSWER, 23_216)?;
    Ok(())
}

/// Whether a request is answered.
fn is_answered(relay: &Relay, reading: u64) -> bool
    requires floor { relay.now.companion.client.floor ≤ 23216 }
    requires late { 23216 ≤ reading }
    requires range { reading < LIMIT }
{
    let Ok(ticket) = relay.receive(&REQUEST, reading) else {
        return false;
    };
    relay.answer(ticket, reading).is_ok()
}

fn run(alloc: Global, count: u32) -> Result<bool, Memory> {
    let mut relay = new_relay(alloc)?;
    land(&mut relay)?;
    for i in 0..count {
        if !is_answered(&relay, 1_000_000 + u64::from(i)) {
            return Ok(false);
        }
    }
    Ok(true)
}

fn main(rt: HostRuntime) -> ExitCode {
    let Ok(words) = env::args(&rt) else {
        return ExitCode::from(2);
    };
    let mut count = 0u32;
    for (i, word) in words.enumerate() {
        if i == 1 {
            count = word.parse().unwrap_or(0);
        }
    }
    match run(rt.alloc(), count) {
        Ok(true) => ExitCode::from(0),
        _ => ExitCode::from(3),
    }
}
"""


def main():
    count = int(sys.argv[1]) if len(sys.argv) > 1 else 1_000_000
    with tempfile.TemporaryDirectory() as folder:
        program = build(folder, "relay", LIBRARIES, PROGRAM)
        each = (seconds([program, str(count)]) - seconds([program, "0"])) / count
        print(f"request  {max(each, 0) * 1e9:10.0f} ns each")


if __name__ == "__main__":
    main()

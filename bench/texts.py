#!/usr/bin/env python3
"""Times the readers of JSON texts beside `serde_json`'s own reading of the same texts.

    bench/texts.py [COUNT]              100,000 readings of each text, where no count is given

Read are the full state of a television and a control timestamp, and lists of numerals of 1 KiB to 1 MiB. Printed are
texts a second and nanoseconds a byte of processor time, where that of a start is taken off. The program that reads is
no part of this repository: it is made, proved and built in a folder of its own over copies of the crates, which takes a
minute, or some minutes where nothing was proved in this checkout before.
"""

import sys
import tempfile

from programs import build, seconds

LIBRARIES = ["css_text", "css_cii", "css_tsmsg", "serde_json"]
STATE = (
    '{"contentId":"dvb://1.2.3","contentIdStatus":"final","mrsUrl":null,"presentationStatus":"okay",'
    '"protocolVersion":"1.1","teUrl":null,"timelines":[{"timelineProperties":{"unitsPerSecond":90000,'
    '"unitsPerTick":1},"timelineSelector":"urn:dvb:css:timeline:pts"}],"tsUrl":"ws://127.0.0.1:6678/ts",'
    '"wcUrl":"udp://127.0.0.1:6677"}'
)
CONTROL = '{"contentTime":"900000","timelineSpeedMultiplier":1,"wallClockTime":"10000000000"}'
LISTS = [1 << 10, 1 << 15, 1 << 20]

PROGRAM = """//! Reads the text of standard input as often as its second word says, with the reader of its first word.
#![tactic(auto)]

use css_cii::read_message;
use css_text::{read_object, rewrite_numerals};
use css_tsmsg::read_control;
use serde_json::Value;
use std::alloc::Global;
use std::env;
use std::io::Read;
use std::process::ExitCode;

fn is_read(alloc: Global, reader: &str, text: &[u8]) -> bool {
    match reader {
        "state" => read_message(alloc, text).is_ok(),
        "control" => read_control(alloc, text).is_ok(),
        "object" => read_object(alloc, text).is_ok(),
        "whole" => rewrite_numerals(alloc, text).is_ok(),
        "plain" => Value::from_slice(alloc, text).is_ok(),
        _ => false,
    }
}

fn main(rt: HostRuntime) -> ExitCode {
    let mut text = Vec::new(rt.alloc());
    if rt.reader().read_to_end(&mut text).is_err() {
        return ExitCode::from(1);
    }
    let Ok(words) = env::args(&rt) else {
        return ExitCode::from(2);
    };
    let mut reader = String::new(rt.alloc());
    let mut count = 0u32;
    for (i, word) in words.enumerate() {
        if i == 1 {
            reader = word;
        } else if i == 2 {
            count = word.parse().unwrap_or(0);
        }
    }
    for _ in 0..count {
        if !is_read(rt.alloc(), reader.as_str(), text.as_slice()) {
            return ExitCode::from(3);
        }
    }
    ExitCode::from(0)
}
"""


def spent(program, reader, text, count):
    """Processor seconds of so many readings."""
    return seconds([program, reader, str(count)], text)


def tell(program, name, readers, text, count):
    """Prints one line for each reader."""
    for reader in readers:
        readings = spent(program, reader, text, count) - spent(program, reader, text, 0)
        readings = max(readings, 1e-6)
        each = readings / count * 1e9 / len(text)
        often = f"{count / readings:12,.0f} texts a second"
        print(f"{name:10} {len(text):8} bytes  {reader:8} {often}  {each:7.1f} ns a byte")


def main():
    count = int(sys.argv[1]) if len(sys.argv) > 1 else 100_000
    with tempfile.TemporaryDirectory() as folder:
        program = build(folder, "texts", LIBRARIES, PROGRAM)
        tell(program, "state", ["state", "object", "whole", "plain"], STATE, count)
        tell(program, "control", ["control", "object", "whole", "plain"], CONTROL, count)
        for length in LISTS:
            text = '{"a":[' + "0.5," * (length // 4) + "1]}"
            tell(program, "numerals", ["object", "whole", "plain"], text, max(1, count * 100 // length))


if __name__ == "__main__":
    main()

#!/usr/bin/env python3
"""Refuses each allocation of a live companion's run and of a live television's in turn, one a run, until a run meets no
refusal, and counts the allocations of a television's quiet turns.

    tests/drives.py [--over-gate] [PROGRAM]     the program, where an earlier run built it; else it is built, with
                                                --over-gate over the libraries that `rt ci` left

The companion makes two reports, of an answer and a control timestamp; the television serves such a companion, which
then tells when it can present. Both stand over devices in memory, and write at once what they write or send. Each run
with a refusal must end with want of memory, and with a front part of what is written without one. Then a television
with 256 quiet sessions makes 300 turns, and 1,300: it must allocate as often in both. A quiet turn is one in which
nothing comes. The program is no part of this repository: it is proved and built in a folder that is removed.
"""
import contextlib
import os
import shutil
import subprocess
import sys
import tempfile
from pathlib import Path

sys.dont_write_bytecode = True
import refusals
from checks import TOP

sys.path.insert(0, str(TOP / "tools"))
from build import Prover, alone, link
from library import OverGate

NAME = "drives"

LIBRARIES = [
    "css_num", "css_outside", "css_memory", "css_client", "css_tsmsg", "css_companion", "css_schedule", "css_tv",
    "css_drive", "css_drive_relay",
]

PROGRAM = r"""//! Makes the run of its first word: of a companion or a television over devices in memory; or of a
//! companion, a television with 256 sessions or a relay over devices on which nothing comes, in as many turns as its
//! second word says.
#![tactic(auto)]

ghost use Rattle.std.specs.Prelude.{◌≡◌, ◌≤◌, IfOk, IsTrue, All, negsuc, false, true, [], None};
ghost use Rattle.std.specs.Str.{IsUtf8};
ghost use Rattle.css_memory.specs.Scripts.{are_readings, are_sessions};
ghost use Rattle.css_schedule.specs.Ranges.{IsScriptLine};
ghost use Rattle.css_drive.specs.Configs.{IsWritable};
ghost use Rattle.css_outside.specs.Limits.{IsLimit};

use css_client::Local;
use css_companion::CompanionConfig;
use css_drive::{DriveConfig, Driven, Nobody, TvDrive, drive_companion, drive_tv};
use css_drive_relay::{RelayRun, drive_relay};
use css_num::{Memory, Text};
use css_memory::{Datagram, MemoryOutside, OutsideScript, SessionHeard};
use css_outside::{Address, Clocked, Heard, Kind, Limit, OutFault, Outside, Sink, Why, Wrote};
use css_schedule::{ScriptLine, read_script};
use css_tv::TvConfig;
use std::alloc::Global;
use std::env;
use std::io;
use std::io::Write;
use std::process::ExitCode;

/// A response with the originate value 6, the receive value 5000 and the transmit value 5001.
const RESPONSE: [u8; 32] = [
    0, 1, 226, 0, 0, 0, 0, 0, 0, 0, 0, 0, 0, 0, 0, 6, 0, 0, 0, 0, 0, 0, 19, 136, 0, 0, 0, 0, 0, 0, 19, 137,
];

/// A request with the originate value 6.
const REQUEST: [u8; 32] = [
    0, 0, 0, 0, 0, 0, 0, 0, 0, 0, 0, 0, 0, 0, 0, 6, 0, 0, 0, 0, 0, 0, 0, 0, 0, 0, 0, 0, 0, 0, 0, 0,
];

const CII: &str = r#"{"timelines":null,"tsUrl":"ws://127.0.0.1:6678/ts","wcUrl":"udp://127.0.0.1:6677"}"#;

const TS: &str = r#"{"contentTime":"900000","timelineSpeedMultiplier":1,"wallClockTime":"0"}"#;

const SETUP: &str = r#"{"contentIdStem":"","timelineSelector":"urn:dvb:css:timeline:pts"}"#;

const PRESENTATION: &str = r#"{"earliest":{"contentTime":"900000","wallClockTime":"40000000"},"latest":{"contentTime":"900000","wallClockTime":"plusinfinity"}}"#;

const SCRIPT: &str =
    "0 programme dvb://1\n0 timeline 1 urn:dvb:css:timeline:pts 1 90000 900000\n0 change 1";

/// A writer as a sink that never fails.
#[derive(Drop)]
struct Out<W> {
    inner: W,
}

impl<W: Write> Sink for Out<W> {
    ghost holds = { λ _. None };

    ghost faults = { λ _. 0 };

    fn write(&mut self, bytes: &[u8]) -> Result<usize, OutFault> {
        let _ = self.inner.write_all(bytes);
        Ok(bytes.len())
    }
}

/// An outside in memory that writes what is sent.
#[derive(Drop)]
struct Telling<W> {
    outside: MemoryOutside,
    out: W,
}

impl<W: Write> Telling<W> {
    fn tell(&mut self, word: &[u8], bytes: &[u8])
        ensures { self.new.outside ≡ self.old.outside }
    {
        let _ = self.out.write_all(word);
        let _ = self.out.write_all(bytes);
        let _ = self.out.write_all(b"\n");
    }
}

impl<W: Write> Outside for Telling<W> {
    ghost use Rattle.std.specs.Prelude.{None};
    ghost use Rattle.css_memory.specs.Scripts.{counts_of};

    ghost told = { λ telling. None };

    ghost counts = { λ telling. counts_of telling.outside };

    fn listen(&mut self, host: &Text, port: u16) -> Result<(), OutFault> {
        self.outside.listen(host, port)
    }

    fn now(&mut self, why: Why) -> Result<Clocked, OutFault> {
        self.outside.now(why)
    }

    fn rest(&mut self, until: u64) {
        self.outside.rest(until);
    }

    fn dial(&mut self, kind: Kind, to: &Address) -> Result<u32, OutFault> {
        self.outside.dial(kind, to)
    }

    fn accept(&mut self) -> Result<Option<(u32, Kind)>, OutFault> {
        self.outside.accept()
    }

    fn send_datagram(&mut self, peer: u32, bytes: &[u8; 32]) -> Result<(), OutFault> {
        self.tell(b"send ", bytes);
        self.outside.send_datagram(peer, bytes)
    }

    fn take_datagram(&mut self, into: &mut [u8; 64]) -> Result<Option<(u32, usize)>, OutFault> {
        self.outside.take_datagram(into)
    }

    fn take_text(&mut self, peer: u32) -> Result<Heard, OutFault> {
        self.outside.take_text(peer)
    }

    fn send_text(&mut self, peer: u32, text: &[u8]) -> Result<Wrote, OutFault> {
        self.tell(b"say ", text);
        self.outside.send_text(peer, text)
    }

    fn hang_up(&mut self, peer: u32) -> Result<(), OutFault> {
        self.tell(b"hang up", b"");
        self.outside.hang_up(peer)
    }
}

/// An outside that allocates nothing. So many sessions are opened, one a turn, each dial succeeds, and nothing comes
/// but one text.
#[derive(Drop)]
struct Quiet {
    peers: u32,
    sessions: u32,
    text: Option<Text>,
}

impl Outside for Quiet {
    ghost use Rattle.std.specs.Prelude.{None};

    ghost told = { λ quiet. None };

    ghost counts = { λ quiet. record { dial_faults = 0; faults = 0; last = 0; peers = quiet.peers } };

    fn listen(&mut self, _host: &Text, _port: u16) -> Result<(), OutFault> {
        Ok(())
    }

    fn now(&mut self, _why: Why) -> Result<Clocked, OutFault> {
        Ok(Clocked { reading: 0, slept: false })
    }

    fn rest(&mut self, _until: u64) {}

    fn dial(&mut self, _kind: Kind, _to: &Address) -> Result<u32, OutFault> {
        if self.peers >= 1000 {
            return Err(OutFault::Memory);
        }
        self.peers += 1;
        Ok(self.peers)
    }

    fn accept(&mut self) -> Result<Option<(u32, Kind)>, OutFault> {
        if self.peers >= self.sessions {
            return Ok(None);
        }
        self.peers += 1;
        if self.peers % 2 == 1 {
            return Ok(Some((self.peers, Kind::Cii)));
        }
        Ok(Some((self.peers, Kind::Ts)))
    }

    fn send_datagram(&mut self, _peer: u32, _bytes: &[u8; 32]) -> Result<(), OutFault> {
        Ok(())
    }

    fn take_datagram(&mut self, _into: &mut [u8; 64]) -> Result<Option<(u32, usize)>, OutFault> {
        Ok(None)
    }

    fn take_text(&mut self, _peer: u32) -> Result<Heard, OutFault> {
        match self.text.take() {
            Some(text) => Ok(Heard::Text(text)),
            None => Ok(Heard::Quiet),
        }
    }

    fn send_text(&mut self, _peer: u32, _text: &[u8]) -> Result<Wrote, OutFault> {
        Ok(Wrote::Sent)
    }

    fn hang_up(&mut self, _peer: u32) -> Result<(), OutFault> {
        Ok(())
    }
}

fn at(reading: u64) -> Clocked
    ensures { result ≡ record { reading = reading; slept = false } }
{
    Clocked { reading, slept: false }
}

fn companion_readings(alloc: Global) -> Result<Vec<Clocked>, Memory>
    ensures { IfOk result (λ readings. IsTrue (are_readings 0 readings.items)) }
{
    Ok(vec![in alloc; at(0), at(5), at(6), at(8), at(10), at(20)]?)
}

fn tv_readings(alloc: Global) -> Result<Vec<Clocked>, Memory>
    ensures { IfOk result (λ readings. IsTrue (are_readings 0 readings.items)) }
{
    Ok(vec![in alloc; at(4900), at(4950), at(5000), at(5001), at(5002)]?)
}

fn tv_openings(alloc: Global) -> Result<Vec<Option<Kind>>, Memory>
    ensures { IfOk result (λ openings. IsTrue (are_sessions openings.items)) }
{
    Ok(vec![in alloc; Some(Kind::Cii), Some(Kind::Ts)]?)
}

fn text(alloc: Global, words: &str) -> Result<Text, Memory>
    ensures { IfOk result (λ text. IsUtf8 text) }
{
    Text::of(alloc, words.as_bytes())
}

fn add_text(alloc: Global, texts: &mut Vec<SessionHeard>, session: u32, words: &str) -> Result<(), Memory> {
    let heard = Heard::Text(Text::of(alloc, words.as_bytes())?);
    texts.push(SessionHeard { session, heard })?;
    Ok(())
}

fn companion_outside(alloc: Global) -> Result<MemoryOutside, Memory> {
    let mut datagrams = Vec::new(alloc);
    datagrams.push(Some(Datagram { peer: 2, bytes: Text::of(alloc, &RESPONSE)? }))?;
    let mut texts = Vec::new(alloc);
    add_text(alloc, &mut texts, 1, CII)?;
    add_text(alloc, &mut texts, 2, TS)?;
    let script = OutsideScript {
        readings: companion_readings(alloc)?,
        datagrams,
        openings: Vec::new(alloc),
        texts,
        gone: Vec::new(alloc),
        fails: Vec::new(alloc),
    };
    MemoryOutside::new(alloc, script)
}

fn tv_outside(alloc: Global) -> Result<MemoryOutside, Memory> {
    let mut datagrams = Vec::new(alloc);
    datagrams.push(None)?;
    datagrams.push(Some(Datagram { peer: 9, bytes: Text::of(alloc, &REQUEST)? }))?;
    let mut texts = Vec::new(alloc);
    add_text(alloc, &mut texts, 2, SETUP)?;
    add_text(alloc, &mut texts, 2, PRESENTATION)?;
    let script = OutsideScript {
        readings: tv_readings(alloc)?,
        datagrams,
        openings: tv_openings(alloc)?,
        texts,
        gone: Vec::new(alloc),
        fails: Vec::new(alloc),
    };
    MemoryOutside::new(alloc, script)
}

fn limit_of(turns: u64) -> Result<Limit, Memory>
    ensures { IfOk result IsLimit }
{
    if turns < 1 || turns > 1_000_000 {
        return Err(Memory);
    }
    Ok(Limit::Turns(turns))
}

fn wanted(alloc: Global) -> Result<CompanionConfig, Memory>
    ensures { IfOk result (λ wanted. IsUtf8 wanted.selector × IsUtf8 wanted.stem) }
{
    Ok(CompanionConfig {
        selector: text(alloc, "urn:dvb:css:timeline:pts")?,
        stem: text(alloc, "")?,
        local: Local { error: 0, precision: 0 },
    })
}

fn cii_address(alloc: Global) -> Result<Address, Memory> {
    Ok(Address { host: text(alloc, "127.0.0.1")?, port: 6677, path: text(alloc, "/cii")? })
}

fn companion_config(alloc: Global, limit: Limit) -> Result<DriveConfig, Memory>
    requires { IsLimit limit }
    ensures { IfOk result IsWritable }
{
    Ok(DriveConfig {
        companion: wanted(alloc)?,
        cii: cii_address(alloc)?,
        reports: 2,
        limit,
        report_every: 10,
        ask_every: 1000,
        present: None,
    })
}

fn run_companion<W: Write + Drop>(alloc: Global, out: W) -> Result<Driven, Memory> {
    let config = companion_config(alloc, limit_of(4)?)?;
    let mut outside = companion_outside(alloc)?;
    let mut sink = Out { inner: out };
    Ok(drive_companion(alloc, config, &mut sink, &mut outside, &mut Nobody))
}

fn script(alloc: Global) -> Result<Vec<ScriptLine>, Memory>
    ensures { IfOk result (λ lines. All IsScriptLine lines.items) }
{
    let mut lines = Vec::new(alloc);
    for line in SCRIPT.lines() {
        match read_script(alloc, line.as_bytes()) {
            Ok(read) => lines.push(read)?,
            Err(_) => return Err(Memory),
        }
    }
    Ok(lines)
}

fn tv_config(host: Text) -> TvConfig
    ensures host { result.host ≡ host }
    ensures precision { result.precision ≡ negsuc 29 }
    ensures error { result.error ≡ 0 }
    ensures port { result.port ≡ 6677 }
{
    TvConfig { precision: -30, error: 0, follow: true, host, port: 6677 }
}

fn run_tv<W: Write + Drop>(alloc: Global, out: W) -> Result<Driven, Memory> {
    let tv = tv_config(text(alloc, "127.0.0.1")?);
    let mut outside = Telling { outside: tv_outside(alloc)?, out };
    let script = script(alloc)?;
    let run = TvDrive { tv, limit: limit_of(4)?, relative: false };
    Ok(drive_tv(alloc, run, &script, &mut outside))
}

fn quiet_tv(alloc: Global, limit: Limit) -> Result<Driven, Memory>
    requires { IsLimit limit }
{
    let tv = tv_config(text(alloc, "127.0.0.1")?);
    let mut outside = Quiet { peers: 0, sessions: 256, text: None };
    Ok(drive_tv(alloc, TvDrive { tv, limit, relative: false }, &[], &mut outside))
}

fn quiet_companion(alloc: Global, limit: Limit) -> Result<Driven, Memory>
    requires { IsLimit limit }
{
    let config = companion_config(alloc, limit)?;
    let mut outside = Quiet { peers: 0, sessions: 0, text: Some(text(alloc, CII)?) };
    let mut sink = Out { inner: Vec::new(alloc) };
    Ok(drive_companion(alloc, config, &mut sink, &mut outside, &mut Nobody))
}

fn quiet_relay(alloc: Global, limit: Limit) -> Result<Driven, Memory>
    requires { IsLimit limit }
{
    let config = RelayRun {
        companion: wanted(alloc)?,
        cii: cii_address(alloc)?,
        host: text(alloc, "127.0.0.1")?,
        port: 6687,
        limit,
        ask_every: 1000,
    };
    let mut outside = Quiet { peers: 0, sessions: 0, text: Some(text(alloc, CII)?) };
    Ok(drive_relay(alloc, config, &mut outside))
}

fn run_quiet(alloc: Global, kind: &str, turns: u64) -> Result<Driven, Memory> {
    let limit = limit_of(turns)?;
    match kind {
        "quiet_companion" => quiet_companion(alloc, limit),
        "quiet_relay" => quiet_relay(alloc, limit),
        _ => quiet_tv(alloc, limit),
    }
}

fn main(rt: HostRuntime) -> ExitCode {
    let Ok(words) = env::args(&rt) else {
        return ExitCode::from(14);
    };
    let mut kind = String::new(rt.alloc());
    let mut turns = 0u64;
    for (i, word) in words.enumerate() {
        if i == 1 {
            kind = word;
        } else if i == 2 {
            turns = word.parse().unwrap_or(0);
        }
    }
    let driven = match kind.as_str() {
        "companion" => run_companion(rt.alloc(), io::writer(&rt)),
        "tv" => run_tv(rt.alloc(), io::writer(&rt)),
        kind => run_quiet(rt.alloc(), kind, turns),
    };
    match driven {
        Ok(Driven::Done) => ExitCode::from(0),
        // A quiet companion makes no report.
        Ok(Driven::Spent { turns: _ }) => ExitCode::from(0),
        Ok(Driven::Memory) => ExitCode::from(14),
        Err(Memory) => ExitCode::from(14),
        Ok(_) => ExitCode::from(3),
    }
}
"""

PROOFS = {
    "script/Invariants.antt": """-- The lines so far are lines of a script.
use Rattle.std.specs.Prelude.{All}
use Rattle.css_schedule.specs.Ranges.{IsScriptLine}
use Rattle.drives.proofs.script.Given as goal

abbrev pub invariant-loop-line : goal.invariant-loop-line
invariant-loop-line l = All IsScriptLine l.lines.items
""",
    "script/Answers.antt": """-- The line that was read is a line of a script.
use Rattle.std.proofs.Common.{subst, sym}
use Rattle.std.specs.Prelude.{All}
use Rattle.std.proofs.lemmas.List.Elements.{All-push}
use Rattle.css_schedule.specs.Ranges.{IsScriptLine}
use Rattle.drives.proofs.script.Goals as goal

pub loop-line-preserved : goal.loop-line-preserved
loop-line-preserved c =
    subst (All IsScriptLine) (sym c.in_ok-push-in-Ok.ensures.items)
    (All-push IsScriptLine c.loop-line.lines.items _ c.loop-line.invariant c.in-Ok.ensures.range)
""",
}


def run(program, library, words, number):
    """Exit status and output of a run in which that allocation is refused, none for 0, and whether one was."""
    reads, writes = os.pipe()

    def tell_at_3():
        os.dup2(writes, 3)

    ran = subprocess.run([program, *words], stdin=subprocess.DEVNULL, capture_output=True, timeout=60,
                         env={"LD_PRELOAD": library, "REFUSED": str(number)}, preexec_fn=tell_at_3,
                         pass_fds=(3, writes))
    os.close(writes)
    with os.fdopen(reads, "rb") as told:
        refused = told.read() == b"r"
    return ran.returncode, ran.stdout, refused


def refuse_each(program, library, kind):
    """Refuses each allocation of a run in turn, and gives how many there are."""
    status, whole, _ = run(program, library, [kind], 0)
    if status != 0 or not whole:
        sys.exit(f"{kind}: status {status}, {whole}")
    number = 1
    while True:
        status, written, refused = run(program, library, [kind], number)
        if not refused:
            break
        if status != 14 or not whole.startswith(written):
            sys.exit(f"{kind}, allocation {number}: status {status}, {written}")
        number += 1
    if status != 0 or written != whole or number == 1:
        sys.exit(f"{kind}, without a refusal: status {status}, {written}")
    return number - 1


def allocations(program, library, turns):
    """How often a television with quiet sessions allocates in so many turns: the greatest number that is refused."""
    least, most = 0, 1
    while run(program, library, ["quiet_tv", str(turns)], most)[2]:
        least, most = most, most * 2
    while most - least > 1:
        middle = (least + most) // 2
        if run(program, library, ["quiet_tv", str(turns)], middle)[2]:
            least = middle
        else:
            most = middle
    return least


def build(room, is_over_gate):
    """Proves and builds the program in this folder."""
    files = {"src/main.rt": PROGRAM, **{f"proofs/{path}": text for path, text in PROOFS.items()}}
    for path, text in files.items():
        place = room / NAME / path
        place.parent.mkdir(parents=True, exist_ok=True)
        place.write_text(text)
    made, program = room / "made.o", room / "program"
    kind = OverGate if is_over_gate else Prover
    with contextlib.nullcontext() if is_over_gate else alone():
        prover = kind(room, NAME, ["src/main.rt", "--backend", "llvm"], made, LIBRARIES)
        prover.prove()
    link(prover.kit, made, program)
    return program


def judge(program, library):
    for kind in ["companion", "tv"]:
        count = refuse_each(program, library, kind)
        print(f"{kind}: {count} allocations refused, one a run: each ends with memory and a front part of what is "
              "written")
    few, many = (allocations(program, library, turns) for turns in (300, 1300))
    if few != many:
        sys.exit(f"300 turns allocate {few} times, and 1,300 turns {many} times")
    print(f"quiet: {few} allocations in 300 turns as in 1,300, so a turn with 256 quiet sessions makes none")


def main(words):
    is_over_gate = words[:1] == ["--over-gate"]
    words = words[is_over_gate:]
    if not shutil.which(refusals.COMPILER):
        print(f"skipped the refusal of allocations of live runs: there is no {refusals.COMPILER}")
        return
    with tempfile.TemporaryDirectory() as folder:
        program = words[0] if words else build(Path(folder), is_over_gate)
        judge(program, refusals.build(folder))


if __name__ == "__main__":
    main(sys.argv[1:])

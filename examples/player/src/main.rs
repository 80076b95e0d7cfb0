//! Plays a tone at each second of a television's programme, by its own clock, into a WAV file:
//!
//!     player ws://HOST:PORT/cii FILE.wav [SECONDS [REOPEN]]
//!
//! Each second it prints by how many milliseconds it can be ahead. It takes the television's wall clock for this
//! machine's own, as on loopback, and tells whether what it said is true. Where the TS session closes it opens another.
//! After REOPEN seconds it closes the session itself.
mod player;
mod session;
mod sound;

use css_companion::clock::{reading, Sleep};
use css_companion::{Companion, Error, Position, Property};
use player::Player;
use session::{datagrams, Session};
use sound::{Sound, SAMPLES};
use std::net::UdpSocket;
use std::ops::RangeInclusive;
use std::time::Duration;
use std::{env, error, thread};

const SECOND: u64 = 1_000_000_000;

/// A companion with its sockets.
struct Follower {
    companion: Companion,
    sleep: Sleep,
    cii: Session,
    ts: Option<Session>,
    wall: Option<UdpSocket>,
    next_request: u64,
    next_dial: u64,
}

impl Follower {
    fn open(url: &str) -> Result<Follower, Box<dyn error::Error>> {
        Ok(Follower {
            companion: Companion::new("urn:dvb:css:timeline:pts", "", 128_000, 1_000)?,
            sleep: Sleep::new(),
            cii: Session::open(url)?,
            ts: None,
            wall: None,
            next_request: 0,
            next_dial: 0,
        })
    }

    /// Takes in what came, and sends what is due. It waits for a datagram for 2 ms.
    fn turn(&mut self) -> Result<(), Box<dyn error::Error>> {
        if self.sleep.has_slept() {
            self.companion.slept()?;
        }
        self.hear_clock()?;
        while let Some(text) = self.cii.next()? {
            self.companion.cii(&text)?;
        }
        self.hear_timeline()?;
        self.dial()?;
        if let Some(wall) = self.wall.as_ref().filter(|_| reading() >= self.next_request) {
            // a request that is lost is one that isn't answered
            let _ = wall.send(&self.companion.ask(reading())?);
            self.next_request = reading() + SECOND;
        }
        Ok(())
    }

    /// A datagram that is no answer is passed over: others may send too. Answers that disagree end the visit.
    fn hear_clock(&mut self) -> Result<(), Error> {
        let mut datagram = [0; 64];
        let Some(wall) = &self.wall else {
            thread::sleep(Duration::from_millis(2));
            return Ok(());
        };
        while let Ok(len) = wall.recv(&mut datagram) {
            match self.companion.land(&datagram[..len], reading()) {
                Ok(()) | Err(Error::Ignored(_)) => {}
                Err(error) => return Err(error),
            }
        }
        Ok(())
    }

    /// Takes in the texts of the TS session.
    fn hear_timeline(&mut self) -> Result<(), Error> {
        while let Some(ts) = &mut self.ts {
            match ts.next() {
                Ok(Some(text)) => self.companion.control(&text)?,
                Ok(None) => return Ok(()),
                Err(_) => self.end_timeline()?,
            }
        }
        Ok(())
    }

    /// The wall clock's answers stay, so the next control timestamp gives an interval at once.
    fn end_timeline(&mut self) -> Result<(), Error> {
        self.ts = None;
        self.companion.ts_closed()
    }

    /// Opens the TS session, and lets the companion begin it anew.
    fn open_timeline(&mut self, url: &str) -> Result<(), Box<dyn error::Error>> {
        self.next_dial = reading() + SECOND / 2;
        if let Ok(mut ts) = Session::open(url) {
            ts.send(&self.companion.setup()?)?;
            self.ts = Some(ts);
        }
        Ok(())
    }

    /// Dials what the television told.
    fn dial(&mut self) -> Result<(), Box<dyn error::Error>> {
        if self.wall.is_none() {
            if let Some(url) = self.companion.property(Property::WcUrl)? {
                self.wall = Some(datagrams(&url)?);
            }
        }
        if self.ts.is_none() && reading() >= self.next_dial {
            if let Some(url) = self.companion.property(Property::TsUrl)? {
                self.open_timeline(&url)?;
            }
        }
        Ok(())
    }

    /// By how many nanoseconds the player is ahead now, with what the timeline goes by.
    fn lead(&mut self, player: &Player) -> Result<(RangeInclusive<f64>, Position, u64), Error> {
        let now = reading();
        let (tick, since) = player.at();
        let lead = self.companion.lead(now, tick)?;
        Ok((*lead.start() as f64 + since..=*lead.end() as f64 + since, self.companion.position(now)?, now))
    }
}

/// By how many nanoseconds it is truly ahead, where the television's wall clock is this machine's own.
fn true_lead(player: &Player, position: &Position, now: u64) -> f64 {
    let (tick, since) = player.at();
    let length = f64::from(position.units_per_tick) * 1e9 / f64::from(position.units_per_second);
    let gone = (now as i64 - position.wall as i64) as f64 * f64::from(position.speed);
    (tick - position.content) as f64 * length - gone + since
}

/// What was told, and how much of it is true.
#[derive(Default)]
struct Tally {
    told: u32,
    is_true: u32,
    furthest: f64,
}

/// Keeps the player at the television's place.
fn keep(follower: &mut Follower, player: &mut Player, tally: &mut Tally, is_told: bool) {
    let (lead, position, now) = match follower.lead(player) {
        Ok(told) => told,
        Err(cause) => {
            player.is_playing = false;
            if is_told {
                println!("{cause}");
            }
            return;
        }
    };
    if position.speed != 1 {
        player.is_playing = false;
    } else if !player.is_playing {
        player.seek(position.lo, &position);
    } else {
        let truth = true_lead(player, &position, now);
        tally.told += 1;
        // half a microsecond for what a float rounds
        tally.is_true += u32::from(*lead.start() <= truth + 500.0 && truth - 500.0 <= *lead.end());
        tally.furthest = tally.furthest.max(truth.abs());
        if is_told {
            let (lo, hi) = (lead.start() / 1e6, lead.end() / 1e6);
            println!("ahead by {lo:.3} to {hi:.3} ms, at {:.4} of the speed", player.pace);
        }
        player.mend(&lead, &position);
    }
}

fn main() -> Result<(), Box<dyn error::Error>> {
    let words: Vec<String> = env::args().collect();
    let [_, url, file, rest @ ..] = &words[..] else {
        return Err("player ws://HOST:PORT/cii FILE.wav [SECONDS [REOPEN]]".into());
    };
    let seconds: u64 = rest.first().map_or(Ok(10), |word| word.parse())?;
    let mut reopen: Option<u64> = rest.get(1).map(|word| word.parse()).transpose()?;
    let (mut follower, mut player, mut tally) = (Follower::open(url)?, Player::new(), Tally::default());
    let mut sound = Sound::create(file)?;
    let begun = reading();
    let (mut next_look, mut next_line) = (begun, begun);
    while reading() < begun + seconds * SECOND {
        follower.turn()?;
        let now = reading();
        if reopen.take_if(|after| now >= begun + *after * SECOND).is_some() {
            follower.end_timeline()?;
        }
        player.play(&mut sound, (now - begun) / 1000 * SAMPLES / 1_000_000)?;
        if now >= next_look {
            keep(&mut follower, &mut player, &mut tally, now >= next_line);
            next_look = now + SECOND / 20;
            next_line += if now >= next_line { SECOND } else { 0 };
        }
    }
    sound.finish()?;
    let Tally { told, is_true, furthest } = tally;
    println!("{is_true} of {told} leads are true; {} seeks; at most {:.3} ms off", player.seeks, furthest / 1e6);
    if told == 0 || is_true != told {
        return Err("a lead isn't true".into());
    }
    Ok(())
}

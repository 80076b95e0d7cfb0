//! A player that is kept at the television's place: by its speed where it is near, and by a seek where it isn't.
use crate::sound::{Sound, SAMPLES};
use css_companion::Position;
use std::f64::consts::TAU;
use std::io;
use std::ops::RangeInclusive;

const SECOND: f64 = 1e9;
/// Beyond so many nanoseconds it seeks.
const NEAR: f64 = 20e6;
/// Its speed is changed by at most one in so many, which nobody hears.
const BEND: f64 = 0.01;
/// A lead is to be gone in so many nanoseconds, where the bend allows it.
const MEND: f64 = 2e9;

pub struct Player {
    /// The tick of the last seek, and the nanoseconds of the timeline that were played since.
    origin: i64,
    played: f64,
    /// Where in a second of the programme the origin is, in nanoseconds.
    begun: f64,
    /// Nanoseconds of a tick.
    tick: f64,
    pub pace: f64,
    pub is_playing: bool,
    pub seeks: u32,
}

impl Player {
    pub fn new() -> Player {
        Player { origin: 0, played: 0.0, begun: 0.0, tick: 1.0, pace: 1.0, is_playing: false, seeks: 0 }
    }

    /// The tick at whose beginning it was last, and the nanoseconds since.
    pub fn at(&self) -> (i64, f64) {
        let ticks = (self.played / self.tick).floor();
        (self.origin + ticks as i64, self.played - ticks * self.tick)
    }

    /// Goes on at this tick, on a timeline that goes by this position.
    pub fn seek(&mut self, tick: i64, position: &Position) {
        let length = i128::from(position.units_per_tick) * 1_000_000_000;
        let units = i128::from(position.units_per_second);
        let second = 1_000_000_000 * units;
        *self = Player {
            origin: tick,
            played: 0.0,
            begun: (i128::from(tick) * length).rem_euclid(second) as f64 / units as f64,
            tick: length as f64 / units as f64,
            pace: 1.0,
            is_playing: true,
            seeks: self.seeks + 1,
        };
    }

    /// Mends the lead that it has: by nothing where it may have none, by its speed, or by a seek.
    pub fn mend(&mut self, lead: &RangeInclusive<f64>, position: &Position) {
        let middle = (lead.start() + lead.end()) / 2.0;
        if lead.contains(&0.0) {
            self.pace = 1.0;
        } else if *lead.start() > NEAR || *lead.end() < -NEAR {
            let (tick, _) = self.at();
            self.seek(tick - (middle / self.tick).round() as i64, position);
        } else {
            self.pace = 1.0 - (middle / MEND).clamp(-BEND, BEND);
        }
    }

    /// Plays until so many samples are written: a tone at each second of the programme.
    pub fn play(&mut self, sound: &mut Sound, samples: u64) -> io::Result<()> {
        while sound.written < samples {
            let place = (self.begun + self.played) % SECOND;
            let is_tone = self.is_playing && place < 0.05 * SECOND;
            sound.put(if is_tone { (TAU * 1000.0 * place / SECOND).sin() } else { 0.0 })?;
            if self.is_playing {
                self.played += self.pace * SECOND / SAMPLES as f64;
            }
        }
        Ok(())
    }
}

//! A companion of ETSI TS 103 286-2 (DVB-CSS) for your own loop: you have the sockets and the clock.
//!
//! [`Companion::position`] tells which ticks of a timeline the television may be presenting. It is proved of the
//! library below that the interval contains the truth, whatever datagrams were lost, repeated or reordered, while both
//! oscillators keep their declared error and precision. What is trusted is this package, which is safe Rust but for its
//! calls, and what `css_companion.h` names.
#![deny(unsafe_op_in_unsafe_fn)]

#[cfg(all(target_os = "linux", target_pointer_width = "64"))]
pub mod clock;
mod error;
mod ffi;

pub use error::{Cause, Error, Ignored, Refusal, TextFault};

use error::told;
use ffi::{Handle, Rate, Readings, Span};
use std::marker::PhantomData;
use std::ops::RangeInclusive;

/// Ticks from `lo` to `hi`, and what they go by: the timeline goes on by `speed * units_per_second / units_per_tick`
/// ticks a second, and at `wall` nanoseconds of the television's wall clock it is `content`.
#[repr(C)]
#[derive(Clone, Copy, Debug, Default, PartialEq, Eq)]
pub struct Position {
    pub lo: i64,
    pub hi: i64,
    pub content: i64,
    pub wall: u64,
    pub units_per_tick: u32,
    pub units_per_second: u32,
    /// 0 is a pause; below 0 the timeline goes backward.
    pub speed: i32,
}

/// What positions go by, as plain data: for a thread that can't wait, such as one of audio.
///
/// It knows what its companion knew, and nothing of responses that came since, nor that they disagree. Take a new one
/// when [`Companion::age`] rises, and drop it after a sleep, and where none can be taken.
#[repr(C)]
#[derive(Clone, Copy, Debug, Default, PartialEq, Eq)]
pub struct Snapshot {
    floor: u64,
    precision: u64,
    error: u32,
    count: u32,
    answers: [ffi::Answer; 4],
    content: i64,
    wall: u64,
    speed: i32,
    units_per_tick: u32,
    units_per_second: u32,
}

impl Snapshot {
    /// The ticks at this reading: what [`Companion::position`] told when the snapshot was taken. No memory is taken.
    pub fn position(&self, reading: u64) -> Result<Position, Error> {
        let mut position = Position::default();
        // SAFETY: both pointers are those of values that live on, and the library keeps neither.
        told(unsafe { ffi::css_snapshot_position(self, reading, &mut position) })?;
        Ok(position)
    }
}

/// When to do something next: readings of the own clock.
#[derive(Clone, Copy, Debug, Default, PartialEq, Eq)]
pub struct Next {
    /// From then on a request is due: at once where none was sent since the last sleep; a second after the last one
    /// where no response to it was accepted; else where the wall clock's span becomes too wide, and no sooner than
    /// 100 ms after the last one.
    pub ask: u64,
    /// From then on the tick may be shown. The greatest reading where it isn't, or that isn't known.
    pub look: u64,
}

/// A property of the content's state that is a text.
#[derive(Clone, Copy, Debug, PartialEq, Eq)]
#[repr(u32)]
pub enum Property {
    ProtocolVersion = 0,
    MrsUrl,
    ContentId,
    ContentIdStatus,
    PresentationStatus,
    WcUrl,
    TsUrl,
    TeUrl,
}

/// A timeline that the television lists. It has `units_per_second / units_per_tick` ticks a second.
#[derive(Clone, Debug, PartialEq, Eq)]
pub struct Timeline {
    pub selector: String,
    pub units_per_tick: u32,
    pub units_per_second: u32,
}

/// One end of a presentation window.
#[derive(Clone, Copy, Debug, PartialEq, Eq)]
pub enum Bound {
    /// Tick `content` at `wall` nanoseconds of the television's wall clock.
    At { content: i64, wall: u64 },
    /// Tick `content`, however early or late.
    Ever { content: i64 },
}

/// A companion. It may go to another thread, and is used by one at a time.
pub struct Companion {
    handle: Handle,
    one_at_a_time: PhantomData<*mut ()>,
}

// SAFETY: what the handle owns is one companion and its memory, of which nobody else has a pointer. The library has no
// global state and no thread.
unsafe impl Send for Companion {}

/// The version of the library's interface.
pub fn version() -> u32 {
    // SAFETY: the call takes nothing.
    unsafe { ffi::css_companion_version() }
}

/// The text that tells a television when you can present. A bound's `content` has at most 18 digits, and its `wall` is
/// below 2^63.
pub fn presentation(earliest: Bound, latest: Bound) -> Result<String, Error> {
    let (earliest, latest) = (bound(earliest), bound(latest));
    text(|out, room, used| {
        // SAFETY: all pointers are those of values on this stack.
        unsafe { ffi::css_companion_presentation(&earliest, &latest, out, room, used) }
    })
}

impl Companion {
    /// A companion that wants the timeline with this selector, of content whose id begins with this stem. `error` is
    /// that of the own oscillator in 1/256 ppm, at most 2,560,000; `precision` is in nanoseconds, at most 10^9.
    pub fn new(selector: &str, stem: &str, error: u32, precision: u64) -> Result<Companion, Error> {
        let mut handle = Handle { live: false, age: 0, at: std::ptr::null_mut() };
        // SAFETY: the handle is none; each pointer and length are those of one `str`.
        told(unsafe {
            ffi::css_companion_new(
                &mut handle,
                selector.as_ptr(),
                selector.len(),
                stem.as_ptr(),
                stem.len(),
                error,
                precision,
            )
        })?;
        Ok(Companion { handle, one_at_a_time: PhantomData })
    }

    /// The machine slept: all requests and responses are forgotten, and nothing else.
    pub fn slept(&mut self) -> Result<(), Error> {
        // SAFETY: the handle is what the last call left, and `&mut self` lets no other call run. So in each call below.
        told(unsafe { ffi::css_companion_slept(&mut self.handle) })
    }

    /// The request to send, at this reading of the own clock. A reading is in nanoseconds, below 2^32 seconds, and none
    /// is below an earlier one.
    pub fn ask(&mut self, reading: u64) -> Result<[u8; 32], Error> {
        let mut request = [0; 32];
        told(unsafe { ffi::css_companion_ask(&mut self.handle, reading, &mut request) })?;
        Ok(request)
    }

    /// Takes in a datagram that landed at this reading. [`Error::Disagree`] where it tells of an exchange that can't be
    /// true together with those accepted since the last sleep: from then on nothing is told of the wall clock.
    pub fn land(&mut self, datagram: &[u8], reading: u64) -> Result<(), Error> {
        told(unsafe { ffi::css_companion_land(&mut self.handle, datagram.as_ptr(), datagram.len(), reading) })
    }

    /// What the television's wall clock shows at this reading, in nanoseconds, by the narrowest response.
    pub fn wall(&mut self, reading: u64) -> Result<RangeInclusive<i64>, Error> {
        let mut wall = Span::default();
        told(unsafe { ffi::css_companion_wall(&mut self.handle, reading, &mut wall) })?;
        Ok(wall.lo..=wall.hi)
    }

    /// What it shows by all responses together that were accepted since the last sleep.
    pub fn agreed(&mut self, reading: u64) -> Result<RangeInclusive<i64>, Error> {
        let mut wall = Span::default();
        told(unsafe { ffi::css_companion_agreed(&mut self.handle, reading, &mut wall) })?;
        Ok(wall.lo..=wall.hi)
    }

    /// Takes in a text of the CII session, of at most 262,144 bytes.
    pub fn cii(&mut self, text: &str) -> Result<(), Error> {
        told(unsafe { ffi::css_companion_cii(&mut self.handle, text.as_ptr(), text.len()) })
    }

    /// A property that is a text, or None where it is null.
    pub fn property(&mut self, property: Property) -> Result<Option<String>, Error> {
        let handle = &mut self.handle;
        match text(|out, room, used| unsafe { ffi::css_companion_cii_field(handle, property as u32, out, room, used) })
        {
            Err(Error::Cause(Cause::Null)) => Ok(None),
            other => other.map(Some),
        }
    }

    /// What was refused, for a person: the property for which the last CII text was, as `wcUrl`; else why the last
    /// control timestamp can't be read, as `Field contentTime`. None where there is neither.
    pub fn fault(&mut self) -> Result<Option<String>, Error> {
        let handle = &mut self.handle;
        match text(|out, room, used| unsafe { ffi::css_companion_fault(handle, out, room, used) }) {
            Err(Error::Cause(Cause::Null)) => Ok(None),
            other => other.map(Some),
        }
    }

    /// The whole state of the content, as the text that tells it.
    pub fn state(&mut self) -> Result<String, Error> {
        let handle = &mut self.handle;
        text(|out, room, used| unsafe { ffi::css_companion_cii_state(handle, out, room, used) })
    }

    /// The timelines that the television lists, in its order. None are where it lists none.
    pub fn timelines(&mut self) -> Result<Vec<Timeline>, Error> {
        let mut listed = Vec::new();
        loop {
            let (handle, mut rate) = (&mut self.handle, Rate::default());
            let told = text(|out, room, used| unsafe {
                ffi::css_companion_timeline(handle, listed.len(), &mut rate, out, room, used)
            });
            match told {
                Err(Error::Cause(Cause::Null)) => return Ok(listed),
                other => listed.push(Timeline {
                    selector: other?,
                    units_per_tick: rate.units_per_tick,
                    units_per_second: rate.units_per_second,
                }),
            }
        }
    }

    /// The text to send on a TS session that was opened. That session begins anew: there is no position until a control
    /// timestamp comes on it. What the wall clock told stays, and so does the state of the content.
    pub fn setup(&mut self) -> Result<String, Error> {
        let handle = &mut self.handle;
        text(|out, room, used| unsafe { ffi::css_companion_setup(handle, out, room, used) })
    }

    /// Takes in a text of the TS session. One that can't be read takes the place of the last control timestamp too.
    pub fn control(&mut self, text: &str) -> Result<(), Error> {
        told(unsafe { ffi::css_companion_control(&mut self.handle, text.as_ptr(), text.len()) })
    }

    /// The TS session closed. Open it again, and send the `setup`.
    pub fn ts_closed(&mut self) -> Result<(), Error> {
        told(unsafe { ffi::css_companion_ts_closed(&mut self.handle) })
    }

    /// A number that rises with each call that takes something in by which the answer for the same reading may be
    /// another. While it is the same, an answer that you have is still the answer at each reading that may be handed.
    pub fn age(&self) -> u64 {
        // SAFETY: the handle is what the last call left, and it is only read.
        unsafe { ffi::css_companion_age(&self.handle) }
    }

    /// The ticks that the television may be presenting at this reading.
    pub fn position(&mut self, reading: u64) -> Result<Position, Error> {
        let mut position = Position::default();
        told(unsafe { ffi::css_companion_position(&mut self.handle, reading, &mut position) })?;
        Ok(position)
    }

    /// By how many nanoseconds of the timeline somebody at the beginning of `tick` is ahead of the television at this
    /// reading; below 0 it is behind.
    pub fn lead(&mut self, reading: u64, tick: i64) -> Result<RangeInclusive<i64>, Error> {
        let mut lead = Span::default();
        told(unsafe { ffi::css_companion_lead(&mut self.handle, reading, tick, &mut lead) })?;
        Ok(lead.lo..=lead.hi)
    }

    /// The readings of the own clock between which the television shows a tick, by the last control timestamp. They are
    /// the least that the kept answers allow.
    pub fn when(&mut self, tick: i64) -> Result<RangeInclusive<u64>, Error> {
        let mut readings = Readings::default();
        told(unsafe { ffi::css_companion_when(&mut self.handle, tick, &mut readings) })?;
        Ok(readings.from..=readings.to)
    }

    /// The last reading up to which [`Companion::wall`] is at most `width` nanoseconds wide: ask again by then.
    pub fn until(&mut self, width: u64) -> Result<u64, Error> {
        let mut reading = 0;
        told(unsafe { ffi::css_companion_until(&mut self.handle, width, &mut reading) })?;
        Ok(reading)
    }

    /// When to do something next, where [`Companion::wall`] is to be at most `width` nanoseconds wide and `tick` is
    /// waited for. Sleep until the lesser of the two readings, or until something comes.
    pub fn next(&mut self, width: u64, tick: i64) -> Result<Next, Error> {
        let mut next = Next::default();
        told(unsafe { ffi::css_companion_next(&mut self.handle, width, tick, &mut next.ask, &mut next.look) })?;
        Ok(next)
    }

    /// A copy of what positions go by.
    pub fn snapshot(&mut self) -> Result<Snapshot, Error> {
        let mut snapshot = Snapshot::default();
        told(unsafe { ffi::css_companion_snapshot(&mut self.handle, &mut snapshot) })?;
        Ok(snapshot)
    }

    /// The line of a report, as `css companion` prints it.
    pub fn report(&mut self, number: u64, reading: u64) -> Result<String, Error> {
        let handle = &mut self.handle;
        text(|out, room, used| unsafe { ffi::css_companion_report(handle, number, reading, out, room, used) })
    }
}

impl Drop for Companion {
    fn drop(&mut self) {
        // SAFETY: as in the calls above. No call comes behind this one.
        unsafe { ffi::css_companion_free(&mut self.handle) }
    }
}

fn bound(bound: Bound) -> ffi::Bound {
    match bound {
        Bound::At { content, wall } => ffi::Bound { content, wall, infinite: false },
        Bound::Ever { content } => ffi::Bound { content, wall: 0, infinite: true },
    }
}

/// The text that a call puts into a buffer. It is called again where that was too short.
fn text(mut call: impl FnMut(*mut u8, usize, *mut usize) -> u32) -> Result<String, Error> {
    const NO_ROOM: u32 = 5;
    let mut out = vec![0; 256];
    loop {
        let mut used = 0;
        match call(out.as_mut_ptr(), out.len(), &mut used) {
            NO_ROOM => out.resize(used, 0),
            code => {
                told(code)?;
                out.truncate(used);
                return String::from_utf8(out).map_err(|_| Error::Refusal(Refusal::NotUtf8));
            }
        }
    }
}

//! Shows a question when the programme has surely reached its tick. The sockets are the application's: here two texts
//! and one datagram that came.
use css_companion::{Companion, Error};

const CII: &str = r#"{"timelines":[{"timelineSelector":"urn:dvb:css:timeline:pts",
    "timelineProperties":{"unitsPerSecond":90000,"unitsPerTick":1}}]}"#;
const CONTROL: &str = r#"{"contentTime":"900000","timelineSpeedMultiplier":1,"wallClockTime":"10000000000"}"#;
const ANSWER: [u8; 32] =
    [0, 1, 226, 0, 0, 0, 0, 0, 0, 0, 0, 0, 0, 0, 3, 232, 0, 0, 0, 10, 0, 0, 0, 3, 0, 0, 0, 10, 0, 0, 0, 3];
const QUESTION: i64 = 900_500;

fn main() -> Result<(), Error> {
    let mut c = Companion::new("urn:dvb:css:timeline:pts", "dvb://", 128_000, 1_000)?;
    c.cii(CII)?;
    c.control(CONTROL)?;
    let _request = c.ask(1_000)?;
    c.land(&ANSWER, 23_216)?;
    for reading in [1_000_000, 5_555_000, 6_000_000] {
        let p = c.position(reading)?;
        let what = if p.lo >= QUESTION {
            "show the question"
        } else if p.hi < QUESTION {
            "wait: it isn't reached"
        } else {
            "wait: it may be reached"
        };
        println!("{reading} ns: {what}");
    }
    println!("it is reached between {:?} ns", c.when(QUESTION)?);
    Ok(())
}

//! Each call once, and the first example of `css replay`: 5197 to 5603.
use css_companion::{
    presentation, version, Bound, Cause, Companion, Error, Ignored, Next, Property, Refusal, Snapshot, TextFault,
};

const ANSWER: [u8; 32] =
    [0, 1, 0xe2, 0, 0, 0, 0, 0, 0, 0, 0, 0, 0, 0, 3, 0xe8, 0, 0, 0, 0, 0, 0, 0x13, 0x88, 0, 0, 0, 0, 0, 0, 0x14, 0x50];
const CII: &str = r#"{"contentId":"dvb://1.2.3","wcUrl":"udp://192.168.1.5:5800","timelines":[{
    "timelineSelector":"urn:dvb:css:timeline:pts","timelineProperties":{"unitsPerTick":1,"unitsPerSecond":90000}}]}"#;
const CONTROL: &str = r#"{"contentTime":"900000","timelineSpeedMultiplier":1,"wallClockTime":"0"}"#;

fn asked() -> Companion {
    let mut c = Companion::new("urn:dvb:css:timeline:pts", "dvb://", 0, 0).unwrap();
    assert_eq!(c.wall(900), Err(Error::Cause(Cause::NoAnswer)));
    assert_eq!(c.ask(1000).unwrap()[8..16], ANSWER[8..16]);
    assert_eq!(c.land(&[], 1600), Err(Error::Ignored(Ignored::Undecodable)));
    c.land(&ANSWER, 1600).unwrap();
    c
}

#[test]
fn one_exchange() {
    assert_eq!(version(), 2);
    assert_eq!(asked().wall(1600), Ok(5197..=5603));
}

#[test]
fn texts() {
    let mut c = asked();
    assert_eq!(c.property(Property::WcUrl), Ok(None));
    assert_eq!(c.cii("{"), Err(Error::Text(TextFault::NotJson)));
    c.cii(CII).unwrap();
    assert_eq!(c.property(Property::WcUrl).unwrap().as_deref(), Some("udp://192.168.1.5:5800"));
    assert_eq!(c.cii(r#"{"wcUrl":"udp://10.0.0.1:1"}"#), Err(Error::Text(TextFault::Moved)));
    assert!(c.state().unwrap().contains("dvb://1.2.3"));
    let timelines = c.timelines().unwrap();
    assert_eq!((timelines.len(), timelines[0].units_per_second), (1, 90_000));
    assert_eq!(timelines[0].selector, "urn:dvb:css:timeline:pts");
    assert!(c.setup().unwrap().contains("urn:dvb:css:timeline:pts"));
    let window = presentation(Bound::At { content: 1, wall: 2 }, Bound::Ever { content: 3 }).unwrap();
    assert!(window.contains("plusinfinity"));
    let late = Bound::At { content: 1, wall: 1 << 63 };
    assert_eq!(presentation(late, late), Err(Error::Refusal(Refusal::Range)));
}

#[test]
fn ticks_and_when() {
    let mut c = asked();
    assert_eq!(c.position(1600), Err(Error::Cause(Cause::NoTimestamp)));
    c.control(CONTROL).unwrap();
    let p = c.position(1600).unwrap();
    assert_eq!((p.lo, p.hi, p.speed, p.units_per_second), (900_000, 900_000, 1, 90_000));
    let when = c.when(990_000).unwrap();
    assert!(c.position(*when.start()).unwrap().hi >= 990_000);
    assert!(c.position(when.start() - 1).unwrap().hi < 990_000);
    assert_eq!(c.when(0), Err(Error::Cause(Cause::Never)));
    assert_eq!(c.report(1, 1600).unwrap(), "1 ticks 900000 900000\n");
    c.ts_closed().unwrap();
    assert_eq!(c.position(1600), Err(Error::Cause(Cause::SessionClosed)));
    c.setup().unwrap();
    assert_eq!(c.position(1600), Err(Error::Cause(Cause::NoTimestamp)));
    c.control(CONTROL).unwrap();
    assert_eq!(c.position(1600), Ok(p));
}

#[test]
fn snapshot() {
    let mut c = asked();
    assert_eq!(c.snapshot(), Err(Error::Cause(Cause::NoTimestamp)));
    c.control(CONTROL).unwrap();
    let snapshot = c.snapshot().unwrap();
    let later = [1600, 1_000_000_000, 1_000_000_000_000].map(|reading| (reading, c.position(reading)));
    drop(c);
    for (reading, position) in later {
        assert_eq!(snapshot.position(reading), position);
    }
    assert_eq!(snapshot.position(1599), Err(Error::Refusal(Refusal::Early)));
    assert_eq!(Snapshot::default().position(1600), Err(Error::Refusal(Refusal::Range)));
}

#[test]
fn until() {
    let mut c = Companion::new("urn:dvb:css:timeline:pts", "", 128_000, 1_000).unwrap();
    assert_eq!(c.until(1_000_000), Err(Error::Cause(Cause::NoAnswer)));
    c.ask(1000).unwrap();
    c.land(&ANSWER, 1600).unwrap();
    assert_eq!(c.until(1), Err(Error::Cause(Cause::Never)));
    let last = c.until(1_000_000).unwrap();
    let width = |wall: std::ops::RangeInclusive<i64>| wall.end() - wall.start();
    assert!(width(c.wall(last).unwrap()) <= 1_000_000);
    assert!(width(c.wall(last + 2_000_000_000).unwrap()) > 1_000_000);
}

#[test]
fn answers_that_disagree() {
    let mut c = asked();
    assert_eq!(c.agreed(1600), Ok(5197..=5603));
    // asked at 2000, received at 10,100 and answered at 10,150: the television set its clock 4000 ns forward
    let mut second = ANSWER;
    second[14..16].copy_from_slice(&2000_u16.to_be_bytes());
    second[22..24].copy_from_slice(&10_100_u16.to_be_bytes());
    second[30..32].copy_from_slice(&10_150_u16.to_be_bytes());
    c.ask(2000).unwrap();
    assert_eq!(c.land(&second, 2380), Err(Error::Disagree));
    assert_eq!(c.wall(2380), Err(Error::Disagree));
    assert_eq!(c.agreed(2380), Err(Error::Disagree));
    assert_eq!(c.next(1000, 0), Err(Error::Disagree));
    assert_eq!(c.snapshot(), Err(Error::Disagree));
    c.slept().unwrap();
    assert_eq!(c.wall(2380), Err(Error::Cause(Cause::NoAnswer)));
}

#[test]
fn next() {
    const GREATEST: u64 = (1 << 32) * 1_000_000_000 - 1;
    let mut c = Companion::new("urn:dvb:css:timeline:pts", "", 128_000, 1_000).unwrap();
    assert_eq!(c.next(1_000_000, 990_000), Ok(Next { ask: 0, look: GREATEST }));
    c.ask(1000).unwrap();
    assert_eq!(c.next(1_000_000, 990_000), Ok(Next { ask: 1_000_001_000, look: GREATEST }));
    c.land(&ANSWER, 1600).unwrap();
    c.control(CONTROL).unwrap();
    let (last, when) = (c.until(1_000_000).unwrap(), c.when(990_000).unwrap());
    assert_eq!(c.next(1_000_000, 990_000), Ok(Next { ask: last.max(100_001_000), look: *when.start() }));
}

#[test]
fn fault() {
    let mut c = asked();
    assert_eq!(c.fault(), Ok(None));
    assert_eq!(c.cii(r#"{"wcUrl":5}"#), Err(Error::Text(TextFault::Field)));
    assert_eq!(c.fault().unwrap().as_deref(), Some("wcUrl"));
    c.cii(CII).unwrap();
    c.control(r#"{"contentTime":5}"#).unwrap();
    assert_eq!(c.fault().unwrap().as_deref(), Some("Field contentTime"));
}

#[test]
fn lead() {
    let mut c = asked();
    assert_eq!(c.lead(1600, 0), Err(Error::Cause(Cause::NoTimestamp)));
    c.control(CONTROL).unwrap();
    // the wall clock shows 5197 to 5603, and the timeline was at 900,000 when it showed 0
    assert_eq!(c.lead(1600, 900_000), Ok(-5603..=-5197));
    // 9 ticks are 100,000 ns
    assert_eq!(c.lead(1600, 900_009), Ok(94_397..=94_803));
    // one is 11,111.1 ns
    assert_eq!(c.lead(1600, 900_001), Ok(5508..=5915));
    assert_eq!(c.lead(1600, i64::MIN), Err(Error::Refusal(Refusal::TooWide)));
}

#[test]
fn age() {
    let mut c = asked();
    let before = c.age();
    c.ask(1600).unwrap();
    c.wall(1600).unwrap();
    assert_eq!(c.cii(&" ".repeat(262_145)), Err(Error::Refusal(Refusal::Range)));
    assert_eq!(c.age(), before);
    c.setup().unwrap();
    assert_eq!(c.age(), before + 1);
    c.control(CONTROL).unwrap();
    assert_eq!(c.age(), before + 2);
}

#[test]
fn another_thread() {
    let mut c = asked();
    assert_eq!(std::thread::spawn(move || c.wall(1600)).join().unwrap(), Ok(5197..=5603));
    assert_eq!(Companion::new("", "", 3_000_000, 0).err(), Some(Error::Refusal(Refusal::Range)));
}

use super::{number, parse, show, show_time, time};
use crate::names::Names;
use crate::word::Unit;
use alloc::vec;

#[test]
fn numbers() {
    assert_eq!(number("1_000"), Some(1000));
    assert_eq!(number("0xff"), Some(255));
    assert_eq!(number("2^62-1"), Some(4_611_686_018_427_387_903));
    assert_eq!(number("2^64-1"), Some(u64::MAX));
    assert_eq!(number("18446744073709551615"), Some(u64::MAX));
    for wrong in [
        "",
        "_1",
        "-1",
        "+1",
        "1.5",
        "2^64",
        "2^65-1",
        "0x",
        "18446744073709551616",
    ] {
        assert_eq!(number(wrong), None, "{wrong}");
    }
}

#[test]
fn times() {
    assert_eq!(time("6.75ms"), Some(6_750_000));
    assert_eq!(time("1s"), Some(1_000_000_000));
    assert_eq!(time("0.5us"), Some(500));
    assert_eq!(time("1.5µs"), Some(1500));
    assert_eq!(time("12"), Some(12));
    for wrong in ["0.5ns", "1.ms", ".5ms", "6.75", "1h", "ms", "1e3ns", "99999999999s"] {
        assert_eq!(time(wrong), None, "{wrong}");
    }
}

#[test]
fn shown_times_are_read_back() {
    for nanos in [
        1,
        999,
        1000,
        1500,
        2_250_000,
        6_750_000,
        993_250_000,
        1_000_000_001,
        1 << 62,
        u64::MAX,
    ] {
        assert_eq!(time(&show_time(nanos)), Some(nanos), "{}", show_time(nanos));
    }
    assert_eq!(show_time(6_750_000), "6.75ms");
    assert_eq!(show_time(1_006_750_000), "1.00675s");
    assert_eq!(show_time(1_000_000_001), "1.000000001s");
}

#[test]
fn every_unit_reads_back_what_it_shows() {
    let names = Names::new(vec!["idle".into(), "writer".into()]);
    let units = [
        Unit::Mark,
        Unit::Status,
        Unit::State,
        Unit::Lock,
        Unit::AddrSpace,
        Unit::Context,
        Unit::CpuPlusOne,
        Unit::Mask,
        Unit::Nanoseconds,
        Unit::Milliseconds,
        Unit::ScaledTicks,
        Unit::VirtualTime,
        Unit::Id,
    ];
    let values = [
        0,
        1,
        2,
        3,
        5,
        6,
        15,
        16,
        40,
        1000,
        2_250_000,
        9 << 30,
        3 << 27,
        1 << 62,
        u64::MAX - 1,
        u64::MAX,
    ];
    for unit in units {
        for value in values {
            let text = show(unit, value, &names);
            assert_eq!(parse(unit, &text, &names), Ok(value), "{unit:?} {text}");
        }
    }
}

#[test]
fn words_of_units() {
    let names = Names::new(vec!["idle".into(), "writer".into()]);
    let read = |unit, text| parse(unit, text, &names);
    assert_eq!(read(Unit::Status, "blocked"), Ok(1));
    assert_eq!(read(Unit::Lock, "written"), Ok(2));
    assert_eq!(read(Unit::AddrSpace, "written"), Ok(2));
    assert_eq!(read(Unit::CpuPlusOne, "cpu0"), Ok(1));
    assert_eq!(read(Unit::Mask, "cpu0+cpu2"), Ok(5));
    assert_eq!(read(Unit::Context, "writer"), Ok(1));
    // A whole slice is 9 ticks, 20.25 ms.
    assert_eq!(read(Unit::ScaledTicks, "20.25ms"), Ok(9 << 30));
    assert_eq!(read(Unit::ScaledTicks, "1.5ticks"), Ok(3 << 29));
    assert_eq!(
        read(Unit::Status, "block"),
        Err("\"block\" is no status; is Blocked meant?".into())
    );
    assert_eq!(
        read(Unit::Context, "wrter"),
        Err("there is no context \"wrter\"; there are idle, writer".into())
    );
}

//! Values of words as text: by name where they have one, times with their unit.

mod show;

pub use show::{push_number, push_time, show, show_time};

use crate::names::Names;
use crate::near::nearest;
use crate::tables::{ADDR_SPACE, LOCK, SLICE_MAX, STATE, STATUS};
use crate::word::Unit;
use alloc::format;
use alloc::string::String;
use alloc::vec::Vec;

/// Nanoseconds of a timer tick.
pub const NANOS_PER_TICK: u64 = 2_250_000;
/// Scaled ticks of a timer tick.
pub const SCALE: u64 = 1 << 30;
const TIMES: [(&str, u64); 5] = [
    ("ns", 1),
    ("us", 1_000),
    ("µs", 1_000),
    ("ms", 1_000_000),
    ("s", 1_000_000_000),
];

/// The value that this text gives a word of this unit; or what is wrong and what is allowed. Ranges are not looked at.
pub fn parse(unit: Unit, text: &str, names: &Names) -> Result<u64, String> {
    match unit {
        Unit::Mark => named(text, &[("no", 0), ("yes", 1)], "0, 1, no and yes are marks"),
        Unit::Status => of_list(text, &STATUS, "status"),
        Unit::State => of_list(text, &STATE, "state"),
        Unit::Lock => of_list(text, &LOCK, "lock"),
        Unit::AddrSpace => of_list(text, &ADDR_SPACE, "address space"),
        Unit::Context => names
            .number(text)
            .or_else(|| number(text))
            .ok_or_else(|| format!("there is no context \"{text}\"; {}", names.known(0))),
        Unit::CpuPlusOne => match (text, text.strip_prefix("cpu")) {
            ("none", _) => Ok(0),
            (_, Some(cpu)) => number(cpu)
                .and_then(|cpu| cpu.checked_add(1))
                .ok_or_else(|| no(text, "CPU", "none, cpu0, cpu1 and so on, or a number are")),
            _ => number(text).ok_or_else(|| no(text, "CPU", "none, cpu0, cpu1 and so on, or a number are")),
        },
        Unit::Mask => mask(text),
        Unit::Nanoseconds => {
            time(text).ok_or_else(|| no(text, "time", "a number with ns, us, ms or s is, or one of nanoseconds"))
        }
        Unit::Milliseconds => milliseconds(text).ok_or_else(|| {
            no(
                text,
                "number of milliseconds",
                "a whole number is, with ms, s or nothing behind it",
            )
        }),
        Unit::ScaledTicks => scaled_ticks(text).ok_or_else(|| {
            no(
                text,
                "slice",
                "slice, a number with ticks, ns, us, ms or s is, or one of scaled ticks",
            )
        }),
        _ => number(text).ok_or_else(|| no(text, "number", "0 to 2^64-1, 0x.. and 2^62-1 are ways to write one")),
    }
}

fn no(text: &str, what: &str, allowed: &str) -> String {
    format!("\"{text}\" is no {what}; {allowed}")
}

fn named(text: &str, list: &[(&str, u64)], allowed: &str) -> Result<u64, String> {
    let named = list.iter().find(|(name, _)| *name == text);
    named
        .map(|(_, value)| *value)
        .or_else(|| number(text))
        .ok_or_else(|| no(text, "mark", allowed))
}

fn of_list(text: &str, list: &[&str], what: &str) -> Result<u64, String> {
    let named = list.iter().position(|name| name.eq_ignore_ascii_case(text));
    named
        .map(|at| at as u64)
        .or_else(|| number(text))
        .ok_or_else(|| no(text, what, &nearest(text, list)))
}

/// A number: decimal with `_` where one likes, `0x..`, `2^62`, `2^62-1`.
pub fn number(text: &str) -> Option<u64> {
    if let Some(hex) = text.strip_prefix("0x") {
        return u64::from_str_radix(hex, 16).ok().filter(|_| !hex.starts_with('+'));
    }
    if let Some(power) = text.strip_prefix("2^") {
        let (power, less) = match power.split_once('-') {
            Some((power, less)) => (power, decimal(less)?),
            None => (power, 0),
        };
        let power = decimal(power).filter(|power| *power <= 64)?;
        return u64::try_from((1_u128 << power).checked_sub(less.into())?).ok();
    }
    decimal(text)
}

fn decimal(text: &str) -> Option<u64> {
    let digits = text.bytes().all(|b| b.is_ascii_digit() || b == b'_');
    let plain = text.starts_with(|c: char| c.is_ascii_digit()) && digits;
    if !plain {
        return None;
    }
    match text.contains('_') {
        true => text.replace('_', "").parse().ok(),
        false => text.parse().ok(),
    }
}

/// Nanoseconds: a number, or one with a unit and as many decimals as come out whole.
pub fn time(text: &str) -> Option<u64> {
    number(text).or_else(|| {
        let at = text.find(|c: char| !(c.is_ascii_digit() || c == '.' || c == '_'))?;
        let (amount, unit) = text.split_at(at);
        let (_, scale) = TIMES.iter().find(|(name, _)| *name == unit)?;
        scaled(amount, *scale)
    })
}

/// A decimal number times a scale, if that is a whole number of 64 bits.
fn scaled(amount: &str, scale: u64) -> Option<u64> {
    let (whole, fraction) = amount.split_once('.').unwrap_or((amount, "0"));
    let whole = u128::from(decimal(whole)?) * u128::from(scale);
    let digits = fraction.trim_end_matches('0');
    let parts = match digits {
        "" if fraction.is_empty() => return None,
        "" => 0,
        _ => u128::from(decimal(digits)?) * u128::from(scale),
    };
    let places = 10_u128.checked_pow(digits.len() as u32)?;
    let exact = parts % places == 0;
    exact.then(|| whole + parts / places)?.try_into().ok()
}

fn milliseconds(text: &str) -> Option<u64> {
    let seconds = || text.strip_suffix('s').and_then(|t| scaled(t, 1000));
    let ms = || text.strip_suffix("ms").and_then(number);
    number(text).or_else(ms).or_else(seconds)
}

/// `slice` for a whole one, timer ticks, or a time, rounded down as the kernel does.
fn scaled_ticks(text: &str) -> Option<u64> {
    if text == "slice" {
        return Some(SLICE_MAX);
    }
    if let Some(ticks) = text.strip_suffix("ticks") {
        return scaled(ticks, SCALE);
    }
    number(text).or_else(|| {
        let nanos = u128::from(time(text)?);
        u64::try_from(nanos * u128::from(SCALE) / u128::from(NANOS_PER_TICK)).ok()
    })
}

/// `all`, `none`, `cpu0+cpu2` or a number.
fn mask(text: &str) -> Result<u64, String> {
    match text {
        "all" => return Ok(u64::MAX),
        "none" => return Ok(0),
        _ => {}
    }
    if let Some(number) = number(text) {
        return Ok(number);
    }
    let bit = |part: &str| {
        let cpu = number(part.strip_prefix("cpu")?)?;
        (cpu < 64).then(|| 1_u64 << cpu)
    };
    let bits: Option<Vec<u64>> = text.split('+').map(bit).collect();
    bits.map(|bits| bits.iter().fold(0, |mask, bit| mask | bit))
        .ok_or_else(|| no(text, "mask", "all, none, cpu0+cpu1 and so on, or a number are"))
}

#[cfg(test)]
mod tests;

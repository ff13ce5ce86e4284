//! How values are written.

use super::{SCALE, TIMES};
use crate::names::Names;
use crate::tables::{ADDR_SPACE, CPUS, LOCK, SLICE_MAX, STATE, STATUS};
use crate::word::Unit;
use alloc::format;
use alloc::string::{String, ToString};
use alloc::vec::Vec;

/// How a word of this unit is written.
pub fn show(unit: Unit, value: u64, names: &Names) -> String {
    let listed = |list: &[&str]| match list.get(value as usize) {
        Some(name) => name.to_string(),
        None => value.to_string(),
    };
    match unit {
        Unit::Status => listed(&STATUS),
        Unit::State => listed(&STATE),
        Unit::Lock => listed(&LOCK),
        Unit::AddrSpace => listed(&ADDR_SPACE),
        Unit::Context => names.of(value),
        Unit::CpuPlusOne => match value {
            0 => "none".to_string(),
            1..=CPUS => format!("cpu{}", value - 1),
            _ => value.to_string(),
        },
        Unit::Mask => show_mask(value),
        Unit::Nanoseconds => show_time(value),
        Unit::ScaledTicks => show_ticks(value),
        _ => value.to_string(),
    }
}

fn show_mask(mask: u64) -> String {
    match mask {
        u64::MAX => "all".to_string(),
        0 => "none".to_string(),
        1..16 => {
            let cpus = (0..4).filter(|cpu| mask >> cpu & 1 == 1);
            let names: Vec<String> = cpus.map(|cpu| format!("cpu{cpu}")).collect();
            names.join("+")
        }
        _ => format!("{mask:#x}"),
    }
}

/// A time in the largest unit that is not larger: `1s`, `6.75ms`, `12ns`.
pub fn show_time(nanos: u64) -> String {
    let mut text = String::new();
    push_time(&mut text, nanos);
    text
}

/// The same at the end of a text.
pub fn push_time(text: &mut String, nanos: u64) {
    if nanos == 0 {
        return text.push('0');
    }
    let (name, scale) = match nanos {
        1_000_000_000.. => TIMES[4],
        1_000_000.. => TIMES[3],
        1_000.. => TIMES[1],
        _ => TIMES[0],
    };
    push_decimals(text, nanos, scale);
    text.push_str(name);
}

/// A number at the end of a text.
pub fn push_number(text: &mut String, mut number: u64) {
    let mut digits = [0; 20];
    let mut at = digits.len();
    loop {
        at -= 1;
        digits[at] = b'0' + (number % 10) as u8;
        number /= 10;
        if number == 0 {
            break;
        }
    }
    digits[at..].iter().for_each(|digit| text.push(char::from(*digit)));
}

/// A number over a power of ten, with as many decimals as it has.
fn push_decimals(text: &mut String, value: u64, scale: u64) {
    push_number(text, value / scale);
    let mut rest = value % scale;
    if rest == 0 {
        return;
    }
    text.push('.');
    let mut place = scale / 10;
    while rest > 0 {
        text.push(char::from(b'0' + (rest / place) as u8));
        rest %= place;
        place /= 10;
    }
}

fn decimals(value: u64, scale: u64) -> String {
    let mut text = String::new();
    push_decimals(&mut text, value, scale);
    text
}

/// A slice: `slice`, a few ticks, or the number.
fn show_ticks(value: u64) -> String {
    match value {
        SLICE_MAX => "slice".to_string(),
        0 => "0".to_string(),
        _ if value.is_multiple_of(SCALE / 8) && value < 100 * SCALE => {
            let eighths = value / (SCALE / 8);
            decimals(eighths * 125, 1000) + "ticks"
        }
        _ => value.to_string(),
    }
}

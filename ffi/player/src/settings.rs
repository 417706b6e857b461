//! A configuration as the numbers that a constructor takes.

use crate::functions::Numbers;
use oracle::call::{Filter, Own, Settings};

/// Nothing where the filter's setter refuses: the setter is no function of the library.
pub fn numbers(settings: &Settings) -> Option<Numbers> {
    let filter = match settings.filter {
        Some(Filter::Setter(cycles)) if cycles > 16 => return None,
        Some(Filter::Setter(cycles) | Filter::Field(cycles)) => cycles,
        None => 0,
    };
    let (own, long) = match settings.own {
        Some(Own::Seven(address)) => (address.into(), false),
        Some(Own::SevenRaw(address)) => (address, false),
        Some(Own::Ten(address)) => (address, true),
        None => (0, false),
    };
    let (second, mask) = settings.own2.unwrap_or((0, 0));
    Some([
        settings.speed.is_some().into(),
        settings.speed.unwrap_or(0),
        settings.timing.is_some().into(),
        settings.timing.unwrap_or(0),
        (!settings.analog_off).into(),
        filter.into(),
        own.into(),
        long.into(),
        second.into(),
        mask.into(),
    ])
}

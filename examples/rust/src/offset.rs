//! Looks up the offset of a time zone by hand, out of ICU's file of zones. It knows the transitions
//! of a zone and no rule for the years behind them; `resb::zone_offset` knows both.
use crate::opened::{Answer, Opened, Resource};

/// The status where nothing is found.
const NOT_FOUND: u32 = 12;

/// The numbers of a table's vector; none where the table has none of that name.
fn vector_in(file: &Opened<'_>, table: Resource, key: &str) -> Vec<u32> {
    let Ok(value) = file.value(table, key) else {
        return Vec::new();
    };
    file.vector(value).map_or(Vec::new(), |numbers| numbers.collect())
}

/// The zone of a name, through one link.
pub fn find_zone(file: &Opened<'_>, name: &str) -> Answer<Resource> {
    let names = file.find(file.root(), "/Names")?;
    let zones = file.find(file.root(), "/Zones")?;
    let (_, count) = file.kind(names)?;
    for number in 0..count {
        if file.string(file.member(names, number)?)? != name {
            continue;
        }
        let zone = file.member(zones, number)?;
        return match file.unsigned(zone) {
            Ok(link) => file.member(zones, link as usize),
            Err(_) => Ok(zone),
        };
    }
    Err(NOT_FOUND)
}

/// The moments of all transitions, of which those before and behind 32 bits have two numbers each.
fn moments_of(file: &Opened<'_>, zone: Resource) -> Vec<i64> {
    let wide = |key| -> Vec<i64> {
        let numbers = vector_in(file, zone, key);
        numbers.chunks_exact(2).map(|n| (i64::from(n[0]) << 32) | i64::from(n[1])).collect()
    };
    let narrow = vector_in(file, zone, "trans").into_iter().map(|n| i64::from(n as i32));
    wide("transPre32").into_iter().chain(narrow).chain(wide("transPost32")).collect()
}

/// The offset of a zone at a moment: the raw one and what is saved in summer.
pub fn offset_at(file: &Opened<'_>, zone: Resource, moment: i64) -> Answer<i32> {
    let offsets = vector_in(file, zone, "typeOffsets");
    let map = match file.value(zone, "typeMap") {
        Ok(value) => file.bytes(value)?,
        Err(_) => &[],
    };
    let moments = moments_of(file, zone);
    let last = moments.iter().zip(map).take_while(|(begin, _)| **begin <= moment).last();
    let number = last.map_or(0, |(_, number)| 2 * usize::from(*number));
    match (offsets.get(number), offsets.get(number + 1)) {
        (Some(raw), Some(saved)) => Ok(*raw as i32 + *saved as i32),
        _ => Err(NOT_FOUND),
    }
}

//! 01's printing program.

use std::net::Ipv4Addr;

use crate::bytes::{u16_at, u32_at};
use crate::key::KeyBytes;
use crate::marked::Marked;
use crate::refusal::Refusal;
use crate::session::Session;
use crate::table::Record;

const SLOT_BYTES: usize = 4;

/// From the wanted slot and the image after it to what is printed.
pub fn print(input: &[u8]) -> String {
    match settled(input) {
        Ok(session) => show(&session).unwrap_or_else(refused),
        Err(refusal) => refused(refusal),
    }
}

fn refused(refusal: Refusal) -> String {
    format!("refused {}\n", refusal.number())
}

fn settled(input: &[u8]) -> Result<Session<Marked>, Refusal> {
    let (slot, image) = input.split_at_checked(SLOT_BYTES).ok_or(Refusal::LengthZero)?;
    let mut session = Session::open(image, u32_at(slot, 0)).map_err(|refused| refused.refusal)?;
    session.settle()?.map_err(|damage| damage.refusal)?;
    Ok(session)
}

fn show(session: &Session<Marked>) -> Result<String, Refusal> {
    let report = session.report()?;
    let header = session.header;
    let counts = format!("{} {} {} {}", report.listed, report.counted, report.open, report.state);
    let first = format!("{} {} {counts}\n", header.slot, header.salt);
    Ok(session.list().iter().fold(first, |text, record| text + &show_flow(record)))
}

fn show_flow(record: &Record) -> String {
    let key: &KeyBytes = &record.key;
    let (source, destination) = (Ipv4Addr::from(u32_at(key, 0)), Ipv4Addr::from(u32_at(key, 4)));
    let (source_port, destination_port) = (u16_at(key, 8), u16_at(key, 10));
    let count = if record.known { record.count.to_string() } else { "?".into() };
    format!("{source} {source_port} {destination} {destination_port} {} {count}\n", key[12])
}

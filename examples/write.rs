//! write.rs: a clean run of words from their fields, and the checker over it: write.c in Rust, over the safe wrapper khandzorul.rs.
//!
//!     rustc -O --edition 2021 examples/write.rs -L FOLDER -l static=khandzorul -o writer && ./writer [FILE]
//!
//! FOLDER has libkhandzorul.a. It prints and ends as write.c does: 0 clean. 1 with records. 2 not done.
#![allow(dead_code)] // the wrapper has more than is used here

mod khandzorul;

use khandzorul::{
    worst_lane, write_cdw, write_data, write_ihw, Ddw0, Packet, Refused, Rule, Settings, Status, Tdh, Tdt, Tracker, DATA_BYTES, RECORDS_PER_WORD, RECORD_NUMBERS,
    WORD_BYTES,
};
use std::fs;
use std::io::{self, Write};
use std::process::ExitCode;

const CLEAN: u8 = 0;
const RECORDS: u8 = 1;
const NOT_DONE: u8 = 2;

// The run: the words of page 0 and of page 1, and what both packets say.
const PAGE_0: usize = 10;
const WORDS: usize = PAGE_0 + 1;
const ORBIT: u64 = 7;
const TRIGGER: u64 = 0x10;
const BC: u64 = 100;
const PERIOD: u64 = 198;

/// The words, ten bytes each.
fn write_run(run: &mut [u8]) -> Result<(), Refused> {
    let hits: [u8; DATA_BYTES] = [0xA1, 2, 3, 4, 5, 6, 7, 8, 0xB0];
    let lane_1_warning = 1 << 2;
    let tdh = Tdh { trigger_type: TRIGGER, internal: 1, bc: BC, orbit: ORBIT, ..Tdh::default() };
    let tdt = Tdt { packet_done: 1, ..Tdt::default() };
    let mut words = run.chunks_mut(WORD_BYTES);
    let mut next = || words.next().expect("the run has room for its words");
    write_ihw(3, next())?; // lanes 0 and 1
    tdh.write(next())?;
    write_cdw(0x1234_5678_9ABC, 0, next())?;
    write_data(0x20, &hits, next())?;
    write_data(0x21, &hits, next())?;
    Tdt { lane_status: lane_1_warning, ..tdt }.write(next())?;
    Tdh { bc: BC + PERIOD, ..tdh }.write(next())?;
    write_data(0x20, &hits, next())?;
    write_data(0x21, &hits, next())?;
    tdt.write(next())?;
    Ddw0 { lane_status: lane_1_warning, ..Ddw0::default() }.write(next())
}

/// The words through the checker: how many were taken, and how many records they gave.
fn check_run(run: &[u8]) -> Result<(usize, usize), Refused> {
    let mut records = [0; WORDS * RECORDS_PER_WORD * RECORD_NUMBERS];
    let mut tracker = Tracker::start(Settings { running: true, frames: true, period: Some(PERIOD), rule: Rule::One })?;
    let (page_0, page_1) = run.split_at(PAGE_0 * WORD_BYTES);
    let packet = Packet { position: 0, orbit: ORBIT, trigger_type: TRIGGER, bc: BC, page: 0, stop: 0, format: 2 };
    tracker.packet(packet)?;
    let first = tracker.payload(page_0, &mut records);
    tracker.packet(Packet { position: 64 + page_0.len() as u64, page: 1, stop: 1, ..packet })?;
    let second = tracker.payload(page_1, &mut records);
    match first.refused.or(second.refused) {
        Some(refused) => Err(refused),
        None => Ok((first.words + second.words, first.records + second.records)),
    }
}

fn run() -> Result<u8, String> {
    let names: Vec<_> = std::env::args_os().skip(1).collect();
    if names.len() > 1 {
        return Err("usage: write [FILE]".into());
    }
    let mut run = [0; WORDS * WORD_BYTES];
    let (words, records) = write_run(&mut run).and_then(|()| check_run(&run)).map_err(|r| format!("write: refused {}", r.number()))?;
    if worst_lane(&run[run.len() - WORD_BYTES..]) != Ok(Status::Warning) {
        return Err("write: the DDW0 does not tell of the warning".into());
    }
    if let Some(name) = names.first() {
        fs::write(name, run).map_err(|e| format!("{}: {e}", name.to_string_lossy()))?;
    }
    let mut out = io::stdout();
    writeln!(out, "words {words}\nrecords {records}").and_then(|()| out.flush()).map_err(|e| format!("standard output: {e}"))?;
    Ok(if records == 0 { CLEAN } else { RECORDS })
}

fn main() -> ExitCode {
    match run() {
        Ok(status) => ExitCode::from(status),
        Err(why) => {
            eprintln!("{why}");
            ExitCode::from(NOT_DONE)
        }
    }
}

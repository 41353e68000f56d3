//! box.rs: the loop of a readout box over the library, in Rust: start once, each packet's header, then its words.
//!
//!     rustc -O --edition 2021 examples/box.rs -L FOLDER -l static=khandzorul -o box && ./box FILE
//!
//! FOLDER has libkhandzorul.a. As box.c it takes its packets from a bench file and prints what benchcheck prints; khandzorul.rs is the safe
//! wrapper. The exit status is that of ./check: 0 checked, no records. 1 checked, with records. 2 not checked: refused, not to be read, or not to
//! be printed. (A closed standard output is not noticed: Rust's library puts /dev/null in its place.)
#![allow(dead_code)] // the wrapper has more than is used here

mod khandzorul;

use khandzorul::{Packet, Refused, Rule, Settings, Tracker, FILE_BYTES, RECORDS_PER_WORD, RECORD_NUMBERS, WORD_BYTES};
use std::ffi::OsStr;
use std::fs::File;
use std::io::{self, Read, Write};
use std::path::Path;
use std::process::ExitCode;

const CLEAN: u8 = 0;
const RECORDS: u8 = 1;
const NOT_CHECKED: u8 = 2;

const PACKETS_AT: usize = 16;
const PACKET_BYTES: usize = 24;

/// Why a file was not checked to its end.
enum Stopped {
    Refused(Refused),
    NotPrinted(io::Error),
}

impl From<Refused> for Stopped {
    fn from(refused: Refused) -> Self {
        Stopped::Refused(refused)
    }
}

impl From<io::Error> for Stopped {
    fn from(error: io::Error) -> Self {
        Stopped::NotPrinted(error)
    }
}

fn number(bytes: &[u8]) -> u64 {
    bytes.iter().rev().fold(0, |n, b| n << 8 | u64::from(*b))
}

/// Takes the words of a packet and prints their records, which packet first. Where the room is used up, prints what there is and hands in the rest.
fn take_words(tracker: &mut Tracker, mut words: &[u8], out: &mut impl Write) -> Result<usize, Stopped> {
    let mut records = [0; RECORDS_PER_WORD * RECORD_NUMBERS];
    let mut given = 0;
    loop {
        let a = tracker.payload(words, &mut records);
        for r in records.chunks(RECORD_NUMBERS).take(a.records) {
            writeln!(out, "{} {} {} {} {}", r[4], r[0], r[1], r[2], r[3])?;
        }
        given += a.records;
        match a.refused {
            None => return Ok(given),
            Some(Refused::NoRoom) => words = &words[a.words * WORD_BYTES..],
            Some(refused) => return Err(refused.into()),
        }
    }
}

/// The packets of a file that check_file has accepted.
fn take_packets(file: &[u8], out: &mut impl Write) -> Result<usize, Stopped> {
    let mut tracker = Tracker::start(Settings { running: true, frames: true, period: Some(198), rule: Rule::One })?;
    let (packets, mut words) = file.split_at(number(&file[12..16]) as usize);
    let mut given = 0;
    for p in packets[PACKETS_AT..].chunks(PACKET_BYTES) {
        tracker.packet(Packet {
            position: number(&p[..8]),
            orbit: number(&p[8..12]),
            trigger_type: number(&p[12..16]),
            bc: number(&p[16..18]),
            page: number(&p[18..20]),
            stop: p[20].into(),
            format: p[21].into(),
        })?;
        let (own, rest) = words.split_at(number(&p[22..]) as usize * WORD_BYTES);
        given += take_words(&mut tracker, own, out)?;
        words = rest;
    }
    Ok(given)
}

fn check(file: &[u8], out: &mut impl Write) -> Result<usize, Stopped> {
    khandzorul::check_file(file)?;
    writeln!(out, "packet pos code first second")?;
    let given = take_packets(file, out)?;
    writeln!(out, "records {given}")?;
    out.flush()?;
    Ok(given)
}

/// Checks and prints: the exit status.
fn print(file: &[u8]) -> io::Result<u8> {
    let mut out = io::BufWriter::new(io::stdout().lock());
    match check(file, &mut out) {
        Ok(0) => Ok(CLEAN),
        Ok(_) => Ok(RECORDS),
        Err(Stopped::NotPrinted(error)) => Err(error),
        Err(Stopped::Refused(refused)) => {
            writeln!(out, "refused {}", refused.number())?;
            out.flush()?;
            Ok(NOT_CHECKED)
        }
    }
}

/// A file, and no more of it than shows that it is too long.
fn read(name: &OsStr) -> io::Result<Vec<u8>> {
    let mut file = Vec::new();
    File::open(name)?.take(FILE_BYTES as u64 + 1).read_to_end(&mut file)?;
    Ok(file)
}

fn run() -> Result<u8, String> {
    let mut names = std::env::args_os().skip(1);
    let (Some(name), None) = (names.next(), names.next()) else {
        return Err("usage: box FILE".into());
    };
    let file = read(&name).map_err(|error| format!("{}: {error}", Path::new(&name).display()))?;
    print(&file).map_err(|error| format!("standard output: {error}"))
}

fn main() -> ExitCode {
    let status = run().unwrap_or_else(|why| {
        let _ = writeln!(io::stderr(), "{why}"); // whether or not it can be said, the status says it
        NOT_CHECKED
    });
    ExitCode::from(status)
}

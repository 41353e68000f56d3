//! khandzorul.rs: the C library for Rust programs, with nothing unsafe left to the caller.
//!
//! A slice carries its length, `&mut self` lends the tracker to one call at a time, and a refusal is an `Err`. What may not overlap can't,
//! since Rust lends it apart. Numbers go over with 64 bits, so that the library decides whether they are in range: widen with `from`, and never
//! cut with `as`. This file is believed and not proved: its declarations must be those of include/khandzorul.h.

use std::mem::size_of;

pub const TRACKER_WORDS: usize = 48;
pub const WORD_BYTES: usize = 10;
pub const DATA_BYTES: usize = 9;
pub const LANES: u64 = 28;
pub const PACKET_WORDS: usize = 4096;
pub const RECORD_NUMBERS: usize = 5; // position, code, first, second, packet
pub const RECORDS_PER_WORD: usize = 6;
pub const FILE_BYTES: usize = 60000;
pub const LAST_CROSSING: u64 = 3563;
pub const POSITION_MAX: u64 = 1 << 62;
pub const PACKETS_MAX: u64 = 4_294_967_295;

/// Why a call was refused; `number` is the header's.
#[derive(Clone, Copy, Debug, PartialEq, Eq)]
pub enum Refused {
    WrongLength = 1,
    NoPacket = 2,
    PacketFull = 3,
    NoRoom = 4,
    PacketField = 5,
    FileShape = 6,
    FileCount = 7,
    WordField = 8,
    LastPacket = 10,
    NoTracker = 100,
    NoSettings = 101,
}

impl Refused {
    pub fn number(self) -> u64 {
        self as u64
    }
}

/// What a word was taken as.
#[derive(Clone, Copy, Debug, PartialEq, Eq)]
pub enum Kind {
    Ihw = 1,
    IhwContinuation = 2,
    Tdh = 3,
    TdhAfterPacketDone = 4,
    TdhContinuation = 5,
    DataWord = 6,
    Cdw = 7,
    Tdt = 8,
    Ddw0 = 9,
}

/// What a word did to the readout frame.
#[derive(Clone, Copy, Debug, PartialEq, Eq)]
pub enum Frame {
    None,
    Opened,
    Closed { start: u64, end: u64 },
}

/// What is said of a word that was taken. `lanes`: how many an IHW switches on, else 0.
#[derive(Clone, Copy, Debug, PartialEq, Eq)]
pub struct Word {
    pub kind: Kind,
    pub guessed: bool,
    pub records: usize,
    pub frame: Frame,
    pub lanes: u64,
}

/// What is said of a payload: the words taken and records written, also where `refused` says why it stopped.
#[must_use]
#[derive(Clone, Copy, Debug, PartialEq, Eq)]
pub struct Payload {
    pub words: usize,
    pub records: usize,
    pub refused: Option<Refused>,
}

/// How a period is found: by the place in the orbit alone, or by orbits too.
#[derive(Clone, Copy, Debug, PartialEq, Eq)]
pub enum Rule {
    One = 1,
    Two = 2,
}

/// A period is at most 4,294,967,295.
#[derive(Clone, Copy, Debug)]
pub struct Settings {
    pub running: bool,
    pub frames: bool,
    pub period: Option<u64>,
    pub rule: Rule,
}

#[derive(Clone, Copy, Debug)]
pub struct Packet {
    pub position: u64,
    pub orbit: u64,
    pub trigger_type: u64,
    pub bc: u64,
    pub page: u64,
    pub stop: u64,
    pub format: u64,
}

/// What a lane says of itself, and the worst of them of the word.
#[derive(Clone, Copy, Debug, PartialEq, Eq, PartialOrd, Ord)]
pub enum Status {
    Good = 0,
    Warning = 1,
    Error = 2,
    Fatal = 3,
}

/// The fields of a TDH to be written. `internal`, `no_data` and `continuation` are 0 or 1.
#[derive(Clone, Copy, Debug, Default)]
pub struct Tdh {
    pub trigger_type: u64,
    pub internal: u64,
    pub no_data: u64,
    pub continuation: u64,
    pub bc: u64,
    pub orbit: u64,
}

/// The fields of a TDT to be written. All but `lane_status` are 0 or 1.
#[derive(Clone, Copy, Debug, Default)]
pub struct Tdt {
    pub lane_status: u64,
    pub timeout_to_start: u64,
    pub timeout_start_stop: u64,
    pub timeout_in_idle: u64,
    pub lane_starts_violation: u64,
    pub transmission_timeout: u64,
    pub packet_done: u64,
}

/// The fields of a DDW0 to be written. `lane_starts_violation` and `transmission_timeout` are 0 or 1.
#[derive(Clone, Copy, Debug, Default)]
pub struct Ddw0 {
    pub lane_status: u64,
    pub lane_starts_violation: u64,
    pub transmission_timeout: u64,
    pub index: u64,
}

#[repr(C)]
struct WordAnswer {
    refusal: u64,
    kind: u64,
    guessed: u64,
    records: u64,
    frame: u64,
    frame_start: u64,
    frame_end: u64,
    lanes: u64,
}

#[repr(C)]
struct PayloadAnswer {
    refusal: u64,
    words: u64,
    records: u64,
}

#[repr(C)]
struct StatusAnswer {
    refusal: u64,
    status: u64,
}

// As the header asserts.
const _: () = assert!(size_of::<WordAnswer>() == 64 && size_of::<PayloadAnswer>() == 24 && size_of::<StatusAnswer>() == 16);

extern "C" {
    fn khz_start(tracker: *mut u64, tracker_len: usize, running: u64, frames: u64, periodic: u64, period: u64, rule: u64) -> u64;
    #[rustfmt::skip]
    fn khz_packet(tracker: *mut u64, tracker_len: usize, position: u64, orbit: u64, trigger_type: u64, bc: u64, page: u64, stop: u64, format: u64) -> u64;
    #[rustfmt::skip]
    fn khz_word(tracker: *mut u64, tracker_len: usize, word: *const u8, word_len: usize, records: *mut u64, records_len: usize) -> WordAnswer;
    #[rustfmt::skip]
    fn khz_payload(tracker: *mut u64, tracker_len: usize, payload: *const u8, payload_len: usize, records: *mut u64, records_len: usize) -> PayloadAnswer;
    fn khz_reset(tracker: *mut u64, tracker_len: usize) -> u64;
    fn khz_check_file(file: *const u8, file_len: usize) -> u64;
    fn khz_write_ihw(active_lanes: u64, word: *mut u8, word_len: usize) -> u64;
    #[rustfmt::skip]
    fn khz_write_tdh(trigger_type: u64, internal: u64, no_data: u64, continuation: u64, bc: u64, orbit: u64, word: *mut u8, word_len: usize) -> u64;
    #[rustfmt::skip]
    fn khz_write_tdt(lane_status: u64, timeout_to_start: u64, timeout_start_stop: u64, timeout_in_idle: u64, lane_starts_violation: u64, transmission_timeout: u64, packet_done: u64, word: *mut u8, word_len: usize) -> u64;
    #[rustfmt::skip]
    fn khz_write_ddw0(lane_status: u64, lane_starts_violation: u64, transmission_timeout: u64, index: u64, word: *mut u8, word_len: usize) -> u64;
    fn khz_write_cdw(user_fields: u64, index: u64, word: *mut u8, word_len: usize) -> u64;
    fn khz_write_data(id: u64, bytes: *const u8, bytes_len: usize, word: *mut u8, word_len: usize) -> u64;
    fn khz_worst_lane(word: *const u8, word_len: usize) -> StatusAnswer;
    fn khz_lane_status(word: *const u8, word_len: usize, lane: u64) -> StatusAnswer;
}

fn done(refusal: u64) -> Result<(), Refused> {
    use Refused::*;
    if refusal == 0 {
        return Ok(());
    }
    let all = [WrongLength, NoPacket, PacketFull, NoRoom, PacketField, FileShape, FileCount, WordField, LastPacket, NoTracker, NoSettings];
    Err(all.into_iter().find(|r| r.number() == refusal).expect("a refusal that the header has"))
}

fn kind(number: u64) -> Kind {
    use Kind::*;
    let all = [Ihw, IhwContinuation, Tdh, TdhAfterPacketDone, TdhContinuation, DataWord, Cdw, Tdt, Ddw0];
    all.into_iter().find(|k| *k as u64 == number).expect("a kind that the header has")
}

fn frame(a: &WordAnswer) -> Frame {
    match a.frame {
        0 => Frame::None,
        1 => Frame::Opened,
        2 => Frame::Closed { start: a.frame_start, end: a.frame_end },
        _ => panic!("a frame that the header has not"),
    }
}

/// A link's tracker. A copy is a tracker of its own.
#[derive(Clone)]
pub struct Tracker([u64; TRACKER_WORDS]);

// Each call hands over pointers with the lengths of the very slices that they come from, and the library keeps none of them.
impl Tracker {
    pub fn start(s: Settings) -> Result<Tracker, Refused> {
        let mut t = Tracker([0; TRACKER_WORDS]);
        let (running, frames, periodic) = (u64::from(s.running), u64::from(s.frames), u64::from(s.period.is_some()));
        done(unsafe { khz_start(t.0.as_mut_ptr(), t.0.len(), running, frames, periodic, s.period.unwrap_or(0), s.rule as u64) })?;
        Ok(t)
    }

    pub fn packet(&mut self, p: Packet) -> Result<(), Refused> {
        let (t, n) = (self.0.as_mut_ptr(), self.0.len());
        done(unsafe { khz_packet(t, n, p.position, p.orbit, p.trigger_type, p.bc, p.page, p.stop, p.format) })
    }

    pub fn word(&mut self, word: &[u8], records: &mut [u64]) -> Result<Word, Refused> {
        let (t, n) = (self.0.as_mut_ptr(), self.0.len());
        let a = unsafe { khz_word(t, n, word.as_ptr(), word.len(), records.as_mut_ptr(), records.len()) };
        done(a.refusal)?;
        Ok(Word { kind: kind(a.kind), guessed: a.guessed == 1, records: a.records as usize, frame: frame(&a), lanes: a.lanes })
    }

    pub fn payload(&mut self, payload: &[u8], records: &mut [u64]) -> Payload {
        let (t, n) = (self.0.as_mut_ptr(), self.0.len());
        let a = unsafe { khz_payload(t, n, payload.as_ptr(), payload.len(), records.as_mut_ptr(), records.len()) };
        Payload { words: a.words as usize, records: a.records as usize, refused: done(a.refusal).err() }
    }

    pub fn reset(&mut self) -> Result<(), Refused> {
        done(unsafe { khz_reset(self.0.as_mut_ptr(), self.0.len()) })
    }
}

/// Is this a bench file?
pub fn check_file(file: &[u8]) -> Result<(), Refused> {
    done(unsafe { khz_check_file(file.as_ptr(), file.len()) })
}

// The writers: ten bytes of a word from its fields. A field that is wider than its bits is refused, and the bytes stay as they were.

/// `active_lanes`: bit n for lane n.
pub fn write_ihw(active_lanes: u64, word: &mut [u8]) -> Result<(), Refused> {
    done(unsafe { khz_write_ihw(active_lanes, word.as_mut_ptr(), word.len()) })
}

impl Tdh {
    pub fn write(&self, word: &mut [u8]) -> Result<(), Refused> {
        let (w, n) = (word.as_mut_ptr(), word.len());
        done(unsafe { khz_write_tdh(self.trigger_type, self.internal, self.no_data, self.continuation, self.bc, self.orbit, w, n) })
    }
}

impl Tdt {
    #[rustfmt::skip]
    pub fn write(&self, word: &mut [u8]) -> Result<(), Refused> {
        let (w, n) = (word.as_mut_ptr(), word.len());
        done(unsafe { khz_write_tdt(self.lane_status, self.timeout_to_start, self.timeout_start_stop, self.timeout_in_idle, self.lane_starts_violation, self.transmission_timeout, self.packet_done, w, n) })
    }
}

impl Ddw0 {
    pub fn write(&self, word: &mut [u8]) -> Result<(), Refused> {
        let (w, n) = (word.as_mut_ptr(), word.len());
        done(unsafe { khz_write_ddw0(self.lane_status, self.lane_starts_violation, self.transmission_timeout, self.index, w, n) })
    }
}

pub fn write_cdw(user_fields: u64, index: u64, word: &mut [u8]) -> Result<(), Refused> {
    done(unsafe { khz_write_cdw(user_fields, index, word.as_mut_ptr(), word.len()) })
}

/// Nine bytes, then the id.
pub fn write_data(id: u64, bytes: &[u8], word: &mut [u8]) -> Result<(), Refused> {
    done(unsafe { khz_write_data(id, bytes.as_ptr(), bytes.len(), word.as_mut_ptr(), word.len()) })
}

fn status(a: StatusAnswer) -> Result<Status, Refused> {
    done(a.refusal)?;
    Ok(match a.status {
        0 => Status::Good,
        1 => Status::Warning,
        2 => Status::Error,
        3 => Status::Fatal,
        _ => panic!("a status that the header has not"),
    })
}

/// The status of a TDT or DDW0: that of its worst lane.
pub fn worst_lane(word: &[u8]) -> Result<Status, Refused> {
    status(unsafe { khz_worst_lane(word.as_ptr(), word.len()) })
}

/// The status of one lane of a TDT or DDW0; a lane above 27 is good.
pub fn lane_status(word: &[u8], lane: u64) -> Result<Status, Refused> {
    status(unsafe { khz_lane_status(word.as_ptr(), word.len(), lane) })
}

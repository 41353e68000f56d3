//! The driver: calls as lines on standard input, answers as lines on standard output. ../../../../README.md has the lines.
use alice_protocol_reader::prelude::*;
use fastpasta::analyze::validators::its::{
    cdp_running::CdpRunningValidator,
    its_payload_fsm_cont::{AmbigiousError, ItsPayloadFsmContinuous},
    lib::ItsPayloadWord as Kind,
    status_word::{tdh::TdhValidator, util::StatusWordContainer},
};
use fastpasta::analyze::validators::lib::preprocess_payload;
use fastpasta::config::Settings;
use fastpasta::oracle_log::{Frame, FRAME};
use fastpasta::stats::StatType;
use fastpasta::words::its::data_words::*;
use fastpasta::words::its::status_words::{tdh::Tdh, tdt::Tdt, util::*, StatusWord};
use std::cell::RefCell;
use std::collections::HashMap;
use std::io::{BufRead, Write};
use std::panic::{catch_unwind, AssertUnwindSafe};
use std::rc::Rc;

type Validator = CdpRunningValidator<PacketRdh, Settings>;

struct Link {
    validator: Validator,
    /// A second machine of the given text, only to learn the kind, which the validator does not tell.
    fsm: ItsPayloadFsmContinuous,
    messages: Rc<RefCell<Vec<StatType>>>,
    rdh: PacketRdh,
    /// The TDH before, only for the numbers of 441 to 443, which their messages lack.
    previous: Option<Tdh>,
}

fn hex(s: &str) -> Vec<u8> {
    let digit = |c: u8| (c as char).to_digit(16).expect("hex") as u8;
    s.as_bytes().chunks(2).map(|p| digit(p[0]) << 4 | digit(p[1])).collect()
}

/// The numbers that a message writes as 0x..
fn hex_numbers(s: &str) -> Vec<u64> {
    s.match_indices("0x")
        .map(|(i, _)| {
            let digits: String = s[i + 2..].chars().take_while(|c| c.is_ascii_hexdigit()).collect();
            u64::from_str_radix(&digits, 16).unwrap()
        })
        .collect()
}

fn kind(r: Result<Kind, AmbigiousError>) -> (Kind, bool) {
    match r {
        Ok(k) => (k, false),
        Err(AmbigiousError::TDH_or_DDW0) => (Kind::TDH, true),
        Err(AmbigiousError::DW_or_TDT_CDW) => (Kind::DataWord, true),
        Err(AmbigiousError::DDW0_or_TDH_IHW) => (Kind::DDW0, true),
    }
}

/// A message as 01's record: position, code, first, second. What the message lacks is read from the word and the packet.
fn record(message: &str, w: &[u8], rdh: &PacketRdh, previous: Option<&Tdh>) -> (u64, u64, u64, u64) {
    let (position, rest) = message.split_once(": ").unwrap();
    let position = u64::from_str_radix(&position[2..], 16).unwrap();
    let open = rest.find("[E").unwrap();
    let close = open + rest[open..].find(']').unwrap();
    let code: u64 = rest[open + 2..close].parse().unwrap();
    // the text between the code and the word's bytes, if those follow
    let text = match rest.rfind(" [") {
        Some(i) if i > close => &rest[close + 1..i],
        _ => &rest[close + 1..],
    };
    let tdh = Tdh::from_buf(w).unwrap();
    let (first, second) = match code {
        990 | 991 | 992 | 70 => (w[9] as u64, 0),
        30 | 40 | 50 | 60 => {
            let detail = if text.contains("ID is not") {
                1
            } else {
                let reserved = if text.contains("reserved") { 2 } else { 0 };
                let other = if text.contains("both 0") || text.contains("index is not 0") { 4 } else { 0 };
                reserved + other
            };
            (detail, 0)
        }
        41 | 42 => (tdh.continuation() as u64, 0),
        444 => (tdh.trigger_orbit() as u64, rdh.rdh1.orbit as u64),
        445 | 440 | 44 => {
            let n = hex_numbers(text);
            (n[0], n[1])
        }
        441 => (tdh.trigger_bc() as u64, previous.unwrap().trigger_bc() as u64),
        442 => (tdh.trigger_orbit() as u64, previous.unwrap().trigger_orbit() as u64),
        443 => (tdh.trigger_type() as u64, previous.unwrap().trigger_type() as u64),
        45 => {
            // "user specified: SET != FOUND"
            let numbers = text.split("user specified: ").nth(1).unwrap().lines().next().unwrap();
            let (set, found) = numbers.split_once(" != ").unwrap();
            (found.trim().parse().unwrap(), set.trim().parse().unwrap())
        }
        59 => (0, 0),
        81 => (w[6] as u64 | (w[7] as u64) << 8 | (w[8] as u64) << 16, 0),
        _ => {
            // a stand-in's message: @first,second@
            let (first, second) = text.split('@').nth(1).unwrap().split_once(',').unwrap();
            (first.parse().unwrap(), second.parse().unwrap())
        }
    };
    (position, code, first, second)
}

fn packet(f: &[&str]) -> PacketRdh {
    PacketRdh {
        rdh1: Rdh1 { orbit: f[2].parse().unwrap(), bc_reserved0: f[4].parse().unwrap() },
        rdh2: Rdh2 { trigger_type: f[3].parse().unwrap(), pages_counter: f[5].parse().unwrap(), stop_bit: f[6].parse().unwrap() },
        format: f[7].parse().unwrap(),
    }
}

/// One word's answer. False: the given text panicked, and the link is of no more use.
fn word(link: &mut Link, w: &[u8], out: &mut impl Write) -> bool {
    FRAME.with(|c| c.set(Frame::None));
    if catch_unwind(AssertUnwindSafe(|| link.validator.check(w))).is_err() {
        panicked(out);
        return false;
    }
    let (kind, guessed) = kind(link.fsm.advance(w));
    let frame = match FRAME.with(|c| c.get()) {
        Frame::None => "-".to_string(),
        Frame::Opened => "O".to_string(),
        Frame::Closed(start, end) => format!("C:{start}:{end}"),
    };
    write!(out, "{kind:?} {} {frame}", guessed as u8).unwrap();
    for StatType::Error(m) in link.messages.borrow_mut().drain(..) {
        let (position, code, first, second) = record(&m, w, &link.rdh, link.previous.as_ref());
        write!(out, " ; {position} {code} {first} {second}").unwrap();
    }
    writeln!(out).unwrap();
    if matches!(kind, Kind::TDH | Kind::TDH_continuation | Kind::TDH_after_packet_done) {
        link.previous = Some(Tdh::from_buf(w).unwrap());
    }
    true
}

thread_local! { static LAST_PANIC: RefCell<String> = const { RefCell::new(String::new()) }; }

fn panicked(out: &mut impl Write) {
    LAST_PANIC.with(|p| writeln!(out, "PANIC {}", p.borrow()).unwrap());
}

/// The answer of a single function, or its panic.
fn single(out: &mut impl Write, answer: impl FnOnce() -> String) {
    match catch_unwind(AssertUnwindSafe(answer)) {
        Ok(answer) => writeln!(out, "{answer}").unwrap(),
        Err(_) => panicked(out),
    }
}

/// The codes of messages, or `-`.
fn codes(messages: Vec<String>) -> String {
    let codes: Vec<&str> = messages.iter().map(|m| &m[2..m.find(']').unwrap()]).collect();
    if codes.is_empty() {
        "-".to_string()
    } else {
        codes.join(" ")
    }
}

/// The TDHs of a line: the previous one where `stored` is 1, and the one that is checked.
fn tdhs(f: &[&str]) -> (Option<Tdh>, Tdh) {
    let tdh = |s| Tdh::from_buf(&hex(s)).unwrap();
    (if f[1] == "1" { Some(tdh(f[2])) } else { None }, tdh(f[3]))
}

/// Keeps a panic's message for the answer and off standard error.
fn catch_messages() {
    std::panic::set_hook(Box::new(|info| {
        let payload = info.payload();
        let text =
            payload.downcast_ref::<&str>().map(|s| s.to_string()).or_else(|| payload.downcast_ref::<String>().cloned()).unwrap_or_default();
        let place = info.location().map(|l| format!("{}:{}", l.file().rsplit('/').next().unwrap(), l.line())).unwrap_or_default();
        LAST_PANIC.with(|p| *p.borrow_mut() = format!("{} @{place}", text.replace('\n', " ")));
    }));
}

fn main() {
    catch_messages();
    match std::env::args().nth(1).as_deref() {
        Some("time") => return time(),
        _ => {}
    }
    let mut out = std::io::BufWriter::with_capacity(1 << 16, std::io::stdout().lock());
    let mut settings: HashMap<Settings, &'static Settings> = HashMap::new(); // each is leaked once
    let mut link: Option<Link> = None;
    for line in std::io::stdin().lock().lines() {
        let line = line.unwrap();
        let f: Vec<&str> = line.split_ascii_whitespace().collect();
        if f.is_empty() {
            continue;
        }
        match f[0] {
            "S" => {
                let s = Settings { running: f[1] == "1", frames: f[2] == "1", period: f[3].parse().ok() };
                let s = *settings.entry(s).or_insert_with(|| Box::leak(Box::new(s)));
                let (sender, messages) = flume::Sender::queue();
                link = Some(Link {
                    validator: Validator::new(s, sender),
                    fsm: ItsPayloadFsmContinuous::new(),
                    messages,
                    rdh: PacketRdh::default(),
                    previous: None,
                });
            }
            "P" => {
                if let Some(link) = link.as_mut() {
                    link.rdh = packet(&f);
                    link.validator.set_current_rdh(&link.rdh, f[1].parse().unwrap());
                }
            }
            "R" => {
                if let Some(link) = link.as_mut() {
                    link.validator.reset_fsm();
                    link.fsm.reset_fsm();
                }
            }
            "W" => match link.as_mut() {
                None => writeln!(out, "DEAD").unwrap(),
                Some(l) => {
                    if !word(l, &hex(f[1]), &mut out) {
                        link = None;
                    }
                }
            },
            "LANES" => {
                for id in 0..=255u8 {
                    let (outer, inner) = (ob_data_word_id_to_lane(id), ib_data_word_id_to_lane(id));
                    writeln!(out, "{id} {outer} {inner} {}", ob_data_word_id_to_input_number_connector(id)).unwrap()
                }
            }
            "ACTIVE" => {
                let (lane, active): (u8, u32) = (f[1].parse().unwrap(), f[2].parse().unwrap());
                single(&mut out, || (is_lane_active(lane, active) as u8).to_string())
            }
            "LANE" => {
                // the Rust asks no barrel; its two answers as numbers of ours: 0 active, 1 not active
                let (lane, active): (u8, u32) = (f[2].parse().unwrap(), f[3].parse().unwrap());
                single(&mut out, || (!is_lane_active(lane, active) as u8).to_string())
            }
            "CONTINUATION" => {
                let (previous, tdh) = tdhs(&f);
                single(&mut out, || codes(TdhValidator::check_continuation(&tdh, previous.as_ref()).err().unwrap_or_default()))
            }
            "AFTER_PACKET_DONE" => {
                let (previous, tdh) = tdhs(&f);
                let mut stored = StatusWordContainer::new_const();
                previous.into_iter().chain([tdh]).for_each(|t| stored.replace_tdh(t));
                // this check gives no message; [E440] is its caller's
                single(&mut out, || TdhValidator::check_after_tdt_packet_done_true(&stored).map_or("440", |_| "-").to_string())
            }
            "STATUS" => writeln!(out, "{}", ddw0_tdt_lane_status_as_string(&hex(f[1])).trim()).unwrap(),
            "FIELDS" => fields(&hex(f[1]), &mut out),
            "PAYLOAD" | "Y" => payload(&if f.len() > 1 { hex(f[1]) } else { vec![] }, &mut out),
            c => panic!("unknown command {c}"),
        }
    }
    out.flush().unwrap();
}

/// The fields of a word as TDH and as TDT.
fn fields(w: &[u8], out: &mut impl Write) {
    let h = Tdh::from_buf(w).unwrap();
    let d = Tdt::from_buf(w).unwrap();
    let lanes = d.lane_status_15_0() as u64 | (d.lane_status_23_16() as u64) << 32 | (d.lane_status_27_24() as u64) << 48;
    write!(out, "{} {} {} ", h.trigger_type(), h.internal_trigger(), h.no_data()).unwrap();
    write!(out, "{} {} {} {} | ", h.continuation(), h.trigger_bc(), h.trigger_orbit(), h.is_reserved_0() as u8).unwrap();
    write!(out, "{lanes} {} {} ", d.timeout_to_start() as u8, d.timeout_start_stop() as u8).unwrap();
    write!(out, "{} {} ", d.timeout_in_idle() as u8, d.lane_starts_violation() as u8).unwrap();
    writeln!(out, "{} {} {}", d.transmission_timeout() as u8, d.packet_done() as u8, d.is_reserved_0() as u8).unwrap();
}

/// How the given text cuts a payload: the number of parts and the first part's size.
fn payload(bytes: &[u8], out: &mut impl Write) {
    single(out, || match preprocess_payload(bytes) {
        Ok(parts) => {
            let lengths: Vec<usize> = parts.map(|p| p.len()).collect();
            format!("{} {}", lengths.len(), lengths.first().copied().unwrap_or(0))
        }
        Err(_) => "ERR".to_string(),
    })
}

/// Nanoseconds of processor time of this process so far.
fn processor_ns() -> f64 {
    #[repr(C)]
    struct Time {
        seconds: i64,
        nanoseconds: i64,
    }
    extern "C" {
        fn clock_gettime(clock: i32, time: *mut Time) -> i32;
    }
    const CLOCK_PROCESS_CPUTIME_ID: i32 = 2; // Linux
    let mut t = Time { seconds: 0, nanoseconds: 0 };
    assert_eq!(unsafe { clock_gettime(CLOCK_PROCESS_CPUTIME_ID, &mut t) }, 0);
    1e9 * t.seconds as f64 + t.nanoseconds as f64
}

/// driver time FILE PASSES: ns a word over the calls of a file, the fastest pass. The file is read before; timed are set_current_rdh and check.
fn time() {
    let file = std::fs::read_to_string(std::env::args().nth(2).unwrap()).unwrap();
    let passes: usize = std::env::args().nth(3).unwrap().parse().unwrap();
    let settings: &'static Settings = Box::leak(Box::new(Settings { running: true, frames: true, period: Some(198) }));
    let (mut bytes, mut packets) = (vec![], vec![]);
    for line in file.lines() {
        let f: Vec<&str> = line.split_ascii_whitespace().collect();
        match f[0] {
            "S" => assert_eq!(f[1..], ["1", "1", "198"]),
            "P" => packets.push((f[1].parse::<u64>().unwrap(), packet(&f), bytes.len(), bytes.len())),
            "W" => {
                bytes.extend(hex(f[1]));
                packets.last_mut().unwrap().3 = bytes.len();
            }
            c => panic!("unknown command {c}"),
        }
    }
    let words = bytes.len() / 10;
    let (mut fastest, mut records) = (f64::INFINITY, 0);
    for _ in 0..passes {
        let (sender, count) = flume::Sender::counter();
        let mut validator = Validator::new(std::hint::black_box(settings), sender);
        let start = processor_ns();
        for (position, rdh, first, end) in &packets {
            validator.set_current_rdh(rdh, *position);
            for w in bytes[*first..*end].chunks_exact(10) {
                validator.check(std::hint::black_box(w));
            }
        }
        fastest = fastest.min((processor_ns() - start) / words as f64);
        records = count.get();
    }
    println!("words {words} records {records} fastest {fastest:.3}");
}

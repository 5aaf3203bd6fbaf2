//! Demand 3, played: a sender and an ordered receiver over a simulated line that loses, repeats, delays
//! and reorders packets and acknowledgements. The play is written as a script, by renet's answers; our
//! side answers it, and each message that it hands out is held to what was queued.

use crate::generate::Random;
use crate::run::{first, ours};
use crate::script::spell;
use crate::session::Session;
use octets::Octets;
use renet::packet::Packet;
use std::process::ExitCode;

/// Something under way: when it arrives, and the line that it is then.
struct Flight {
    at: u64,
    line: String,
    packet: Option<Vec<u8>>,
}

struct Play {
    random: Random,
    session: Session,
    lines: Vec<String>,
    answers: String,
    told: String,
    flights: Vec<Flight>,
    /// the spelling of each message that was queued
    queued: Vec<String>,
    loss: u64,
    delay: u64,
    slots: usize,
    lanes: usize,
    pieces: usize,
}

const RESEND: u64 = 100;
const MOST_ROUNDS: u64 = 20_000;

impl Play {
    fn new(seed: u64) -> Play {
        let mut random = Random::new(seed);
        let loss = random.one(&[0, 10, 30, 50, 70, 90]);
        let delay = random.one(&[1, 50, 400]);
        let (slots, lanes, pieces) = (1 + random.below(8), 1 + random.below(3), 1 + random.below(8));
        let mut play = Play {
            random,
            session: Session::new(),
            lines: vec![],
            answers: String::new(),
            told: String::new(),
            flights: vec![],
            queued: vec![],
            loss,
            delay,
            slots: slots as usize,
            lanes: lanes as usize,
            pieces: pieces as usize,
        };
        play.run(format!("# loss {loss} %, delay up to {delay} ns"));
        play.run(format!("sr new 0 {slots} {lanes} {pieces} 1000000 {RESEND}"));
        play.run(format!("rr new {slots} {lanes} {pieces} 1000000"));
        play
    }

    fn run(&mut self, line: String) {
        self.answers.clear();
        self.session.run(line.as_bytes(), &mut self.answers);
        self.told += &self.answers;
        self.lines.push(line);
    }

    /// How many messages came out.
    fn out(&self) -> usize {
        self.session.rr.renet.oldest_pending() as usize
    }

    /// Queues a message, if the receiver has room for all that is not out yet.
    fn queue(&mut self) {
        let small = self.random.chance(60) || self.pieces == 1;
        let under_way = self.queued[self.out()..]
            .iter()
            .filter(|m| m.starts_with("00") == small);
        let room = if small { self.slots } else { self.lanes };
        if under_way.count() >= room {
            return;
        }
        let most = if small {
            1_195
        } else {
            (self.pieces * 1_200 - 1_201) as u64
        };
        let n = self.random.below(most + 1) + if small { 0 } else { 1_196 };
        let (kind, id) = (if small { "00" } else { "01" }, self.queued.len());
        let message = format!("{kind}{id:08x}.{:02x}~{n}", id % 251);
        self.run(format!("sr send {message}"));
        if self.answers.contains(": taken") {
            self.queued.push(message);
        }
    }

    /// Puts a line under way: lost, once, or more often.
    fn send(&mut self, now: u64, line: String, packet: Option<Vec<u8>>) {
        while !self.random.chance(self.loss) {
            let at = now + self.random.below(self.delay);
            self.flights.push(Flight {
                at,
                line: line.clone(),
                packet: packet.clone(),
            });
            if self.random.chance(80) {
                return;
            }
        }
    }

    fn round(&mut self, now: u64, sequence: u64) -> u64 {
        let allowance = 1_200 + self.random.below(6_000);
        self.run(format!("sr round {sequence} {now} {allowance}"));
        let outbox = &self.session.sr.outbox;
        let packets: Vec<Vec<u8>> = (0..outbox.kept).map(|k| outbox.packet(k).to_vec()).collect();
        for packet in &packets {
            self.send(now, format!("rr packet {}", spell(packet)), Some(packet.clone()));
        }
        sequence + packets.len() as u64
    }

    /// What is due arrives; what the receiver took or has is acknowledged.
    fn arrive(&mut self, now: u64) {
        let (due, later) = std::mem::take(&mut self.flights).into_iter().partition(|f| f.at <= now);
        self.flights = later;
        let mut due: Vec<Flight> = due;
        while !due.is_empty() {
            let flight = due.swap_remove(self.random.below(due.len() as u64) as usize);
            self.run(flight.line);
            let Some(packet) = flight.packet else {
                continue;
            };
            let acks: Vec<String> = match Packet::from_bytes(&mut Octets::with_slice(&packet)) {
                Ok(Packet::SmallReliable { messages, .. }) => {
                    messages.iter().map(|m| format!("sr ack {}", m.0)).collect()
                }
                Ok(Packet::ReliableSlice { slice, .. }) => {
                    vec![format!("sr ack-slice {} {}", slice.message_id, slice.slice_index)]
                }
                _ => vec![],
            };
            let taken: Vec<bool> = self.answers.lines().skip(1).map(|t| !t.contains(": refused")).collect();
            for (ack, _) in acks.into_iter().zip(taken).filter(|(_, taken)| *taken) {
                self.send(now, ack, None);
            }
        }
    }
}

/// A whole play: the script, renet's answers, and what was queued.
fn play(seed: u64, messages: usize) -> Result<Play, String> {
    let mut p = Play::new(seed);
    let (mut now, mut sequence) = (0, 0);
    for _ in 0..MOST_ROUNDS {
        if p.queued.len() < messages {
            p.queue();
        }
        sequence = p.round(now, sequence);
        p.arrive(now);
        while p.random.chance(60) {
            p.run("rr take".into());
        }
        if p.out() == messages {
            p.run("rr take".into());
            return Ok(p);
        }
        now += p.random.one(&[1, RESEND / 2, RESEND, RESEND + 1]);
    }
    Err(format!(
        "{} of {messages} messages came out in {MOST_ROUNDS} rounds",
        p.out()
    ))
}

/// Holds what came out to what was queued, at every step.
fn held(p: &Play, answers: &str) -> Result<(), String> {
    let mut queued = 0;
    let mut out = 0;
    for text in answers.lines() {
        let Some((number, told)) = text.split_once(": ") else {
            return Err(format!("no answer: {text}"));
        };
        let line = number.parse::<usize>().ok().and_then(|n| p.lines.get(n - 1));
        if line.is_some_and(|l| l.starts_with("sr send")) && told.starts_with("taken") {
            queued += 1;
        }
        if !line.is_some_and(|l| l == "rr take") || !told.starts_with("message") {
            continue;
        }
        let bytes = told.split(' ').nth(9).unwrap_or("").trim_end_matches(';');
        // both spellings are read, since a short stretch is printed byte by byte
        let read = |s: &str| crate::script::bytes(s.as_bytes()).ok();
        if out >= queued || read(bytes) != read(&p.queued[out]) {
            return Err(format!("handed out as {out}: {bytes}"));
        }
        out += 1;
    }
    match out == p.queued.len() {
        true => Ok(()),
        false => Err(format!("{out} of {} messages came out", p.queued.len())),
    }
}

pub fn run(seed: u64, count: u64, command: &str) -> ExitCode {
    let (mut wrong, mut messages, mut lines) = (0, 0, 0);
    for seed in seed..seed.saturating_add(count) {
        let p = match play(seed, 40) {
            Ok(p) => p,
            Err(why) => {
                println!("seed {seed}: {why}");
                wrong += 1;
                continue;
            }
        };
        let script = p.lines.join("\n") + "\n";
        let answers = ours(command, &script);
        messages += p.queued.len();
        lines += p.lines.len();
        let fault = held(&p, &answers).err();
        let differs = (answers != p.told).then(|| first(&p.told, &answers));
        if fault.is_some() || differs.is_some() {
            wrong += 1;
            println!("seed {seed}, {}: {}", p.lines[0], fault.unwrap_or_default());
            print!("{}", differs.unwrap_or_default());
        }
    }
    println!("{count} plays from seed {seed} on, {messages} messages, {lines} lines: {wrong} with a fault");
    if wrong > 0 {
        ExitCode::FAILURE
    } else {
        ExitCode::SUCCESS
    }
}

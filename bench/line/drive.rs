//! An active that commits as fast as it is answered: drive PROGRAM FOLDER WORDS.
use std::fs::{File, OpenOptions};
use std::io::{BufRead, BufReader, Read, Write};
use std::net::TcpStream;
use std::process::{Child, Command, Stdio};
use std::time::Instant;

const MESSAGE: usize = 200;
const ACK: usize = 17;

fn framed(kind: u8, fields: &[&[u8]]) -> Vec<u8> {
    let body = fields.concat();
    [&(body.len() as u32 + 1).to_le_bytes()[..], &[kind], &body].concat()
}

fn text(bytes: &[u8]) -> Vec<u8> {
    [&(bytes.len() as u32).to_le_bytes()[..], bytes].concat()
}

/// A commit of the next message.
fn commit(number: u64) -> Vec<u8> {
    let numbers = [&1u32.to_le_bytes()[..], &5u64.to_le_bytes(), &number.to_le_bytes()].concat();
    framed(4, &[&numbers, &[0], &1u32.to_le_bytes(), &[4], &number.to_le_bytes(), &text(&[b'm'; MESSAGE]), &[0; 4]])
}

fn start(program: &str, copy: &str) -> (Child, TcpStream) {
    let mut child =
        Command::new(program).args(["standby", "0", copy]).stderr(Stdio::piped()).spawn().expect("the standby");
    let log = child.stderr.take().expect("its log");
    let mut lines = BufReader::new(log).lines();
    let said = lines.find_map(|l| l.ok().filter(|l| l.contains(" listening on "))).expect("it listens");
    std::thread::spawn(move || lines.for_each(drop));
    let address = said.split(" listening on ").nth(1).and_then(|s| s.split(',').next()).expect("its address");
    let mut line = TcpStream::connect(address).expect("a line");
    line.set_nodelay(true).expect("no delay");
    let (key, epoch) = ([text(b"FIX.4.4"), text(b"A"), text(b"B"), text(b"")].concat(), 5u64.to_le_bytes());
    line.write_all(&framed(1, &[&1u16.to_le_bytes(), &epoch, &text(b"a"), &[0; 4]])).expect("Hello");
    line.write_all(&framed(3, &[&1u32.to_le_bytes(), &epoch, &[0; 8], &key])).expect("Bind");
    line.read_exact(&mut [0; 21 + 49]).expect("Welcome and Bound");
    (child, line)
}

/// So many commits, with so many unanswered at most: commits a second.
fn commits(line: &mut TcpStream, from: &mut u64, count: u64, window: u64) -> f64 {
    let (begin, end, mut answered) = (Instant::now(), *from + count, *from);
    let mut answers = vec![0; 64 * ACK];
    let mut left = 0;
    while answered < end {
        let mut frames = Vec::new();
        while *from < end && *from - answered < window {
            *from += 1;
            frames.extend(commit(*from));
        }
        line.write_all(&frames).expect("a commit");
        left += line.read(&mut answers).expect("an answer");
        answered += (left / ACK) as u64;
        left %= ACK;
    }
    count as f64 / begin.elapsed().as_secs_f64()
}

fn bare(name: &str, count: u64, each: u64, sync: bool) -> f64 {
    let mut file: File = OpenOptions::new().create(true).append(true).open(name).expect("a file");
    let begin = Instant::now();
    for number in 0..count / each {
        let frames: Vec<u8> = (0..each).flat_map(|i| commit(number * each + i)).collect();
        file.write_all(&frames).expect("a write");
        if sync {
            file.sync_data().expect("a sync");
        }
    }
    let rate = count as f64 / begin.elapsed().as_secs_f64();
    std::fs::remove_file(name).expect("the file goes");
    rate
}

fn copied(count: u64) -> f64 {
    let frame = commit(1);
    let mut area = vec![0u8; 1 << 26];
    let begin = Instant::now();
    for i in 0..count as usize {
        let at = i * frame.len() % (area.len() - frame.len());
        area[at..at + frame.len()].copy_from_slice(std::hint::black_box(&frame));
    }
    std::hint::black_box(&area);
    count as f64 / begin.elapsed().as_secs_f64()
}

fn main() {
    let given: Vec<String> = std::env::args().collect();
    let [_, program, folder, words] = given.as_slice() else { panic!("drive PROGRAM FOLDER WORDS") };
    let (mut child, mut line) = start(program, &format!("{folder}/copy"));
    let mut number = 0;
    for (window, count) in [(1, 5_000), (8, 20_000), (64, 60_000), (256, 100_000)] {
        let ours = commits(&mut line, &mut number, count, window);
        let loop_ = bare(&format!("{folder}/bare"), count, window, true);
        println!(
            "{words:<8} {window:>4} unanswered  standby {ours:>9.0} a second   write and fdatasync {loop_:>9.0}   ratio {:.2}",
            loop_ / ours
        );
    }
    println!(
        "{words:<8} memcpy of the frame {:>12.0} a second; write without fdatasync {:>9.0}",
        copied(20_000_000),
        bare(&format!("{folder}/bare"), 200_000, 1, false)
    );
    child.kill().expect("it ends");
    child.wait().expect("it has ended");
}

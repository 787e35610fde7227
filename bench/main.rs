//! The library's entry points beside plain Rust, interleaved in one run: medians of five, and their ratio.
mod reader;
mod sha256;
mod stores;
mod tally;

use std::hint::black_box;
use std::time::Instant;

mod library {
    extern "C" {
        // A slice crosses as a pointer and a length.
        fn speed_digest(message: *const u8, length: usize, out: *mut u8, room: usize) -> u32;
        fn speed_tally_value(area: *mut u8, length: usize, counter: u8) -> u64;
        fn speed_tally_raise(area: *mut u8, length: usize, counter: u8, to: u32) -> u32;
        fn speed_log(area: *mut u8, length: usize, records: *const u8, bytes: usize, size: usize) -> u32;
        fn speed_slots(area: *mut u8, length: usize, records: *const u8, bytes: usize, size: usize) -> u32;
        fn speed_check(position: u32, answer: *const u8, length: usize, working: *mut u8, room: usize) -> u32;
    }

    pub fn log(area: &mut [u8], records: &[u8], size: usize) -> u32 {
        unsafe { speed_log(area.as_mut_ptr(), area.len(), records.as_ptr(), records.len(), size) }
    }

    pub fn slots(area: &mut [u8], records: &[u8], size: usize) -> u32 {
        unsafe { speed_slots(area.as_mut_ptr(), area.len(), records.as_ptr(), records.len(), size) }
    }

    pub fn check(position: u32, answer: &[u8], working: &mut [u8]) -> u32 {
        unsafe { speed_check(position, answer.as_ptr(), answer.len(), working.as_mut_ptr(), working.len()) }
    }

    pub fn tally_value(area: &mut [u8], counter: u8) -> u64 {
        unsafe { speed_tally_value(area.as_mut_ptr(), area.len(), counter) }
    }

    pub fn tally_raise(area: &mut [u8], counter: u8, to: u32) -> u32 {
        unsafe { speed_tally_raise(area.as_mut_ptr(), area.len(), counter, to) }
    }

    pub fn digest(message: &[u8]) -> [u8; 32] {
        let mut out = [0u8; 32];
        let code = unsafe { speed_digest(message.as_ptr(), message.len(), out.as_mut_ptr(), out.len()) };
        assert_eq!(code, 0);
        out
    }
}

const RUNS: usize = 5;

fn seconds(work: &mut dyn FnMut()) -> f64 {
    let start = Instant::now();
    work();
    start.elapsed().as_secs_f64()
}

fn median(mut times: Vec<f64>) -> f64 {
    times.sort_by(f64::total_cmp);
    times[times.len() / 2]
}

/// Runs both, one after the other, five times each, after a run of each that is not counted.
pub fn compare(name: &str, ours: &mut dyn FnMut(), plain: &mut dyn FnMut()) {
    ours();
    plain();
    let (mut a, mut b) = (Vec::new(), Vec::new());
    for _ in 0..RUNS {
        a.push(seconds(ours));
        b.push(seconds(plain));
    }
    let (a, b) = (median(a), median(b));
    println!("{name}: library {:.1} ms, plain Rust {:.1} ms, time ratio {:.2}, speed ratio {:.2}", 1e3 * a, 1e3 * b, a / b, b / a);
}

fn digests() {
    let large: Vec<u8> = (0..65536u32).map(|i| (i * 7 + i / 256) as u8).collect();
    for length in [0, 1, 55, 56, 63, 64, 65, 200, 256, 1000, 65536] {
        assert_eq!(library::digest(&large[..length]), sha256::sha256(&large[..length]), "{length} bytes");
    }
    let many = |hash: fn(&[u8]) -> [u8; 32], length: usize, times: usize| {
        for _ in 0..times {
            black_box(hash(black_box(&large[..length])));
        }
    };
    compare("digest, 64 MiB in messages of 64 KiB", &mut || many(library::digest, 65536, 1024), &mut || many(sha256::sha256, 65536, 1024));
    compare("digest, 100,000 messages of 256 bytes", &mut || many(library::digest, 256, 100_000), &mut || many(sha256::sha256, 256, 100_000));
}

/// A bank of 4,096 bytes a counter; every raise is made on a region of ones, which is filled before each.
fn tallies() {
    const SIZE: usize = 4096;
    let mut area = vec![0xffu8; 16 * SIZE];
    let mut other = area.clone();
    for to in [1, 7, 8, 9, 100, 20_000, 32_767, 32_768] {
        assert_eq!(library::tally_raise(&mut area, 3, to), 0);
        tally::raise(&mut other[3 * SIZE..4 * SIZE], to);
        assert!(area == other && library::tally_value(&mut area, 3) == u64::from(to));
    }
    let times = 20_000;
    compare(
        "tally bank, value at 4,096 bytes",
        &mut || (0..times).for_each(|_| _ = black_box(library::tally_value(black_box(&mut area), 3))),
        &mut || (0..times).for_each(|_| _ = black_box(tally::value(black_box(&other[3 * SIZE..4 * SIZE])))),
    );
    for to in [5, 20_000, 32_768] {
        compare(
            &format!("tally bank, raise from 0 to {to} at 4,096 bytes"),
            &mut || {
                for _ in 0..times {
                    area[3 * SIZE..4 * SIZE].fill(0xff);
                    black_box(library::tally_raise(black_box(&mut area), 3, to));
                }
            },
            &mut || {
                for _ in 0..times {
                    other[3 * SIZE..4 * SIZE].fill(0xff);
                    tally::raise(black_box(&mut other[3 * SIZE..4 * SIZE]), to);
                }
            },
        );
    }
}

/// Records of queue 0 that span one position each, end to end.
fn records(count: u32, text: usize) -> (Vec<u8>, usize) {
    let size = 114 + text;
    let mut all = Vec::new();
    for i in 0..count {
        let mut record = vec![0x61u8; size];
        record[8] = 1;
        record[9..13].copy_from_slice(&i.to_be_bytes());
        record[13..17].copy_from_slice(&(i + 1).to_be_bytes());
        record[113] = text as u8;
        all.extend(record);
    }
    (all, size)
}

/// A full store is filled, every position covered, half forgotten and then all. Opening zeroes the area in both.
fn stores() {
    let mut area = vec![0u8; 65536];
    for text in [0, 100, 200] {
        let (all, size) = records(65536 / (116 + text as u32), text);
        let plain = |area: &mut [u8]| {
            area.fill(0);
            stores::work(&mut stores::Log { area, used: 0 }, &all, size)
        };
        assert_eq!(library::log(&mut area, &all, size), plain(&mut area));
        let mut other = area.clone();
        compare(
            &format!("log store of 65,536 bytes, texts of {text} bytes"),
            &mut || (0..20).for_each(|_| _ = black_box(library::log(black_box(&mut area), &all, size))),
            &mut || (0..20).for_each(|_| _ = black_box(plain(black_box(&mut other)))),
        );
    }
    let mut slots = vec![0u8; 64000];
    let (all, size) = records(200, 200);
    let plain = |area: &mut [u8]| {
        area.fill(0);
        stores::work(&mut stores::Slots { area, rows: [stores::FREE; 200], used: 0 }, &all, size)
    };
    assert_eq!(library::slots(&mut slots, &all, size), plain(&mut slots));
    let mut other = slots.clone();
    compare(
        "slot store of 200 slots, texts of 200 bytes",
        &mut || (0..200).for_each(|_| _ = black_box(library::slots(black_box(&mut slots), &all, size))),
        &mut || (0..200).for_each(|_| _ = black_box(plain(black_box(&mut other)))),
    );
}

/// Checks of found answers with texts of 200 bytes.
fn readers() {
    let (identity, key) = ([1u8; 8], [11u8; 32]);
    let (old, new, previous, text) = (4u32.to_be_bytes(), 5u32.to_be_bytes(), [7u8; 32], [0x74u8; 200]);
    let matter = sha256::sha256(&[&[0u8][..], &old, &new, &previous, &text].concat());
    let statement = [&identity[..], &[1], &old, &new, &matter].concat();
    let answer = [&[1u8, 1, 200][..], &statement, &reader::hmac(&key, &statement), &previous, &text].concat();
    let mut working = [0xffu8; 64];
    for position in [4, 5, 6] {
        assert_eq!(library::check(position, &answer, &mut working), reader::check_found(&identity, &key, position, &answer));
    }
    assert_eq!(library::check(5, &answer, &mut working), 0);
    compare(
        "check of a found answer, text of 200 bytes",
        &mut || (0..20_000).for_each(|_| _ = black_box(library::check(5, black_box(&answer), &mut working))),
        &mut || (0..20_000).for_each(|_| _ = black_box(reader::check_found(&identity, &key, 5, black_box(&answer)))),
    );
}

fn main() {
    digests();
    tallies();
    stores();
    readers();
}

//! Reads, decodes and packs a chunk by the library (`ours`) or by plain Rust (`rust`), so many times, or tells
//! the picoseconds a number of both.
//!
//! usage: compare read|decode|pack ours|rust DIGITS TIMES
//!        compare read|decode|pack times DIGITS RUNS

#[path = "../kernels/memory.rs"]
mod memory;

use std::hint::black_box;
use std::time::Instant;

unsafe extern "C" {
    fn read_chunk_u64(b: *const u8, n: usize, o: *mut u64, m: usize, times: usize) -> usize;
    fn decode_u64(b: *const u8, n: usize, o: *mut u64, m: usize, times: usize) -> usize;
    fn pack_u64(v: *const u64, n: usize, o: *mut u8, m: usize, times: usize) -> usize;
}

fn word(body: &[u8], start: usize) -> u64 {
    u64::from_le_bytes(body[start..start + 8].try_into().unwrap())
}

fn field(body: &[u8], place: usize, digits: usize) -> u64 {
    if digits == 0 {
        return 0;
    }
    let (start, shift) = (8 * (place / 64), place % 64);
    let mask = u64::MAX >> (64 - digits);
    let low = word(body, start) >> shift;
    if shift + digits <= 64 {
        return low & mask;
    }
    (low | word(body, start + 8) << (64 - shift)) & mask
}

#[inline(never)]
fn read(bytes: &[u8], width: usize, dst: &mut [u64; 1024]) -> Result<(), u8> {
    if bytes.len() < 9 {
        return Err(0);
    }
    let digits = bytes[0] as usize;
    if digits > 8 * width {
        return Err(1);
    }
    if bytes.len() != 9 + 128 * digits {
        return Err(2);
    }
    let base = word(bytes, 1);
    let body = &bytes[9..];
    let mut offsets = [0u64; 1024];
    for j in 0..1024 {
        offsets[j] = field(body, j * digits, digits);
    }
    let low = *offsets.iter().min().unwrap();
    let high = *offsets.iter().max().unwrap();
    if low != 0 || 64 - high.leading_zeros() as usize != digits {
        return Err(3);
    }
    if base.checked_add(high).is_none_or(|n| n > u64::MAX >> (64 - 8 * width)) {
        return Err(4);
    }
    for j in 0..1024 {
        dst[j] = base + offsets[j];
    }
    Ok(())
}

#[inline(never)]
fn decode(bytes: &[u8], dst: &mut [[u8; 8]; 1024]) {
    let (digits, base) = (bytes[0] as usize, word(bytes, 1));
    for j in 0..1024 {
        dst[j] = (base + field(&bytes[9..], j * digits, digits)).to_le_bytes();
    }
}

#[inline(never)]
fn pack(values: &[u64]) -> Vec<u8> {
    let mut out = Vec::new();
    for chunk in values.chunks_exact(1024) {
        let base = *chunk.iter().min().unwrap();
        let digits = 64 - (chunk.iter().max().unwrap() - base).leading_zeros();
        out.reserve(9 + 128 * digits as usize);
        out.push(digits as u8);
        out.extend_from_slice(&base.to_le_bytes());
        let (mut next, mut held) = (0u64, 0u32);
        for n in chunk {
            let offset = n - base;
            next |= offset << held;
            held += digits;
            if held >= 64 {
                out.extend_from_slice(&next.to_le_bytes());
                held -= 64;
                next = (offset >> 1) >> (digits - held - 1);
            }
        }
    }
    out
}

fn numbers(digits: u32) -> Vec<u64> {
    let top = |x: u64| if digits == 0 { 0 } else { x >> (64 - digits) };
    let mut v: Vec<u64> = (0..1023u64).map(|j| top(j.wrapping_mul(0x9e3779b97f4a7c15))).collect();
    v.push(top(u64::MAX));
    v
}

#[unsafe(no_mangle)]
#[inline(never)]
fn measured(args: &[String], values: &[u64], bytes: &[u8], times: usize) -> (Vec<u64>, Vec<u8>) {
    let (mut dst, mut out) = ([0u64; 1024], vec![0u8; 8201]);
    match (args[1].as_str(), args[2].as_str()) {
        ("read", "ours") => unsafe {
            read_chunk_u64(bytes.as_ptr(), bytes.len(), dst.as_mut_ptr(), 1024, times);
        },
        ("read", _) => {
            for _ in 0..times {
                read(black_box(bytes), 8, black_box(&mut dst)).unwrap();
            }
        }
        ("decode", "ours") => unsafe {
            decode_u64(bytes.as_ptr(), bytes.len(), dst.as_mut_ptr(), 1024, times);
        },
        ("decode", _) => {
            let mut records = [[0u8; 8]; 1024];
            for _ in 0..times {
                decode(black_box(bytes), black_box(&mut records));
            }
            dst = records.map(u64::from_le_bytes);
        }
        ("pack", "ours") => unsafe {
            let n = pack_u64(values.as_ptr(), 1024, out.as_mut_ptr(), 8201, times);
            out.truncate(n);
        },
        _ => {
            for _ in 0..times {
                out = pack(black_box(values));
            }
        }
    }
    (dst.to_vec(), out)
}

// The least picoseconds a number of so many short runs, by turns, so that other work on the machine
// changes little.
fn timed(args: &[String], values: &[u64], bytes: &[u8], runs: usize) -> [u128; 2] {
    const TIMES: usize = 100;
    let mut args = args.to_vec();
    let mut least = [u128::MAX; 2];
    for _ in 0..runs {
        for (side, least) in ["ours", "rust"].iter().zip(&mut least) {
            args[2] = side.to_string();
            let start = Instant::now();
            black_box(measured(&args, values, bytes, TIMES));
            *least = (*least).min(start.elapsed().as_nanos() * 1000 / (1024 * TIMES) as u128);
        }
    }
    least
}

fn main() {
    let args: Vec<String> = std::env::args().collect();
    let digits: u32 = args[3].parse().unwrap();
    let times: usize = args[4].parse().unwrap();
    let values = numbers(digits);
    let bytes = pack(&values);
    if args[2] == "times" {
        let [ours, rust] = timed(&args, &values, &bytes, times);
        println!("{ours} {rust}");
        return;
    }
    let (dst, out) = measured(&args, &values, &bytes, times);
    assert!(if args[1] == "pack" { out == bytes } else { dst == values });
}

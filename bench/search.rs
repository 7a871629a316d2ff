// The marker test of a searching position as plain Rust, without contracts: how long a tick takes, best of several rounds.
use std::hint::black_box;
use std::time::Instant;

const LETTERS: [[u8; 5]; 8] = [
    [0x05, 0xD6, 0xB3, 0xC0, 0x8C],
    [0x04, 0x67, 0x5A, 0xDE, 0x7E],
    [0x46, 0xFE, 0x3E, 0xF3, 0x56],
    [0x5A, 0x84, 0x86, 0x80, 0xD0],
    [0xE1, 0x19, 0x2A, 0x51, 0xF2],
    [0xF2, 0x4E, 0x12, 0x4F, 0xD1],
    [0x3D, 0xEE, 0x42, 0x9C, 0xA1],
    [0x22, 0x32, 0xD6, 0x76, 0x5B],
];

const TICKS: u32 = 10_000_000;

const ROUNDS: u32 = 15;

fn marker([a, b, u, v, w]: [u8; 5]) -> u128 {
    let octets = [
        0x9A, 0x4A, 0x26, a, 0x65, 0xB5, 0xD9, b, u, v, w, !b, !u, !v, !w, 0,
    ];
    u128::from_le_bytes(octets)
}

// The nibbles that differ in the octets of a mask.
fn wrong(a: u128, b: u128, mask: u128) -> u32 {
    let differ = (a ^ b) & mask;
    let pairs = differ | (differ >> 1);
    let nibbles = (pairs | (pairs >> 2)) & 0x1111_1111_1111_1111_1111_1111_1111_1111;
    nibbles.count_ones()
}

fn found(markers: &[u128; 8], window: u128) -> Option<usize> {
    const SHARED: u128 = 0xFF_FFFF_00FF_FFFF;
    const OWN: u128 = SHARED << 64;
    // The shared octets are those of any marker.
    if wrong(window, markers[0], SHARED) > 3 {
        return None;
    }
    markers.iter().position(|m| wrong(window, *m, OWN) <= 3)
}

struct Sequence(u64);

impl Sequence {
    fn next(&mut self) -> u64 {
        self.0 ^= self.0 << 13;
        self.0 ^= self.0 >> 7;
        self.0 ^= self.0 << 17;
        self.0
    }
}

// A window that is a marker at first, and then takes in random bits.
fn search(markers: &[u128; 8]) -> u64 {
    let mut sequence = Sequence(1);
    let mut window = markers[0];
    let mut bits = 0;
    let mut count = 0;
    for tick in 0..TICKS {
        if found(markers, window).is_some() {
            count += 1;
        }
        if tick % 64 == 0 {
            bits = sequence.next();
        }
        window = (window >> 1) | (u128::from(bits % 2) << 119);
        bits >>= 1;
    }
    count
}

// The same on windows that have a marker's shared octets and its own at random.
fn search_own(markers: &[u128; 8]) -> u64 {
    let shared = markers[0] % (1 << 64);
    let mut sequence = Sequence(1);
    let mut window = markers[0];
    let mut count = 0;
    for _ in 0..TICKS {
        if found(markers, window).is_some() {
            count += 1;
        }
        window = shared | (u128::from(sequence.next() >> 8) << 64);
    }
    count
}

fn measure(what: &str, work: fn(&[u128; 8]) -> u64) {
    let markers = LETTERS.map(marker);
    let mut least = u128::MAX;
    let mut answer = 0;
    for _ in 0..ROUNDS {
        let start = Instant::now();
        answer = work(black_box(&markers));
        least = least.min(start.elapsed().as_nanos());
    }
    println!("{what}: {} ps, answer {answer}", least * 1000 / u128::from(TICKS));
}

fn main() {
    measure("tick, random bits", search);
    measure("tick, shared octets", search_own);
}

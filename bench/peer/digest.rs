//! Numbers computed from lists, as in `crates/tk_bench/src/digest.rt`.

const FACTOR: u64 = 0x0000_0100_0000_01b3;

pub fn of_numbers(numbers: &[u64]) -> u64 {
    numbers.iter().fold(0, |digest: u64, number| {
        (digest ^ number).wrapping_mul(FACTOR)
    })
}

pub fn of_bytes(bytes: &[u8]) -> u64 {
    bytes.iter().fold(0, |digest: u64, byte| {
        (digest ^ u64::from(*byte)).wrapping_mul(FACTOR)
    })
}

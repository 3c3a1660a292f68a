//! The check of a block, folded: modulo x^4 + x + 1, x^15 is 1, so bits that
//! lie a multiple of 15 apart have the same share, and are added up first.

/// A bit's share, by how many bits are behind it: fifteen, then the same again.
const LIST: [u8; 15] = [
    0b0011, 0b0110, 0b1100, 0b1011, 0b0101, 0b1010, 0b0111, 0b1110, 0b1111, 0b1101, 0b1001, 0b0001,
    0b0010, 0b0100, 0b1000,
];

/// What the check looks up, by the bit of octet 0 at which the block begins.
static TABLES: [Tables; 8] = [
    tables(0),
    tables(1),
    tables(2),
    tables(3),
    tables(4),
    tables(5),
    tables(6),
    tables(7),
];

struct Tables {
    /// The bits that count in the four windows with a check place, as they lie
    /// in memory.
    counted: [u64; 4],
    /// Those of octet 256, moved on by one.
    after: u64,
    /// The share of the sum's first seven bits, whatever the bit before them.
    high: [u8; 256],
    /// That of its last eight.
    low: [u8; 256],
}

const fn tables(o: usize) -> Tables {
    let bit1: u64 = 1 << (63 - o);
    let mut tables = Tables {
        counted: [
            (bit1 - 1).to_be(),
            !(bit1 >> 32).to_be(),
            !(bit1 >> 8).to_be(),
            !(bit1 >> 40).to_be(),
        ],
        after: 0x7F & !(0x7F >> o),
        high: [0; 256],
        low: [0; 256],
    };
    let mut octet = 0;
    while octet < 256 {
        // Behind the sum come 8 + o bits.
        tables.high[octet] = share(octet & 0x7F, 16 + o);
        tables.low[octet] = share(octet, 8 + o);
        octet += 1;
    }
    tables
}

/// An octet's share, by how many bits are behind it.
const fn share(octet: usize, behind: usize) -> u8 {
    let mut share = 0;
    let mut bit = 0;
    while bit < 8 {
        if octet >> bit & 1 == 1 {
            share ^= LIST[(behind + bit) % 15];
        }
        bit += 1;
    }
    share
}

/// As [`crate::chain::check`]. Inline, so that it is compiled with its caller: in
/// this crate it would change how rustc 1.95 compiles the rest, and those counts.
#[inline]
pub fn check(octets: &[u8], o: usize) -> u8 {
    let tables = &TABLES[o];
    let sum = rows(&octets[..256], &tables.counted);
    let sum = sum ^ sum >> 30;
    let mut sum = sum ^ sum >> 15;
    // Behind the rows one more begins: octet 255, and o bits of octet 256.
    sum ^= u64::from(octets[255]) << 7;
    if o > 0 {
        sum ^= u64::from(octets[256]) >> 1 & tables.after;
    }
    tables.high[usize::from((sum >> 8) as u8)] ^ tables.low[usize::from(sum as u8)]
}

/// The sum of 17 rows of 15 octets, its first 60 bits added to its last 60; above
/// them are four bits too many. Check places and what is before the block are 0.
#[inline]
fn rows(octets: &[u8], counted: &[u64; 4]) -> u64 {
    // The rows' first eight octets and their last eight. Check place i is in
    // octet 4i of row 4i.
    let mut first = raw(octets, 0) & counted[0] ^ raw(octets, 60) & counted[1];
    let mut last = raw(octets, 127) & counted[2] ^ raw(octets, 187) & counted[3];
    for r in 0..17 {
        if r != 0 && r != 4 {
            first ^= raw(octets, 15 * r);
        }
        if r != 8 && r != 12 {
            last ^= raw(octets, 15 * r + 7);
        }
    }
    u64::from_be(first) >> 4 ^ u64::from_be(last)
}

/// The 64 bits from octet i on, as they lie in memory.
#[inline]
fn raw(octets: &[u8], i: usize) -> u64 {
    u64::from_ne_bytes(octets[i..i + 8].try_into().unwrap())
}

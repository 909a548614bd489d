//! Damaged bytes of sheets and coordinate files, one kind of damage each.

use crate::random::Random;
use second::number;

/// How many bytes the signature has.
const SIGNATURE: usize = 3;

/// A kind of damage: random bytes from those of a good sheet or coordinate file.
pub type Damage = fn(&mut Random, &[u8]) -> Vec<u8>;

/// All kinds of damage, with names.
pub const DAMAGES: [(&str, Damage); 12] = [
    ("cut off", cut),
    ("something appended", appended),
    ("one bit turned", one_bit),
    ("one byte changed", one_byte),
    ("several bytes changed", several_bytes),
    ("one byte doubled", doubled),
    ("one byte left out", left_out),
    ("two neighbours exchanged", exchanged),
    ("one number changed by 1", one_number),
    ("one number at or past a limit", limit),
    ("one number in a long form", long_form),
    ("random bytes behind the signature", random_bytes),
];

/// A random byte.
fn any_byte(random: &mut Random) -> u8 {
    random.within(0..=255) as u8
}

/// The bytes cut off before one of them.
fn cut(random: &mut Random, bytes: &[u8]) -> Vec<u8> {
    bytes[..random.index(bytes.len())].to_vec()
}

/// One to three more bytes.
fn appended(random: &mut Random, bytes: &[u8]) -> Vec<u8> {
    let mut longer = bytes.to_vec();
    for _ in 0..random.within(1..=3) {
        longer.push(any_byte(random));
    }
    longer
}

/// One bit turned.
fn one_bit(random: &mut Random, bytes: &[u8]) -> Vec<u8> {
    let mut changed = bytes.to_vec();
    changed[random.index(bytes.len())] ^= 1 << random.within(0..=7);
    changed
}

/// One byte that is another one.
fn one_byte(random: &mut Random, bytes: &[u8]) -> Vec<u8> {
    let mut changed = bytes.to_vec();
    changed[random.index(bytes.len())] = any_byte(random);
    changed
}

/// Two to six bytes behind the signature that are others.
fn several_bytes(random: &mut Random, bytes: &[u8]) -> Vec<u8> {
    let mut changed = bytes.to_vec();
    for _ in 0..random.within(2..=6) {
        let i = SIGNATURE + random.index(bytes.len() - SIGNATURE);
        changed[i] = random.within(0..=9) as u8;
    }
    changed
}

/// One byte twice.
fn doubled(random: &mut Random, bytes: &[u8]) -> Vec<u8> {
    let mut longer = bytes.to_vec();
    let i = random.index(bytes.len());
    longer.insert(i, bytes[i]);
    longer
}

/// One byte left out.
fn left_out(random: &mut Random, bytes: &[u8]) -> Vec<u8> {
    let mut shorter = bytes.to_vec();
    shorter.remove(random.index(bytes.len()));
    shorter
}

/// Two neighbours exchanged.
fn exchanged(random: &mut Random, bytes: &[u8]) -> Vec<u8> {
    let mut changed = bytes.to_vec();
    let i = random.index(bytes.len() - 1);
    changed.swap(i, i + 1);
    changed
}

/// The bytes with those of one number replaced by what is given for its value.
fn with_number(
    random: &mut Random,
    bytes: &[u8],
    form: impl Fn(&mut Random, u32) -> Vec<u8>,
) -> Vec<u8> {
    let mut at = SIGNATURE;
    let mut numbers = Vec::new();
    while let Ok((value, next)) = number::read(bytes, at) {
        numbers.push((at, value, next));
        at = next;
    }
    let (at, value, next) = numbers[random.index(numbers.len())];
    [&bytes[..at], &form(random, value), &bytes[next..]].concat()
}

/// The shortest form of a number, which has at most 14 bits.
fn shortest(value: u32) -> Vec<u8> {
    let form = number::form(value).expect("a number of at most 14 bits");
    form.into_iter().collect()
}

/// One number that is one more or one less.
fn one_number(random: &mut Random, bytes: &[u8]) -> Vec<u8> {
    with_number(random, bytes, |random, value| {
        shortest(match random.within(0..=1) {
            0 => value + 1,
            _ => value.saturating_sub(1),
        })
    })
}

/// One number that is at the end of some limits or just past it.
fn limit(random: &mut Random, bytes: &[u8]) -> Vec<u8> {
    let limits = [0, 1, 2, 63, 64, 65, 256, 257, 512, 513, 4095, 4096, 16383];
    with_number(random, bytes, |random, _| {
        shortest(limits[random.index(limits.len())])
    })
}

/// One number in two bytes where one is enough, or in three.
fn long_form(random: &mut Random, bytes: &[u8]) -> Vec<u8> {
    with_number(random, bytes, |random, value| {
        let (low, high) = (value as u8 | 0x80, (value >> 7) as u8);
        match random.within(0..=2) {
            0 => vec![low, high],
            1 => vec![low, high | 0x80],
            _ => vec![low, high | 0x80, 0],
        }
    })
}

/// Random bytes, small as a rule, behind the signature.
fn random_bytes(random: &mut Random, bytes: &[u8]) -> Vec<u8> {
    let mut any = bytes[..SIGNATURE].to_vec();
    for _ in 0..random.index(bytes.len()) {
        let greatest = if random.once_in(8) { 255 } else { 3 };
        any.push(random.within(0..=greatest) as u8);
    }
    any
}

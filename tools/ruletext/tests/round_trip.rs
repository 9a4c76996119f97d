//! Any bytes, shown as a text and read again, are the same bytes.

mod common;

use common::Random;
use ruletext::{show::show, text};

fn same_again(bytes: &[u8]) {
    let shown = show(bytes);
    let book = text::read(&shown).unwrap_or_else(|fault| panic!("{fault} in\n{shown}"));
    assert_eq!(book.bytes(), bytes, "{shown}");
}

fn random_bytes(random: &mut Random, length: usize) -> Vec<u8> {
    (0..length).map(|_| random.byte()).collect()
}

/// A book whose header fits its note and its nodes, which may be wrong in themselves.
fn book(random: &mut Random, most_nodes: usize, most_note: usize) -> Vec<u8> {
    let note = random.below(most_note + 1);
    let nodes = 1 + random.below(most_nodes);
    let short = |number: usize| u16::try_from(number).unwrap().to_le_bytes();
    let long = |number: usize| u32::try_from(number).unwrap().to_le_bytes();
    let mut bytes =
        [1 + random.below(16), 1 + random.below(256), nodes, nodes - 1].map(short).concat();
    bytes.extend([16 + note, 16 + note + 8 * nodes].map(long).concat());
    bytes.extend(random_bytes(random, note));
    for place in 0..nodes {
        let zero_or = |random: &mut Random, limit| random.below(2) * random.below(limit);
        let numbers =
            [random.below(9), random.below(place + 2), zero_or(random, 9), zero_or(random, 3)];
        bytes.extend(numbers.map(short).concat());
    }
    bytes
}

/// One damage: a byte, a header number, a shorter or a longer end.
fn damage(random: &mut Random, bytes: &mut Vec<u8>) {
    let length = bytes.len();
    match random.below(4) {
        0 if length > 0 => bytes[random.below(length)] = random.byte(),
        1 if length >= 16 => {
            let at = 2 * random.below(8);
            let number: u16 = random.one_of(&[0, 1, 15, 16, 17, 24, 255, 512, 4096, u16::MAX]);
            bytes[at..at + 2].copy_from_slice(&number.to_le_bytes());
        }
        2 => bytes.truncate(random.below(length + 1)),
        _ => {
            let more = random.below(20);
            bytes.extend(random_bytes(random, more));
        }
    }
}

#[test]
fn random_strings() {
    let mut random = Random::new(1);
    for _ in 0..10_000 {
        let length = random.below(100);
        same_again(&random_bytes(&mut random, length));
    }
}

#[test]
fn random_strings_with_a_near_offset() {
    let mut random = Random::new(2);
    for _ in 0..10_000 {
        let length = 16 + random.below(100);
        let mut bytes = random_bytes(&mut random, length);
        let offset = u8::try_from(random.below(length + 4)).unwrap();
        bytes[8..12].copy_from_slice(&[offset, 0, 0, 0]);
        bytes[5] = 0;
        same_again(&bytes);
    }
}

#[test]
fn books_and_damaged_books() {
    let mut random = Random::new(3);
    for _ in 0..10_000 {
        let mut bytes = book(&mut random, 12, 20);
        same_again(&bytes);
        for _ in 0..=random.below(3) {
            damage(&mut random, &mut bytes);
            same_again(&bytes);
        }
    }
}

#[test]
fn large_books() {
    let mut random = Random::new(4);
    for _ in 0..30 {
        let mut bytes = book(&mut random, 512, 4080);
        same_again(&bytes);
        damage(&mut random, &mut bytes);
        same_again(&bytes);
    }
}

#[test]
fn more_nodes_than_any_header_counts() {
    let mut bytes = vec![0; 16 + 8 * 70_000];
    bytes[4..6].copy_from_slice(&[255, 255]);
    bytes[8] = 16;
    same_again(&bytes);
}

#[test]
fn every_short_string_of_two_values() {
    for length in 0..=10 {
        for bits in 0..1_u32 << length {
            let bytes: Vec<u8> =
                (0..length).map(|at| 255 * u8::from(bits >> at & 1 == 1)).collect();
            same_again(&bytes);
        }
    }
}

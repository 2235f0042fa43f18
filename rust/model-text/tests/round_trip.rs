// SPDX-License-Identifier: Apache-2.0 OR MIT
//! Bytes to text to bytes gives the same bytes, for every byte string.

use model_text::{to_bytes, to_text};

/// A small generator of random numbers (xorshift), so that a failure can be
/// repeated.
struct Random(u64);

impl Random {
    fn below(&mut self, limit: usize) -> usize {
        self.0 ^= self.0 << 13;
        self.0 ^= self.0 >> 7;
        self.0 ^= self.0 << 17;
        (self.0 % limit as u64) as usize
    }

    fn pick<T: Copy>(&mut self, choices: &[T]) -> T {
        choices[self.below(choices.len())]
    }

    fn text(&mut self) -> Vec<u8> {
        let texts: [&[u8]; 14] = [
            b"",
            b"a",
            b"amount",
            b"Q_Asset",
            b"end",
            b"not",
            b"7",
            b"1_0",
            b"_",
            b"-5",
            b"two words",
            b"quote\" and \\",
            b"\x1F\x7F\xFF\n",
            b"Map<Address, Int>",
        ];
        self.pick(&texts).to_vec()
    }

    fn name(&mut self, tag: u8) -> Vec<u8> {
        let text = self.text();
        field(tag, &text)
    }

    fn expression(&mut self, levels: usize) -> Vec<u8> {
        if levels == 0 || self.below(4) == 0 {
            return match self.below(2) {
                0 => field(0x34 + self.below(4) as u8, &[]),
                _ => {
                    let tag = 0x30 + self.below(4) as u8;
                    self.name(tag)
                }
            };
        }
        let mut content = self.expression(levels - 1);
        let tag = match self.below(6) {
            0 => self.pick(&[0x38, 0x39, 0x3C, 0x3D]),
            1 => {
                content.extend(self.name(0x20));
                0x3A
            }
            2 => {
                content.extend(self.expressions(levels - 1));
                0x3B
            }
            _ => {
                content.extend(self.expression(levels - 1));
                0x40 + self.below(14) as u8
            }
        };
        field(tag, &content)
    }

    fn expressions(&mut self, levels: usize) -> Vec<u8> {
        (0..self.below(3))
            .flat_map(|_| self.expression(levels))
            .collect()
    }

    fn statement(&mut self) -> Vec<u8> {
        let tag = 0x10 + self.below(7) as u8;
        let mut content = match tag {
            0x11 | 0x12 => self.name(0x20),
            _ => Vec::new(),
        };
        content.extend(match tag {
            0x12 => self.expressions(3),
            0x13..=0x15 => [self.expression(2), self.expression(4)].concat(),
            _ => self.expression(5),
        });
        field(tag, &content)
    }

    fn parameter(&mut self) -> Vec<u8> {
        field(0x04, &[self.name(0x20), self.name(0x21)].concat())
    }

    fn item(&mut self) -> Vec<u8> {
        let tag = 1 + self.below(3) as u8;
        let content = match tag {
            1 => {
                let default = if self.below(2) == 0 {
                    self.expression(2)
                } else {
                    Vec::new()
                };
                [self.name(0x20), self.name(0x21), default].concat()
            }
            2 => self.statement(),
            _ => self.entry_content(),
        };
        field(tag, &content)
    }

    fn entry_content(&mut self) -> Vec<u8> {
        let mut content = self.name(0x20);
        for _ in 0..self.below(3) {
            content.extend(self.parameter());
        }
        for _ in 0..self.below(3) {
            let clause = self.pick(&[0x05, 0x06]);
            content.extend(field(clause, &self.expression(4)));
        }
        for _ in 0..self.below(5) {
            content.extend(self.statement());
        }
        content
    }

    fn file(&mut self) -> Vec<u8> {
        (0..self.below(4)).flat_map(|_| self.item()).collect()
    }

    /// Changes, removes or inserts a byte.
    fn damage(&mut self, file: &mut Vec<u8>) {
        let place = self.below(file.len() + 1);
        let tags = [
            0x01, 0x03, 0x10, 0x16, 0x20, 0x33, 0x38, 0x3A, 0x3B, 0x42, 0x00, 0xFF,
        ];
        let byte = self.pick(&tags);
        match self.below(3) {
            0 if place < file.len() => file[place] = byte,
            1 if place < file.len() => drop(file.remove(place)),
            _ => file.insert(place, byte),
        }
    }
}

fn field(tag: u8, content: &[u8]) -> Vec<u8> {
    let length = u16::try_from(content.len()).expect("a short content");
    [&[tag], &length.to_be_bytes()[..], content].concat()
}

fn assert_round_trip(bytes: &[u8]) {
    let text = to_text(bytes);
    match to_bytes(&text) {
        Ok(back) => assert!(
            back == bytes,
            "{bytes:02X?} became {back:02X?} by way of\n{text}"
        ),
        Err(error) => panic!("{error} in the text of {bytes:02X?}:\n{text}"),
    }
}

#[test]
fn all_short_byte_strings() {
    assert_round_trip(&[]);
    for first in 0..=255 {
        assert_round_trip(&[first]);
        for second in 0..=255 {
            assert_round_trip(&[first, second]);
            assert_round_trip(&[first, 0, second]);
            assert_round_trip(&[first, 0, 1, second]);
        }
    }
}

#[test]
fn random_well_formed_files() {
    let mut random = Random(1);
    for _ in 0..5_000 {
        let file = random.file();
        let text = to_text(&file);
        assert!(!text.contains("field") && !text.contains("bytes"), "{text}");
        assert_round_trip(&file);
    }
}

#[test]
fn random_damaged_files() {
    let mut random = Random(2);
    for _ in 0..10_000 {
        let mut file = random.file();
        for _ in 0..=random.below(4) {
            random.damage(&mut file);
        }
        assert_round_trip(&file);
    }
}

#[test]
fn random_byte_strings() {
    let mut random = Random(3);
    for _ in 0..20_000 {
        let length = random.below(40);
        let bytes: Vec<u8> = (0..length)
            .map(|_| random.pick(&[0, 1, 2, 3, 5, 16, 32, 51, 58, 59, 66, 200]))
            .collect();
        assert_round_trip(&bytes);
    }
}

/// Puts an expression into another.
type Wrap<'a> = dyn Fn(&[u8]) -> Vec<u8> + 'a;

/// A guard around `levels` expressions, one inside the other.
fn nested(levels: usize, wrap: impl Fn(&[u8]) -> Vec<u8>) -> Vec<u8> {
    let innermost = field(0x34, &[]);
    let expression = (1..levels).fold(innermost, |inner, _| wrap(&inner));
    field(
        0x03,
        &[field(0x20, b"f"), field(0x10, &expression)].concat(),
    )
}

#[test]
fn deep_nesting() {
    let leaf = field(0x33, b"a");
    let wrappers: [&Wrap<'_>; 5] = [
        &|inner| field(0x38, inner),
        &|inner| field(0x3C, inner),
        &|inner| field(0x3A, &[inner, &field(0x20, b"b")].concat()),
        &|inner| field(0x49, &[inner, &leaf].concat()),
        &|inner| field(0x49, &[&leaf, inner].concat()),
    ];
    for wrap in wrappers {
        for levels in [1, 31, 32, 33, 34, 63, 64, 65, 66, 130, 1_000] {
            assert_round_trip(&nested(levels, wrap));
        }
    }
    assert_round_trip(&nested(10_900, |inner| field(0x38, inner)));
    let entries = (0..9_000).fold(Vec::new(), |inner: Vec<u8>, _| {
        field(0x03, &[field(0x20, b"f"), inner].concat())
    });
    assert_round_trip(&entries);
}

#[test]
fn depth_33_is_still_readable() {
    let text = to_text(&nested(33, |inner| field(0x39, inner)));
    assert_eq!(
        text,
        format!("entry f()\n  guard {}caller\nend\n", "-".repeat(32))
    );
}

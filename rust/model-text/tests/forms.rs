// SPDX-License-Identifier: Apache-2.0 OR MIT
//! What the forms of the text mean, and what is no text of a model.

use model_text::{to_bytes, to_text};

/// The bytes of hexadecimal digits, blanks ignored.
fn hexadecimal(digits: &str) -> Vec<u8> {
    let digits: Vec<u32> = digits
        .chars()
        .filter_map(|digit| digit.to_digit(16))
        .collect();
    digits
        .chunks(2)
        .map(|pair| (pair[0] * 16 + pair[1]) as u8)
        .collect()
}

#[test]
fn the_worked_file_of_66_bytes() {
    let text = "entry f(a: Q_Asset)\n  send_asset(T, caller, a.amount)\nend\n";
    let bytes = hexadecimal(
        "03 00 3F 20 00 01 66 04 00 0E 20 00 01 61 21 00 07 51 5F 41 73 73 65 74 16 00 27 3B 00 24 \
         33 00 0A 73 65 6E 64 5F 61 73 73 65 74 33 00 01 54 34 00 00 3A 00 0D 33 00 01 61 20 00 06 \
         61 6D 6F 75 6E 74",
    );
    assert_eq!(bytes.len(), 66);
    assert_eq!(to_bytes(text).unwrap(), bytes);
    assert_eq!(to_text(&bytes), text);
}

/// Texts in the form that `to_text` writes.
#[test]
fn canonical_texts_stay() {
    let contract = r#"state r: Int
state "odd name": "Map<Address, Int>" = -5
genesis r = 0
genesis guard not r > 5
entry withdraw(a: Q_Asset, n: Int)
  limits in_asset == T
  denies not n > 5
  guard r >= b.amount * 2
  let x = n / 2
  emit Sent(n, caller)
  emit Nothing()
  r -= b.amount * 2
  r = r + checked(wrapping(n) >> 1)
  m.x.credit(caller, "a \"text\"\x0A", date("2026-11-15"), int(""), ident("end"), 1_0)
  (a && b || c) && not (not d == e) == f
  (not a) == (b || c)(native).now
  (-a).amount - (b - c) - -d * (e + f)
end
parameter a: Q_Asset
expression now
text 20 "r"
field 05 {
}
field 34 {
  bytes 01 02
}
field FF {
  bytes 00 00 00 00 00 00 00 00 00 00 00 00 00 00 00 00
  bytes 01
}
field 03 {
  guard a
}
bytes 03 00
"#;
    assert_eq!(to_text(&to_bytes(contract).unwrap()), contract);
}

#[test]
fn operators_group_as_usual() {
    for (loose, explicit) in [
        ("a || b && c", "a || (b && c)"),
        ("a - b - c", "(a - b) - c"),
        ("not a == b", "not (a == b)"),
        ("not a && b", "(not a) && b"),
        ("a + b * c", "a + (b * c)"),
        ("a + b >> c", "(a + b) >> c"),
        ("a >> b < c", "(a >> b) < c"),
        ("a < b == c", "(a < b) == c"),
        ("-a.b", "-(a.b)"),
        ("-a * b", "(-a) * b"),
        ("f(a)(b).c", "((f(a))(b)).c"),
        ("a\n", "  ( # a comment\n a ) # and another\n\n"),
    ] {
        assert_eq!(
            to_bytes(loose).unwrap(),
            to_bytes(explicit).unwrap(),
            "{loose}"
        );
    }
    assert_ne!(
        to_bytes("(not a) == b").unwrap(),
        to_bytes("not a == b").unwrap()
    );
}

#[test]
fn errors_have_a_place() {
    for (text, line, column) in [
        ("guard", 1, 6),
        ("entry f()\n  guard a +\nend", 2, 12),
        ("entry f(\n  a Q_Asset)\nend", 2, 5),
        ("entry f()\n", 2, 1),
        ("state r Int", 1, 9),
        ("a b", 1, 3),
        ("a + not b", 1, 5),
        ("\"open", 1, 6),
        ("\"\\n\"", 1, 2),
        ("bytes 0", 1, 7),
        ("field 3A\n", 1, 9),
        ("text 20 a", 1, 9),
        ("12a", 1, 1),
        ("end", 1, 1),
        ("genesis limits a", 1, 9),
        ("a ; b", 1, 3),
        ("a = b = c", 1, 7),
    ] {
        let error = to_bytes(text).expect_err(text);
        assert_eq!(
            (error.line, error.column),
            (line, column),
            "{text}: {error}"
        );
    }
}

#[test]
fn too_long_and_too_deep_are_errors() {
    let long = format!("\"{}\"", "x".repeat(70_000));
    assert!(to_bytes(&long).is_err());
    let deep = format!("{}a{}", "(".repeat(5_000), ")".repeat(5_000));
    assert!(to_bytes(&deep).is_err());
}

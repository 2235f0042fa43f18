// SPDX-License-Identifier: Apache-2.0 OR MIT
//! `explain FILE`: a model file as text, each payout marked by its cover or by
//! why it has none.

use std::process::ExitCode;
use zevdrak::{check_file, covers, verdict, Cover, Kind, Reason, Verdict, COVERS};

const STATE: u8 = 0x01;
const ENTRY: u8 = 0x03;
const PARAMETER: u8 = 0x04;
const NAME: u8 = 0x20;
const IDENTIFIER: u8 = 0x33;
const CALL: u8 = 0x3B;
/// The tags whose content is fields.
const COMPOSITE: [std::ops::RangeInclusive<u8>; 4] =
    [0x01..=0x06, 0x10..=0x16, 0x38..=0x3D, 0x40..=0x4D];

fn main() -> ExitCode {
    let Some(path) = std::env::args_os().nth(1) else {
        eprintln!("usage: explain FILE");
        return ExitCode::from(2);
    };
    match std::fs::read(&path) {
        Ok(file) => print!("{}", explained(&file)),
        Err(why) => {
            eprintln!("explain: {}: {why}", path.to_string_lossy());
            return ExitCode::FAILURE;
        }
    }
    ExitCode::SUCCESS
}

/// A field: its tag, its content, and all its bytes.
struct Field<'a> {
    tag: u8,
    content: &'a [u8],
    bytes: &'a [u8],
}

/// The whole fields in a row.
fn fields(mut bytes: &[u8]) -> Vec<Field<'_>> {
    let mut fields = Vec::new();
    while let [tag, high, low, rest @ ..] = bytes {
        let length = usize::from(u16::from_be_bytes([*high, *low]));
        let Some(content) = rest.get(..length) else {
            break;
        };
        let (tag, all) = (*tag, &bytes[..3 + length]);
        fields.push(Field {
            tag,
            content,
            bytes: all,
        });
        bytes = &rest[length..];
    }
    fields
}

fn explained(file: &[u8]) -> String {
    if let Err(refusal) = check_file(file) {
        return format!(
            "{}# question {} says no, at byte {}\n",
            model_text::to_text(file),
            refusal.number,
            refusal.place
        );
    }
    let all = fields(file);
    let states: Vec<String> = all.iter().filter(|f| f.tag == STATE).map(name).collect();
    let mut text = String::new();
    let mut number = 0;
    for field in &all {
        match field.tag {
            ENTRY => {
                text += &entry(file, number, field, &states);
                number += 1;
            }
            _ => text += &model_text::to_text(field.bytes),
        }
    }
    text
}

/// The name of a state field.
fn name(field: &Field) -> String {
    let parts = fields(field.content);
    let name = parts.iter().find(|part| part.tag == NAME);
    name.map_or(String::new(), |name| {
        String::from_utf8_lossy(name.content).into_owned()
    })
}

/// An entry's lines, those with payouts marked, and its verdict below.
fn entry(file: &[u8], number: usize, field: &Field, states: &[String]) -> String {
    let mut lent = [0; COVERS];
    let answer = verdict(file, number, &mut lent);
    let found = match answer {
        Verdict::Accepted { payouts, .. } => covers(&lent[..3 * payouts]),
        _ => Vec::new(),
    };
    let mark = |payout: usize| match (answer, found.get(payout)) {
        (_, Some(cover)) => format!("payout {payout}: {}", words(cover, states)),
        (
            Verdict::Rejected {
                payout: failing,
                reason,
            },
            None,
        ) if failing == payout => {
            format!("payout {payout}: NO COVER, {}", why(reason))
        }
        _ => format!("payout {payout}: not decided"),
    };
    let all = model_text::to_text(field.bytes);
    let mut lines: Vec<String> = all.lines().map(str::to_string).collect();
    // One line for each clause and statement, behind the line of the entry.
    let parts = fields(field.content);
    let rows = parts
        .iter()
        .filter(|part| part.tag != NAME && part.tag != PARAMETER);
    let mut payout = 0;
    for (row, part) in rows.enumerate() {
        for _ in 0..payouts(part) {
            if let Some(line) = lines.get_mut(row + 1) {
                *line += &format!("   # {}", mark(payout));
            }
            payout += 1;
        }
    }
    lines.push(match answer {
        Verdict::Accepted { payouts: 1, .. } => format!("# entry {number}: yes, 1 payout"),
        Verdict::Accepted { payouts, .. } => format!("# entry {number}: yes, {payouts} payouts"),
        Verdict::Rejected { payout, .. } => {
            format!("# entry {number}: no, payout {payout} has no cover")
        }
        Verdict::Refused(refusal) => format!(
            "# entry {number}: question {} says no, at byte {}",
            refusal.number, refusal.place
        ),
    });
    lines.join("\n") + "\n"
}

/// How many payouts stand in a field: in a clause there are none.
fn payouts(field: &Field) -> usize {
    if matches!(field.tag, 0x05 | 0x06) || !COMPOSITE.iter().any(|tags| tags.contains(&field.tag)) {
        return 0;
    }
    let parts = fields(field.content);
    let sends = field.tag == CALL
        && parts.len() > 3
        && parts[0].tag == IDENTIFIER
        && parts[0].content == b"send_asset";
    usize::from(sends) + parts.iter().map(payouts).sum::<usize>()
}

fn words(cover: &Cover, states: &[String]) -> String {
    let index = cover.index;
    match cover.kind {
        Kind::EqualDebit => format!("equals caller debit {index}"),
        Kind::EqualParameter => format!("equals asset parameter {index}"),
        Kind::BoundingDebit => format!("bounded by caller debit {index}"),
        Kind::BoundingParameter => format!("bounded by asset parameter {index}"),
        Kind::Reserve => format!("paid by the reserve {}", states[index]),
    }
}

fn why(reason: Reason) -> &'static str {
    match reason {
        Reason::SplitWithoutAmount => "it splits without an amount",
        Reason::ConflictAtEqual => "the equal backing holds another token",
        Reason::AmountTaken => "its amount is taken by an earlier payout",
        Reason::ConflictAtBounding => "the bounding backing holds another token",
        Reason::NoReserve => "no free backing equals or bounds it, and no reserve covers it",
        Reason::ReserveUsed => "its reserve is used by an earlier payout",
    }
}

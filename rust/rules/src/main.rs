// SPDX-License-Identifier: Apache-2.0 OR MIT
//! `rules < file` prints the listing; `rules --reasons < file` prints it with
//! the reasons of rejections.

use std::io::{Read, Write};

fn main() -> std::io::Result<()> {
    let mut file = Vec::new();
    std::io::stdin().read_to_end(&mut file)?;
    let listing = match std::env::args().nth(1).as_deref() {
        Some("--reasons") => rules::listing_with_reasons(&file),
        _ => rules::listing(&file),
    };
    std::io::stdout().write_all(&listing)
}

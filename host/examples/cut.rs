//! Cuts a character map down to some code points; every glyph keeps its number.
//!
//!     cargo run --release --manifest-path host/Cargo.toml --example cut FONT NEW (POINT | @TEXT)...
//!
//! FONT is a TTF or OTF, or a cmap table alone. A POINT is a hexadecimal number; @TEXT names a file whose characters
//! are all taken. Variation forms stay for the selectors among them. NEW gets the new table. What became of each record
//! is printed.
use crustedlane::{fate, new_head, old_head, subset, Answer, FateKind, Pair};
use std::error::Error;

fn number(bytes: &[u8], at: usize, width: usize) -> Option<usize> {
    let part = bytes.get(at..at.checked_add(width)?)?;
    Some(part.iter().fold(0, |n, &b| n << 8 | usize::from(b)))
}

/// A table of a font by its tag.
fn table<'a>(font: &'a [u8], tag: &[u8; 4]) -> Option<&'a [u8]> {
    let count = number(font, 4, 2)?;
    let at = (0..count).map(|k| 12 + 16 * k).find(|&at| font.get(at..at + 4) == Some(tag))?;
    font.get(number(font, at + 8, 4)?..)?.get(..number(font, at + 12, 4)?)
}

/// The code points that the words name, rising.
fn points(words: &[String]) -> Result<Vec<u32>, Box<dyn Error>> {
    let mut points = Vec::new();
    for word in words {
        match word.strip_prefix('@') {
            Some(text) => points.extend(std::fs::read_to_string(text)?.chars().map(u32::from)),
            None => points.push(u32::from_str_radix(word, 16)?),
        }
    }
    points.sort_unstable();
    points.dedup();
    Ok(points)
}

fn main() -> Result<(), Box<dyn Error>> {
    let words: Vec<String> = std::env::args().skip(1).collect();
    let [font, new, wanted @ ..] = &words[..] else {
        return Err("cut FONT NEW (POINT | @TEXT)...".into());
    };
    let font = std::fs::read(font)?;
    let is_font = font.starts_with(b"OTTO") || font.starts_with(b"true") || font.starts_with(&[0, 1, 0, 0]);
    let (source, glyphs) = if is_font {
        let glyphs = table(&font, b"maxp").and_then(|maxp| number(maxp, 4, 2));
        (table(&font, b"cmap").ok_or("no cmap")?, glyphs.ok_or("no maxp")?)
    } else {
        (&font[..], 65_535)
    };

    let kept = points(wanted)?;
    let printed = |code| new_head(source, code).ok().filter(|&g| g > 0).or(old_head(source, code).ok());
    let listed =
        kept.iter().filter_map(|&code| Some(Pair { code, glyph: printed(code).filter(|&g| g > 0)? }));
    let pairs: Vec<Pair> = listed.collect();
    let map: Vec<u16> = (0..glyphs as u16).collect();

    let mut result = Vec::new();
    let mut answer = subset(source, &pairs, &kept, &map, &[], &mut result);
    if let Answer::NoRoom { needed } = answer {
        result.resize(needed, 0);
        answer = subset(source, &pairs, &kept, &map, &[], &mut result);
    }
    if let Answer::Refused(refusal) = answer {
        return Err(refusal.to_string().into());
    }
    std::fs::write(new, &result)?;

    println!("{} of {} points listed, {} bytes", pairs.len(), kept.len(), result.len());
    for record in 0.. {
        let fate = fate(source, &pairs, &kept, &map, &[], record);
        if fate.kind == FateKind::NoSuchRecord {
            break;
        }
        println!("record {record}, ({},{}): {}", fate.platform, fate.encoding, fate.kind);
    }
    Ok(())
}

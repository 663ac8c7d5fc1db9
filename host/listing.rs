//! The listing of a file's bytes, printed by the composed peer by itself (document 01, "A listing,
//! whole").

use crate::peer::{composed, refuse, Counts, Refusal};

/// Of a longer file the first ones count.
pub const MOST_BYTES: usize = 65_536;

pub fn listing(bytes: &[u8]) -> String {
    let counted = &bytes[..bytes.len().min(MOST_BYTES)];
    match accepted(counted) {
        Ok(text) => text,
        Err(refusal) => format!("refused {} {}\n", refusal.number, refusal.place),
    }
}

/// The lines of an accepted table. Refusal 17 comes first, then those of the judge request.
fn accepted(bytes: &[u8]) -> Result<String, Refusal> {
    if bytes.len() % 2 == 1 {
        return refuse(17, bytes.len() / 2);
    }
    let word = |pair: &[u8]| u16::from_le_bytes([pair[0], pair[1]]);
    let words: Vec<u16> = bytes.chunks_exact(2).map(word).collect();
    let judged = composed::judged(&words)?;
    let Counts {
        variables,
        rows,
        chosen,
        transitions,
    } = judged.counts();
    let mut text = format!("accepted {variables} {rows} {chosen} {transitions}\norder");
    put(&mut text, &judged.order);
    for k in 0..transitions {
        let kept = judged.kept(k)?;
        text.push_str(&format!("\n{k} assign"));
        put(&mut text, &judged.assigned(&kept));
        text.push_str(" keep");
        let labels = 0..rows as u16;
        let is_kept = |label: &u16| kept[*label as usize] == 1;
        put(&mut text, &labels.filter(is_kept).collect::<Vec<u16>>());
    }
    text.push('\n');
    Ok(text)
}

/// Labels, each after a space.
fn put(text: &mut String, labels: &[u16]) {
    for label in labels {
        text.push(' ');
        text.push_str(&label.to_string());
    }
}

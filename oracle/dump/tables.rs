// The five tables as a recording brings them, and document 01's rule for a table set.

use crate::lc3::tables::{Set, FLAT};

// Contents in the order of their tags; each has its table's size.
pub type Contents = [Vec<u8>; 5];

fn words(bytes: &[u8]) -> Vec<u16> {
    bytes.chunks_exact(2).map(|pair| u16::from_be_bytes([pair[0], pair[1]])).collect()
}

fn bytes(words: impl IntoIterator<Item = u16>) -> Vec<u8> {
    words.into_iter().flat_map(u16::to_be_bytes).collect()
}

// Each frequency is at least 1, and each row totals 1,024.
fn rows_pass(table: &[u8], width: usize) -> bool {
    words(table).chunks(width).all(|row| {
        let total: u32 = row.iter().map(|n| *n as u32).sum();
        row.iter().all(|n| *n >= 1) && total == 1_024
    })
}

fn fill<T: TryFrom<u16>, const N: usize>(rows: &mut [[T; N]], table: &[u8]) -> Option<()> {
    for (entry, word) in rows.iter_mut().flatten().zip(words(table)) {
        *entry = T::try_from(word).ok()?;
    }
    Some(())
}

// The set, if it passes.
pub fn set_of(contents: &Contents) -> Option<Set> {
    let [lookup, spectral, bits, order, coef] = contents;
    if !lookup.iter().all(|n| *n <= 63) || !rows_pass(spectral, 17) || !rows_pass(order, 8) || !rows_pass(coef, 17) {
        return None;
    }
    let mut set = FLAT;
    set.lookup.copy_from_slice(lookup);
    fill(&mut set.spectral, spectral)?;
    fill(&mut set.bits, bits)?;
    fill(&mut set.order, order)?;
    fill(&mut set.coef, coef)?;
    Some(set)
}

pub fn contents_of(set: &Set) -> Contents {
    let signed = |n: &i16| *n as u16;
    [
        set.lookup.to_vec(),
        bytes(set.spectral.iter().flatten().map(signed)),
        bytes(set.bits.iter().flatten().copied()),
        bytes(set.order.iter().flatten().map(signed)),
        bytes(set.coef.iter().flatten().map(signed)),
    ]
}

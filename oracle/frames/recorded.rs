// Recordings in document 01's tagged form: the standard's table set, and real frames.

use super::answers::Case;
use crate::lc3::tables::{Set, FLAT};
use std::fs;
use std::path::Path;

pub struct Recordings {
    pub set: Set,
    pub frames: Vec<Case>,
}

// The tag and the content of each field.
fn fields(bytes: &[u8]) -> Option<Vec<(u8, &[u8])>> {
    let (mut list, mut at) = (Vec::new(), 0);
    while at < bytes.len() {
        let length = u16::from_be_bytes([*bytes.get(at + 1)?, *bytes.get(at + 2)?]) as usize;
        list.push((bytes[at], bytes.get(at + 3..at + 3 + length)?));
        at += 3 + length;
    }
    Some(list)
}

// Rows of a table, each entry two bytes.
fn put<T: TryFrom<u16>, const N: usize>(rows: &mut [[T; N]], bytes: &[u8]) -> Option<()> {
    if bytes.len() != 2 * N * rows.len() {
        return None;
    }
    for (entry, pair) in rows.iter_mut().flatten().zip(bytes.chunks_exact(2)) {
        *entry = T::try_from(u16::from_be_bytes([pair[0], pair[1]])).ok()?;
    }
    Some(())
}

fn tables(bytes: &[u8]) -> Option<Set> {
    let mut set = FLAT;
    for (tag, content) in fields(bytes)? {
        match tag {
            0x10 => set.lookup = content.try_into().ok()?,
            0x11 => put(&mut set.spectral, content)?,
            0x12 => put(&mut set.bits, content)?,
            0x13 => put(&mut set.order, content)?,
            0x14 => put(&mut set.coef, content)?,
            _ => return None,
        }
    }
    Some(set)
}

fn frames(bytes: &[u8]) -> Option<Vec<Case>> {
    let (mut list, mut of) = (Vec::new(), None);
    for (tag, content) in fields(bytes)? {
        match (tag, content, of) {
            (0x01, [fs_ind @ 0..=4, duration @ 0..=1, 0..=1], _) => of = Some((*fs_ind as usize, *duration as usize)),
            (0x02, frame, Some((fs_ind, duration))) => {
                let mut case = Case { fs_ind, duration, frame: frame.to_vec(), room: 0, real: true };
                case.room = case.ne();
                list.push(case);
            }
            (0x10..=0x14, _, _) => {}
            _ => return None,
        }
    }
    Some(list)
}

impl Recordings {
    pub fn of(folder: &str) -> Result<Self, String> {
        let whole = |path: &Path| fs::read(path).map_err(|e| format!("{}: {}", path.display(), e));
        let folder = Path::new(folder);
        let path = folder.join("tables.bin");
        let set = tables(&whole(&path)?).ok_or(format!("{}: this is no table set", path.display()))?;
        let entries = fs::read_dir(folder).map_err(|e| format!("{}: {}", folder.display(), e))?;
        let mut paths: Vec<_> = entries.flatten().map(|entry| entry.path()).collect();
        paths.retain(|p| p.extension().is_some_and(|e| e == "bin") && *p != path);
        paths.sort();
        let mut all = Vec::new();
        for path in &paths {
            all.extend(frames(&whole(path)?).ok_or(format!("{}: this is no recording", path.display()))?);
        }
        if all.is_empty() {
            return Err(format!("{}: there is no frame", folder.display()));
        }
        Ok(Recordings { set, frames: all })
    }
}

// The tagged form, by document 01: the fields one behind the other, and the offset of the first malformed one.

// a field is complete within so many bytes of the input
pub const MOST: usize = 65_536;
// the largest length of a field
pub const LONGEST: usize = 4_096;
// what the five tables take, in the order of their tags
pub const SIZES: [usize; 5] = [4_096, 2 * 64 * 17, 2 * 64 * 17, 2 * 2 * 8, 2 * 8 * 17];

pub enum Field<'a> {
    Configuration([u8; 3]),
    Frame(&'a [u8]),
    // its place among the five
    Table(usize, &'a [u8]),
}

pub struct Walk<'a> {
    input: &'a [u8],
    at: usize,
    configured: bool,
    tables: [bool; 5],
}

impl<'a> Walk<'a> {
    pub fn new(input: &'a [u8]) -> Self {
        Walk { input, at: 0, configured: false, tables: [false; 5] }
    }

    // The next field; an error is the offset of a malformed one; None is the input's end.
    pub fn next(&mut self) -> Option<Result<Field<'a>, usize>> {
        if self.at == self.input.len() {
            return None;
        }
        Some(self.field().ok_or(self.at))
    }

    fn field(&mut self) -> Option<Field<'a>> {
        let (tag, content) = front(self.input, self.at)?;
        if content.len() > LONGEST {
            return None;
        }
        let field = match tag {
            0x01 => {
                let configuration = Field::Configuration(content.try_into().ok()?);
                self.configured = true;
                configuration
            }
            0x02 if self.configured && self.tables == [true; 5] => Field::Frame(content),
            0x10..=0x14 => {
                let place = tag as usize - 0x10;
                if self.tables[place] || content.len() != SIZES[place] {
                    return None;
                }
                self.tables[place] = true;
                Field::Table(place, content)
            }
            _ => return None,
        };
        self.at += 3 + content.len();
        Some(field)
    }
}

// Tag and content of what stands at an offset, if it is complete within the bytes that count.
fn front(input: &[u8], at: usize) -> Option<(u8, &[u8])> {
    let counted = &input[..input.len().min(MOST)];
    let header = counted.get(at..at + 3)?;
    let length = u16::from_be_bytes([header[1], header[2]]) as usize;
    Some((header[0], counted.get(at + 3..at + 3 + length)?))
}

// A recording with the reading byte of each configuration put to 0, up to the first field that is not complete.
pub fn in_crate_reading(mut bytes: Vec<u8>) -> Vec<u8> {
    let mut at = 0;
    while let Some((tag, content)) = front(&bytes, at) {
        let length = content.len();
        if (tag, length) == (0x01, 3) {
            bytes[at + 5] = 0;
        }
        at += 3 + length;
    }
    bytes
}

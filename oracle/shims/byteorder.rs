// For the crate byteorder: the big-endian reads that the reader uses; as there, a slice that is too short panics.

pub trait ByteOrder {
    fn read_u16(buf: &[u8]) -> u16;
    fn read_u24(buf: &[u8]) -> u32;
    fn read_u32(buf: &[u8]) -> u32;
}

pub enum BigEndian {}

impl ByteOrder for BigEndian {
    fn read_u16(buf: &[u8]) -> u16 {
        u16::from_be_bytes([buf[0], buf[1]])
    }

    fn read_u24(buf: &[u8]) -> u32 {
        u32::from_be_bytes([0, buf[0], buf[1], buf[2]])
    }

    fn read_u32(buf: &[u8]) -> u32 {
        u32::from_be_bytes([buf[0], buf[1], buf[2], buf[3]])
    }
}

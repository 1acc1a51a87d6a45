// For the crate's `tables/`: the names that the six files use, over a table set that is lent at run time.

use std::cell::UnsafeCell;
use std::ops::Deref;

pub const WIDE: usize = 17;
pub const ORDERS: usize = 8;

// A table set; cumulatives are its running sums.
#[derive(Clone)]
pub struct Set {
    pub lookup: [u8; 4096],
    pub spectral: [[i16; WIDE]; 64],
    // unsigned, so that any 16-bit number counts as itself
    pub bits: [[u16; WIDE]; 64],
    pub order: [[i16; ORDERS]; 2],
    pub coef: [[i16; WIDE]; 8],
}

// The flat set, in force until another is lent.
pub const FLAT: Set = {
    let mut lookup = [0; 4096];
    let mut i = 0;
    while i < 4096 {
        lookup[i] = (i % 64) as u8;
        i += 1;
    }
    let mut row = [60; WIDE];
    row[0] = 64;
    let mut bits = [8383; WIDE];
    bits[0] = 8192;
    Set { lookup, spectral: [row; 64], bits: [bits; 64], order: [[128; ORDERS]; 2], coef: [row; 8] }
};

const fn sums<const ROWS: usize, const N: usize>(rows: &[[i16; N]; ROWS]) -> [[i16; N]; ROWS] {
    let mut out = [[0; N]; ROWS];
    let mut r = 0;
    while r < ROWS {
        let mut k = 1;
        while k < N {
            out[r][k] = out[r][k - 1] + rows[r][k - 1];
            k += 1;
        }
        r += 1;
    }
    out
}

// A table that reads as a constant does and can be replaced between calls.
pub struct Table<T>(UnsafeCell<T>);

// the program has one thread
unsafe impl<T> Sync for Table<T> {}

impl<T> Table<T> {
    const fn new(value: T) -> Self {
        Table(UnsafeCell::new(value))
    }

    fn replace(&self, value: T) {
        // only `lend` comes here, and no call into the six files is under way then
        unsafe { *self.0.get() = value }
    }
}

impl<T> Deref for Table<T> {
    type Target = T;

    fn deref(&self) -> &T {
        unsafe { &*self.0.get() }
    }
}

// Puts a table set in force.
pub fn lend(set: &Set) {
    use spectral_data_tables::*;
    use temporal_noise_shaping_tables::*;
    AC_SPEC_LOOKUP.replace(set.lookup);
    AC_SPEC_FREQ.replace(set.spectral);
    AC_SPEC_CUMFREQ.replace(sums(&set.spectral));
    AC_SPEC_BITS.replace(set.bits);
    AC_TNS_ORDER_FREQ.replace(set.order);
    AC_TNS_ORDER_CUMFREQ.replace(sums(&set.order));
    AC_TNS_COEF_FREQ.replace(set.coef);
    AC_TNS_COEF_CUMFREQ.replace(sums(&set.coef));
}

pub mod spectral_data_tables {
    use super::{sums, Table, FLAT, WIDE};

    pub static AC_SPEC_LOOKUP: Table<[u8; 4096]> = Table::new(FLAT.lookup);
    pub static AC_SPEC_FREQ: Table<[[i16; WIDE]; 64]> = Table::new(FLAT.spectral);
    pub static AC_SPEC_CUMFREQ: Table<[[i16; WIDE]; 64]> = Table::new(sums(&FLAT.spectral));
    pub static AC_SPEC_BITS: Table<[[u16; WIDE]; 64]> = Table::new(FLAT.bits);
}

pub mod temporal_noise_shaping_tables {
    use super::{sums, Table, FLAT, ORDERS, WIDE};

    pub const MAXLAG: usize = 8;
    pub const TNS_NUMFILTERS_MAX: usize = 2;
    pub static AC_TNS_ORDER_FREQ: Table<[[i16; ORDERS]; 2]> = Table::new(FLAT.order);
    pub static AC_TNS_ORDER_CUMFREQ: Table<[[i16; ORDERS]; 2]> = Table::new(sums(&FLAT.order));
    pub static AC_TNS_COEF_FREQ: Table<[[i16; WIDE]; 8]> = Table::new(FLAT.coef);
    pub static AC_TNS_COEF_CUMFREQ: Table<[[i16; WIDE]; 8]> = Table::new(sums(&FLAT.coef));
}

pub mod spec_noise_shape_quant_tables {
    // by shape: the bits of the gain that are sent apart, and those that go into the joint index
    pub const SNS_GAIN_MSB_BITS: [usize; 4] = [1, 1, 2, 2];
    pub const SNS_GAIN_LSB_BITS: [usize; 4] = [0, 1, 0, 1];
}

// For the crate num_traits: what is called on a float literal, whose type is not fixed yet; the rest is std's own. The
// power may be lent: the quantiser's gain is the one that the six files take, so that it can be any number.

use std::cell::Cell;

thread_local! {
    static LENT: Cell<Option<f32>> = const { Cell::new(None) };
}

// What the call takes for every power.
pub fn with_power<R>(power: f32, call: impl FnOnce() -> R) -> R {
    LENT.with(|lent| lent.set(Some(power)));
    let result = call();
    LENT.with(|lent| lent.set(None));
    result
}

pub mod real {
    use super::LENT;
    use std::cell::Cell;

    pub trait Real: Sized {
        fn min(self, other: Self) -> Self;
        fn max(self, other: Self) -> Self;
        fn powf(self, n: Self) -> Self;
    }

    macro_rules! real {
        ($($float:ident)*) => {$(
            impl Real for $float {
                fn min(self, other: Self) -> Self {
                    $float::min(self, other)
                }

                fn max(self, other: Self) -> Self {
                    $float::max(self, other)
                }

                fn powf(self, n: Self) -> Self {
                    match LENT.with(Cell::get) {
                        Some(power) => power as $float,
                        None => $float::powf(self, n),
                    }
                }
            }
        )*};
    }
    real!(f32 f64);
}

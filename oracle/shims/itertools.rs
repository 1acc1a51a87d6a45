// For the crate itertools: `tuples`, by four as the energies take it; items left over are dropped, as there.

pub trait Itertools: Iterator + Sized {
    fn tuples(self) -> Fours<Self> {
        Fours(self)
    }
}

impl<I: Iterator> Itertools for I {}

pub struct Fours<I>(I);

impl<I: Iterator> Iterator for Fours<I> {
    type Item = (I::Item, I::Item, I::Item, I::Item);

    fn next(&mut self) -> Option<Self::Item> {
        Some((self.0.next()?, self.0.next()?, self.0.next()?, self.0.next()?))
    }
}

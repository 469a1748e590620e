//! Stand-in for `itertools`: the one function that the crate uses, for tuples of one.

pub trait Itertools: Iterator {
    /// The only item, if there is exactly one.
    fn collect_tuple(mut self) -> Option<(Self::Item,)>
    where
        Self: Sized,
    {
        match (self.next(), self.next()) {
            (Some(only), None) => Some((only,)),
            _ => None,
        }
    }
}

impl<I: Iterator> Itertools for I {}

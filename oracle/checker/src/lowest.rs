//! "Where several lists, rules or trees refuse, the lowest of their numbers is given."

/// Collects the refusals of one stage.
#[derive(Default)]
pub struct Lowest {
    number: Option<u32>,
}

impl Lowest {
    /// The value of a part that passes; the number of one that refuses is remembered.
    pub fn keep<T>(&mut self, result: Result<T, u32>) -> Option<T> {
        match result {
            Ok(value) => Some(value),
            Err(number) => {
                self.number = Some(self.number.map_or(number, |lowest| lowest.min(number)));
                None
            }
        }
    }

    /// Whether no part refused.
    pub fn end(self) -> Result<(), u32> {
        self.number.map_or(Ok(()), Err)
    }
}

//! Stand-in for `cov_mark`: marks that the crate's own tests look for, which are not run here.

#[macro_export]
macro_rules! hit {
    ($mark:ident) => {};
}

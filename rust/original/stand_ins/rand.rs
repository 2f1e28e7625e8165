//! Stands for the crate `rand`: the one method that the original names. Nothing that is compared calls it.

pub trait Rng {
    fn random<T>(&mut self) -> T;
}

//! The trait `Float` of num-traits with the method `clamp`, which Debian's version 0.2.15 does not have yet.

pub trait Float: real::Float {
    /// `min` below it, `max` above it, else the number itself: NaN and −0 pass.
    fn clamp(self, min: Self, max: Self) -> Self {
        real::clamp(self, min, max)
    }
}

impl<T: real::Float> Float for T {}

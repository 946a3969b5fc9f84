//! Stands in for statrs: the trait of a density and the normal distribution, so that bio's continuous module compiles.

pub mod distribution {
    use std::f64::consts::PI;

    /// A distribution with a density.
    pub trait Continuous<K, T> {
        /// The density at x.
        fn pdf(&self, x: K) -> T;
    }

    /// The normal distribution.
    #[derive(Clone, Copy, Debug, PartialEq)]
    pub struct Normal {
        pub mean: f64,
        pub standard_deviation: f64,
    }

    impl Continuous<f64, f64> for Normal {
        fn pdf(&self, x: f64) -> f64 {
            let d = (x - self.mean) / self.standard_deviation;
            (-0.5 * d * d).exp() / ((2.0 * PI).sqrt() * self.standard_deviation)
        }
    }
}

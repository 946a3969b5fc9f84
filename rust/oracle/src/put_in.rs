//! What is put in the place of bio's `fastexp`, and of the library's ln, in two of the modes.

/// Rust's own exp.
pub mod library {
    pub trait FastExp {
        fn fastexp(&self) -> f64;
    }

    impl FastExp for f64 {
        fn fastexp(&self) -> f64 {
            self.exp()
        }
    }
}

/// The kernels of RULES 4. Outside its domain each gives NaN, as there is no refusal inside bio.
pub mod kernels {
    use reference::leaves::{exp, ln};
    use reference::{kernels, Answer};

    pub trait FastExp {
        fn fastexp(&self) -> f64;
        fn kernel_ln(&self) -> f64;
        fn kernel_ln_1p(&self) -> f64;
        fn kernel_exp_m1(&self) -> f64;
    }

    impl FastExp for f64 {
        fn fastexp(&self) -> f64 {
            value(exp(*self))
        }

        fn kernel_ln(&self) -> f64 {
            value(ln(*self))
        }

        fn kernel_ln_1p(&self) -> f64 {
            (1.0 + self).kernel_ln()
        }

        fn kernel_exp_m1(&self) -> f64 {
            -kernels::one_minus_exp(*self)
        }
    }

    fn value(answer: Answer) -> f64 {
        if answer.refusal == 0 {
            answer.value
        } else {
            f64::NAN
        }
    }
}

//! Stand-in for the crate rustfft, with the names that sync.rs and dsp.rs use.
//!
//! Its transform computes nothing. It keeps what it was given, so that a test
//! can look at the filled window, and hands back the spectrum that the test
//! injected beforehand, so that a test decides what `has_sync_at` sees.

use num_complex::Complex;
use std::cell::RefCell;
use std::marker::PhantomData;
use std::sync::Arc;

/// The part of the crate num_complex that is used.
pub mod num_complex {
    /// A pair of real and imaginary part.
    #[derive(Clone, Copy, Debug, Default, PartialEq)]
    pub struct Complex<T> {
        /// Real part.
        pub re: T,
        /// Imaginary part.
        pub im: T,
    }
}

thread_local! {
    static SPECTRUM: RefCell<Vec<Complex<f32>>> = const { RefCell::new(Vec::new()) };
    static SEEN: RefCell<Vec<Complex<f32>>> = const { RefCell::new(Vec::new()) };
}

/// From now on the transform hands back these pairs, and zeros after them.
pub fn inject(spectrum: &[Complex<f32>]) {
    SPECTRUM.with_borrow_mut(|held| {
        held.clear();
        held.extend_from_slice(spectrum);
    });
}

/// What the last transform of this thread was given.
#[must_use]
pub fn seen() -> Vec<Complex<f32>> {
    SEEN.with_borrow(Clone::clone)
}

/// A planned transform.
pub trait Fft<T> {
    /// Transform `buffer` in place.
    fn process_with_scratch(&self, buffer: &mut [Complex<T>], scratch: &mut [Complex<T>]);
    /// Length of the scratch that the transform needs.
    fn get_inplace_scratch_len(&self) -> usize;
}

struct Injected;

impl Fft<f32> for Injected {
    fn process_with_scratch(&self, buffer: &mut [Complex<f32>], _scratch: &mut [Complex<f32>]) {
        SEEN.with_borrow_mut(|seen| {
            seen.clear();
            seen.extend_from_slice(buffer);
        });
        SPECTRUM.with_borrow(|spectrum| {
            let n = spectrum.len().min(buffer.len());
            buffer[..n].copy_from_slice(&spectrum[..n]);
            buffer[n..].fill(Complex::default());
        });
    }

    fn get_inplace_scratch_len(&self) -> usize {
        0
    }
}

/// Plans transforms.
#[derive(Default)]
pub struct FftPlanner<T>(PhantomData<T>);

impl<T> FftPlanner<T> {
    /// A planner.
    #[must_use]
    pub fn new() -> Self {
        Self(PhantomData)
    }
}

impl FftPlanner<f32> {
    /// A transform of any length.
    pub fn plan_fft_forward(&mut self, _len: usize) -> Arc<dyn Fft<f32>> {
        Arc::new(Injected)
    }
}

//! Probe flags from sound: the proved window and decision around a Fourier
//! transform of the host's (kissfft).

use funnelivy::{has_sync, sync_window, Refusal};

#[repr(C)]
#[derive(Clone, Copy)]
struct Complex {
    re: f32,
    im: f32,
}

#[repr(C)]
struct Plan {
    _private: [u8; 0],
}

extern "C" {
    fn kiss_fft_alloc(n: i32, inverse: i32, mem: *mut u64, len: *mut usize) -> *mut Plan;
    fn kiss_fft(plan: *mut Plan, from: *const Complex, to: *mut Complex);
}

const PAIRS: usize = 256;
/// Pairs of a spectrum that the decision takes.
const HALF: usize = PAIRS / 2 + 1;
/// Samples of a flag.
pub const STRIDE: usize = 4;
/// Samples that a window reaches past its centre.
const REACH: usize = 8;

/// Finds probe flags in sound.
pub struct Prober {
    // The plan stands in this memory, which never moves while it is used.
    memory: Vec<u64>,
}

impl Prober {
    /// Plans the transform.
    ///
    /// # Panics
    /// Where the library makes no plan.
    #[must_use]
    pub fn new() -> Self {
        let mut bytes = 0_usize;
        // SAFETY: without memory the call only says how many bytes it needs.
        unsafe { kiss_fft_alloc(256, 0, std::ptr::null_mut(), &mut bytes) };
        let mut memory = vec![0_u64; bytes.div_ceil(8)];
        // SAFETY: the memory has at least the bytes that were asked for.
        let plan = unsafe { kiss_fft_alloc(256, 0, memory.as_mut_ptr(), &mut bytes) };
        assert!(!plan.is_null(), "no plan for a transform of {PAIRS} pairs");
        Self { memory }
    }

    fn transform(&mut self, from: &[f32; 2 * PAIRS]) -> [f32; 2 * PAIRS] {
        let mut to = [0.0_f32; 2 * PAIRS];
        // SAFETY: the plan, at the front of the memory, is for 256 pairs; both arrays hold 256 pairs of f32,
        // which is what `kiss_fft_cpx` is.
        unsafe {
            kiss_fft(
                self.memory.as_mut_ptr().cast::<Plan>(),
                from.as_ptr().cast::<Complex>(),
                to.as_mut_ptr().cast::<Complex>(),
            );
        }
        to
    }

    /// The flag numbered `p` of sound whose first sample is number 0. It hears
    /// samples 4p - 6 to 4p + 9; where the sound has none it hears silence.
    ///
    /// # Errors
    /// Refusal 8 for a sample that is not finite or beyond 1.
    pub fn flag(&mut self, sound: &[f32], p: usize) -> Result<u8, Refusal> {
        let centre = p * STRIDE + STRIDE / 2;
        // Only the samples near the centre are handed on, so that each is
        // looked at a few times and not once a flag.
        let from = centre.saturating_sub(REACH);
        let to = (centre + REACH).min(sound.len());
        let near = sound.get(from..to).unwrap_or(&[]);
        let mut buffer = [0.0_f32; 2 * PAIRS];
        sync_window(near, (centre - from) as u64, &mut buffer)?;
        let spectrum = self.transform(&buffer);
        Ok(u8::from(has_sync(&spectrum[..2 * HALF], 0.0)?))
    }

    /// All flags of a sound, each with four samples after the first four:
    /// flag p comes with samples 4p + 4 to 4p + 7.
    ///
    /// # Errors
    /// Refusal 8 for a sample that is not finite or beyond 1.
    pub fn flags(
        &mut self,
        sound: &[f32],
        mut progress: impl FnMut(usize, usize),
    ) -> Result<Vec<u8>, Refusal> {
        let count = (sound.len() / STRIDE).saturating_sub(1);
        let mut flags = Vec::with_capacity(count);
        for p in 0..count {
            if p % 65_536 == 0 {
                progress(p, count);
            }
            flags.push(self.flag(sound, p)?);
        }
        progress(count, count);
        Ok(flags)
    }
}

impl Default for Prober {
    fn default() -> Self {
        Self::new()
    }
}

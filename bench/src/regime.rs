//! Tells a quiet core from a busy one. On a machine that is shared, a core has two speeds: a loop of independent additions takes either its
//! least time or about twice that, from one moment to the next. Quiet, the searches wait on their chains of divisions and multiplications; busy,
//! they wait on the count of their instructions. So a ratio taken in one says little of the other.
use std::arch::asm;
use std::hint::black_box;
use std::time::Instant;

/// Seconds of a short loop of additions that do not wait on each other.
#[inline(never)]
fn calibration() -> f64 {
    let t = Instant::now();
    // SAFETY: only the registers that are named change.
    unsafe {
        asm!(
            "2:", "add rax, 1", "add rcx, 1", "add rdx, 1", "add rsi, 1", "add rdi, 1", "add r8, 1", "add r9, 1", "add r10, 1",
            "add rax, 1", "add rcx, 1", "add rdx, 1", "add rsi, 1", "add rdi, 1", "add r8, 1", "add r9, 1", "add r10, 1", "dec r11", "jnz 2b",
            inout("r11") 1000u64 => _, out("rax") _, out("rcx") _, out("rdx") _, out("rsi") _, out("rdi") _, out("r8") _, out("r9") _, out("r10") _,
            options(nomem, nostack)
        );
    }
    t.elapsed().as_secs_f64()
}

/// The seconds of the segments that were timed on a quiet core, and on a busy one.
#[derive(Clone, Default)]
pub struct Times {
    pub quiet: Vec<f64>,
    pub busy: Vec<f64>,
}

/// The number that a share of them lies below, or NaN where there is none.
fn quantile(v: &[f64], share: f64) -> f64 {
    let mut v = v.to_vec();
    v.sort_by(f64::total_cmp);
    v.get((v.len() as f64 * share) as usize).copied().unwrap_or(f64::NAN)
}

/// The middle one, or NaN where there is none.
pub fn median(v: &[f64]) -> f64 {
    quantile(v, 0.5)
}

impl Times {
    /// Quiet: what a tenth of the segments lies below, since whatever still disturbs them only adds. Busy: the middle one.
    pub fn figures(&self) -> [f64; 2] {
        [quantile(&self.quiet, 0.1), median(&self.busy)]
    }

    pub fn counts(&self) -> [usize; 2] {
        [self.quiet.len(), self.busy.len()]
    }
}

/// What the calibration takes on this machine when nothing disturbs it.
pub struct Watch {
    least: f64,
}

impl Watch {
    pub fn new() -> Watch {
        Watch { least: (0..20_000).map(|_| calibration()).fold(f64::INFINITY, f64::min) }
    }

    /// Times one segment. Quiet: the calibration before it and the one after it took at most 1.25 of the least; busy: both took at least
    /// 1.6 of it. What lies between, or changed, is dropped.
    pub fn time<T>(&self, to: &mut Times, f: impl FnOnce() -> T) -> T {
        let before = calibration();
        let t = Instant::now();
        let answer = black_box(f());
        let seconds = t.elapsed().as_secs_f64();
        let after = calibration();
        if before.max(after) <= 1.25 * self.least {
            to.quiet.push(seconds);
        } else if before.min(after) >= 1.6 * self.least {
            to.busy.push(seconds);
        }
        answer
    }
}

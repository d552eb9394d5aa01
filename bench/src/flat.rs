//! The L1 search as flat loops over buffers that are lent: the same operations on each number as the Rust module, loops fused or
//! split, nothing allocated and nothing reordered inside one number. It is the mark that the port's speed is held to.

/// What a search counted.
#[derive(Default)]
#[allow(dead_code)]
pub struct Extra {
    pub first_gap: f64,
    pub best_gap: f64,
    pub improvements: u64,
    pub reason: u32,
    pub iter_gap: f64,
    pub iter_pobj: f64,
}

pub struct Ws { v: Vec<Vec<f64>> }
impl Ws { pub fn new(n: usize) -> Ws { Ws { v: (0..24).map(|_| vec![0.0; n + 8]).collect() } } }
const G1: [f64; 3] = [2.0, -1.0, 0.0];
const G2: [f64; 3] = [6.0, -4.0, 1.0];
/// z is padded: z[2 + i], two zeros either side.
#[inline(always)]
fn matvec<const K: usize>(m: usize, z: &[f64], out: &mut [f64]) {
    let z = &z[..m + 4];
    let out = &mut out[..m];
    if K == 1 { for i in 0..m { out[i] = ((0.0 + -1.0 * z[i + 1]) + 2.0 * z[i + 2]) + -1.0 * z[i + 3]; } }
    else { for i in 0..m { out[i] = ((((0.0 + 1.0 * z[i]) + -4.0 * z[i + 1]) + 6.0 * z[i + 2]) + -4.0 * z[i + 3]) + 1.0 * z[i + 4]; } }
}
/// returns (P, G); x written
#[inline(always)]
fn cert<const K: usize>(m: usize, y: &[f64], dy: &[f64], z: &[f64], lam: f64, x: &mut [f64], dtz: &mut [f64], zc: &mut [f64], dtc: &mut [f64], dx: &mut [f64]) -> (f64, f64) {
    let n = m + K;
    let (y, x, dtz, dtc, z, zc, dx, dy) = (&y[..n], &mut x[..n], &mut dtz[..n], &mut dtc[..n], &z[..m + 4], &mut zc[..m + 4], &mut dx[..m], &dy[..m]);
    for i in 0..m { let v = z[i + 2]; let v = if v < -lam { -lam } else { v }; zc[i + 2] = if v > lam { lam } else { v }; }
    if K == 1 { for j in 0..n { dtz[j] = z[j + 1] - z[j + 2]; dtc[j] = zc[j + 1] - zc[j + 2]; x[j] = y[j] - dtz[j]; } }
    else { for j in 0..n { dtz[j] = (z[j] - z[j + 1]) - (z[j + 1] - z[j + 2]); dtc[j] = (zc[j] - zc[j + 1]) - (zc[j + 1] - zc[j + 2]); x[j] = y[j] - dtz[j]; } }
    if K == 1 { for i in 0..m { dx[i] = (x[i + 1] - x[i]).abs(); } } else { for i in 0..m { dx[i] = ((x[i + 2] - x[i + 1]) - (x[i + 1] - x[i])).abs(); } }
    let (mut a, mut b, mut c, mut d) = (0.0, 0.0, 0.0, 0.0);
    for i in 0..m { a += dtz[i] * dtz[i]; b += dtc[i] * dtc[i]; c += dx[i]; d += zc[i + 2] * dy[i]; }
    for i in m..n { a += dtz[i] * dtz[i]; b += dtc[i] * dtc[i]; }
    (0.5 * a + lam * c, -0.5 * b + d)
}
/// forward, diagonal, back; the diagonal is g0 + s[i]. false on a bad pivot
#[inline(always)]
fn solve<const K: usize>(m: usize, s: &[f64], rhs: &[f64], x: &mut [f64], l1: &mut [f64], l2: &mut [f64], d: &mut [f64]) -> bool {
    let (s, rhs, x, l1, l2, d) = (&s[..m], &rhs[..m], &mut x[..m], &mut l1[..m], &mut l2[..m], &mut d[..m]);
    if K == 1 {
        let mut pd = 0.0; let mut px = 0.0;
        for i in 0..m {
            let mut di = G1[0] + s[i];
            let mut xi = rhs[i];
            if i > 0 { let l = -1.0 / pd; l1[i] = l; di -= l * l * pd; xi -= l * px; }
            if !(di.is_finite() && di > 0.0) { return false; }
            d[i] = di; pd = di; px = xi; x[i] = xi;
        }
        for i in 0..m { x[i] /= d[i]; }
        let mut nx = x[m - 1];
        for i in (0..m - 1).rev() { nx = x[i] - l1[i + 1] * nx; x[i] = nx; }
    } else {
        let (mut d1, mut d2, mut x1, mut x2, mut pl1) = (0.0, 0.0, 0.0, 0.0, 0.0);
        for i in 0..m {
            let mut di = G2[0] + s[i];
            let mut xi = rhs[i];
            let mut a = 0.0;
            let mut b = 0.0;
            if i > 1 { b = 1.0 / d2; di -= b * b * d2; xi -= b * x2; }
            if i > 0 { let mut v = -4.0; if i > 1 { v -= b * pl1 * d2; } a = v / d1; di -= a * a * d1; xi -= a * x1; }
            if !(di.is_finite() && di > 0.0) { return false; }
            l1[i] = a; l2[i] = b; d[i] = di; x[i] = xi;
            d2 = d1; d1 = di; x2 = x1; x1 = xi; pl1 = a;
        }
        for i in 0..m { x[i] /= d[i]; }
        for i in (0..m).rev() {
            let mut v = x[i];
            if i + 1 < m { v -= l1[i + 1] * x[i + 1]; }
            if i + 2 < m { v -= l2[i + 2] * x[i + 2]; }
            x[i] = v;
        }
    }
    true
}
/// The loop only; returns (n_iter, e). z ends in ws.v[0] (padded).
pub fn ipm<const K: usize>(y: &[f64], lam: f64, tol: f64, max_iter: usize, ws: &mut Ws) -> (usize, Extra) {
    let n = y.len();
    let m = n - K;
    let [z, mu1, mu2, nz, n1, n2, dy, x, dtz, zc, dtc, dx, ddtz, f1, f2, s, r, dz, l1, l2, d, dm1, dm2, e] = &mut ws.v[..] else { panic!() };
    if K == 1 { for i in 0..m { dy[i] = y[i + 1] - y[i]; } } else { for i in 0..m { dy[i] = (y[i + 2] - y[i + 1]) - (y[i + 1] - y[i]); } }
    for v in [&mut *z, &mut *nz, &mut *zc] { for q in v.iter_mut() { *q = 0.0; } }
    for i in 0..m { mu1[i] = 1.0; mu2[i] = 1.0; }
    let mut t = 1e-10f64;
    let mut step = f64::INFINITY;
    let mut it = 0usize;
    let (mut p, mut g) = cert::<K>(m, y, dy, z, lam, x, dtz, zc, dtc, dx);
    let mut gap = p - g;
    let mut best = gap;
    let mut stall = 0;
    let mut ex = Extra { first_gap: gap, best_gap: gap, ..Default::default() };
    loop {
        if gap <= tol * p { ex.reason = 1; break; }
        if it >= max_iter { ex.reason = 2; break; }
        if stall >= 10 { ex.reason = 3; break; }
        it += 1;
        if step >= 0.2 { t = (2.0 * m as f64 * 2.0 / gap).max(1.2 * t); }
        let inv_t = 1.0 / t;
        matvec::<K>(m, z, ddtz);
        {
            let (z, mu1, mu2, f1, f2, s, r, dy, ddtz, e) = (&z[2..m + 2], &mu1[..m], &mu2[..m], &mut f1[..m], &mut f2[..m], &mut s[..m], &mut r[..m], &dy[..m], &ddtz[..m], &mut e[..m]);
            for i in 0..m {
                let a = z[i] - lam; let b = -z[i] - lam;
                f1[i] = a; f2[i] = b;
                s[i] = -mu1[i] / a - mu2[i] / b;
                r[i] = -ddtz[i] + dy[i] + inv_t / a - inv_t / b;
                let rd = ddtz[i] - dy[i] + mu1[i] - mu2[i];
                let c1 = -mu1[i] * a - inv_t; let c2 = -mu2[i] * b - inv_t;
                e[i] = rd * rd + c1 * c1 + c2 * c2;
            }
        }
        if !solve::<K>(m, s, r, dz, l1, l2, d) { ex.reason = 4; break; }
        let mut acc = 0.0;
        for v in &e[..m] { acc += v; }
        let rn = acc.sqrt();
        {
            let (mu1, mu2, f1, f2, dz, dm1, dm2) = (&mu1[..m], &mu2[..m], &f1[..m], &f2[..m], &dz[..m], &mut dm1[..m], &mut dm2[..m]);
            for i in 0..m { dm1[i] = -(mu1[i] + (inv_t + dz[i] * mu1[i]) / f1[i]); dm2[i] = -(mu2[i] + (inv_t - dz[i] * mu2[i]) / f2[i]); }
            step = 1.0;
            for i in 0..m {
                if dm1[i] < 0.0 { step = step.min(0.99 * (-mu1[i] / dm1[i])); }
                if dm2[i] < 0.0 { step = step.min(0.99 * (-mu2[i] / dm2[i])); }
            }
        }
        let mut inside = false;
        for _ in 0..20 {
            {
                let (z, mu1, mu2, nz, n1, n2, dz, dm1, dm2) = (&z[2..m + 2], &mu1[..m], &mu2[..m], &mut nz[2..m + 2], &mut n1[..m], &mut n2[..m], &dz[..m], &dm1[..m], &dm2[..m]);
                let mut all = true;
                for i in 0..m { nz[i] = z[i] + step * dz[i]; n1[i] = mu1[i] + step * dm1[i]; n2[i] = mu2[i] + step * dm2[i]; all &= nz[i].abs() < lam; }
                inside = all;
            }
            if inside {
                matvec::<K>(m, nz, ddtz);
                let (nz, n1, n2, dy, ddtz, e) = (&nz[2..m + 2], &n1[..m], &n2[..m], &dy[..m], &ddtz[..m], &mut e[..m]);
                for i in 0..m {
                    let a = nz[i] - lam; let b = -nz[i] - lam;
                    let rd = ddtz[i] - dy[i] + n1[i] - n2[i];
                    let c1 = -n1[i] * a - inv_t; let c2 = -n2[i] * b - inv_t;
                    e[i] = rd * rd + c1 * c1 + c2 * c2;
                }
                let mut acc = 0.0;
                for v in e.iter() { acc += v; }
                if acc.sqrt() <= (1.0 - 0.01 * step) * rn { break; }
            }
            step *= 0.5;
        }
        if inside { std::mem::swap(z, nz); std::mem::swap(mu1, n1); std::mem::swap(mu2, n2); }
        (p, g) = cert::<K>(m, y, dy, z, lam, x, dtz, zc, dtc, dx);
        gap = p - g;
        if gap < 0.99 * best { best = gap; ex.best_gap = gap; ex.improvements += 1; stall = 0; } else { stall += 1; }
    }
    ex.iter_gap = gap;
    ex.iter_pobj = p;
    (it, ex)
}

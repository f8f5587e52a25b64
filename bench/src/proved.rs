//! The proved library, by the functions that it exports.

unsafe extern "C" {
    fn bench_sums_deposit(
        t: u32,
        n: u32,
        rounds: u32,
        modulus: u32,
        key: u32,
        coefficients: *const u32,
        coefficients_len: usize,
        shares: *mut u32,
        shares_len: usize,
        working: *mut u32,
        working_len: usize,
    ) -> bool;

    fn bench_sums_open(
        t: u32,
        n: u32,
        rounds: u32,
        modulus: u32,
        key: u32,
        coefficients: *const u32,
        coefficients_len: usize,
        helpers: *const u32,
        helpers_len: usize,
        shares: *mut u32,
        shares_len: usize,
        working: *mut u32,
        working_len: usize,
        told: &mut u32,
    ) -> bool;

    fn bench_blocks_deposit(
        t: u32,
        n: u32,
        rounds: u32,
        key: &[u8; 16],
        coefficients: *const [u8; 16],
        coefficients_len: usize,
        shares: *mut [u8; 16],
        shares_len: usize,
        working: *mut [u8; 16],
        working_len: usize,
    ) -> bool;

    fn bench_blocks_open(
        t: u32,
        n: u32,
        rounds: u32,
        key: &[u8; 16],
        coefficients: *const [u8; 16],
        coefficients_len: usize,
        helpers: *const u32,
        helpers_len: usize,
        shares: *mut [u8; 16],
        shares_len: usize,
        working: *mut [u8; 16],
        working_len: usize,
        told: &mut [u8; 16],
    ) -> bool;
}

/// A scheme and the memory that a cabinet is lent.
pub struct Lent<E> {
    pub t: u32,
    pub n: u32,
    pub shares: Vec<E>,
    pub working: Vec<E>,
}

impl<E: Copy> Lent<E> {
    pub fn new(t: usize, n: usize, q: usize, zero: E) -> Self {
        Lent {
            t: t as u32,
            n: n as u32,
            shares: vec![zero; n * (q - 1)],
            working: vec![zero; 4 * (q - 1)],
        }
    }
}

/// What both groups' exports do, once more by one name.
pub trait Proved {
    type Element;

    /// Makes a cabinet and deposits the same key so many times.
    fn deposit(
        &self,
        rounds: u32,
        key: Self::Element,
        coefficients: &[Self::Element],
        lent: &mut Lent<Self::Element>,
    ) -> bool;

    /// Makes a cabinet, deposits once, and opens so many times.
    fn open(
        &self,
        rounds: u32,
        key: Self::Element,
        coefficients: &[Self::Element],
        helpers: &[u32],
        lent: &mut Lent<Self::Element>,
    ) -> Option<Self::Element>;
}

impl Proved for crate::plain::Sums {
    type Element = u32;

    fn deposit(&self, rounds: u32, key: u32, cs: &[u32], lent: &mut Lent<u32>) -> bool {
        let (shares, working) = (&mut lent.shares, &mut lent.working);
        // SAFETY: each pointer comes with the length of the slice that it points to.
        unsafe {
            bench_sums_deposit(
                lent.t,
                lent.n,
                rounds,
                self.modulus,
                key,
                cs.as_ptr(),
                cs.len(),
                shares.as_mut_ptr(),
                shares.len(),
                working.as_mut_ptr(),
                working.len(),
            )
        }
    }

    fn open(
        &self,
        rounds: u32,
        key: u32,
        cs: &[u32],
        helpers: &[u32],
        lent: &mut Lent<u32>,
    ) -> Option<u32> {
        let (shares, working) = (&mut lent.shares, &mut lent.working);
        let mut told = 0;
        // SAFETY: as above.
        let accepted = unsafe {
            bench_sums_open(
                lent.t,
                lent.n,
                rounds,
                self.modulus,
                key,
                cs.as_ptr(),
                cs.len(),
                helpers.as_ptr(),
                helpers.len(),
                shares.as_mut_ptr(),
                shares.len(),
                working.as_mut_ptr(),
                working.len(),
                &mut told,
            )
        };
        accepted.then_some(told)
    }
}

impl Proved for crate::plain::Blocks {
    type Element = [u8; 16];

    fn deposit(
        &self,
        rounds: u32,
        key: [u8; 16],
        cs: &[[u8; 16]],
        lent: &mut Lent<[u8; 16]>,
    ) -> bool {
        let (shares, working) = (&mut lent.shares, &mut lent.working);
        // SAFETY: as above.
        unsafe {
            bench_blocks_deposit(
                lent.t,
                lent.n,
                rounds,
                &key,
                cs.as_ptr(),
                cs.len(),
                shares.as_mut_ptr(),
                shares.len(),
                working.as_mut_ptr(),
                working.len(),
            )
        }
    }

    fn open(
        &self,
        rounds: u32,
        key: [u8; 16],
        cs: &[[u8; 16]],
        helpers: &[u32],
        lent: &mut Lent<[u8; 16]>,
    ) -> Option<[u8; 16]> {
        let (shares, working) = (&mut lent.shares, &mut lent.working);
        let mut told = [0; 16];
        // SAFETY: as above.
        let accepted = unsafe {
            bench_blocks_open(
                lent.t,
                lent.n,
                rounds,
                &key,
                cs.as_ptr(),
                cs.len(),
                helpers.as_ptr(),
                helpers.len(),
                shares.as_mut_ptr(),
                shares.len(),
                working.as_mut_ptr(),
                working.len(),
                &mut told,
            )
        };
        accepted.then_some(told)
    }
}

//! The same sharing in ordinary Rust, proved by nobody: what the library is measured against.

/// A commutative group.
pub trait Group {
    type Element: Copy + PartialEq;

    fn is_valid(&self, a: Self::Element) -> bool;
    fn zero(&self) -> Self::Element;
    fn plus(&self, a: Self::Element, b: Self::Element) -> Self::Element;
    fn less(&self, a: Self::Element, b: Self::Element) -> Self::Element;
}

/// Numbers below a modulus, under addition.
pub struct Sums {
    pub modulus: u32,
}

impl Group for Sums {
    type Element = u32;

    fn is_valid(&self, a: u32) -> bool {
        a < self.modulus
    }

    fn zero(&self) -> u32 {
        0
    }

    fn plus(&self, a: u32, b: u32) -> u32 {
        let sum = a.wrapping_add(b);
        sum.min(sum.wrapping_sub(self.modulus))
    }

    fn less(&self, a: u32, b: u32) -> u32 {
        let rest = a.wrapping_sub(b);
        rest.min(rest.wrapping_add(self.modulus))
    }
}

/// Blocks of 16 bytes, under exclusive or.
pub struct Blocks;

impl Group for Blocks {
    type Element = [u8; 16];

    fn is_valid(&self, _: [u8; 16]) -> bool {
        true
    }

    fn zero(&self) -> [u8; 16] {
        [0; 16]
    }

    fn plus(&self, a: [u8; 16], b: [u8; 16]) -> [u8; 16] {
        std::array::from_fn(|i| a[i] ^ b[i])
    }

    fn less(&self, a: [u8; 16], b: [u8; 16]) -> [u8; 16] {
        self.plus(a, b)
    }
}

/// The least odd prime above n.
pub fn prime_above(n: usize) -> usize {
    (n + 1..)
        .find(|q| q % 2 == 1 && *q > 2 && (2..*q).all(|d| q % d != 0))
        .unwrap()
}

/// How tuples are multiplied; `spare` is memory for one more tuple.
pub trait Multiply {
    const NAME: &str;

    /// Adds a(i) m to `to`.
    fn add_point<G: Group>(
        group: &G,
        i: usize,
        m: &[G::Element],
        to: &mut [G::Element],
        spare: &mut Spare<G>,
    );

    /// Multiplies `m` by a(k) / (a(k) - a(j)).
    fn times_quotient<G: Group>(
        group: &G,
        k: usize,
        j: usize,
        m: &mut Vec<G::Element>,
        spare: &mut Spare<G>,
    );
}

/// Memory for a product, and for one more on the way.
pub struct Spare<G: Group> {
    product: Vec<G::Element>,
    other: Vec<G::Element>,
}

/// As the scheme defines them: a sum of powers of x is added up power by power.
pub struct Terms;

impl Multiply for Terms {
    const NAME: &str = "terms";

    fn add_point<G: Group>(
        group: &G,
        i: usize,
        m: &[G::Element],
        to: &mut [G::Element],
        spare: &mut Spare<G>,
    ) {
        sum_of_powers(group, 1, i, m, spare);
        add(group, to, &spare.product);
    }

    fn times_quotient<G: Group>(
        group: &G,
        k: usize,
        j: usize,
        m: &mut Vec<G::Element>,
        spare: &mut Spare<G>,
    ) {
        let q = m.len() + 1;
        let d = k.abs_diff(j);
        let e = (1..q).find(|e| d * e % q == 1).unwrap();
        times_power(group, q - k.min(j), m, &mut spare.other);
        std::mem::swap(m, &mut spare.other);
        sum_of_powers(group, d, e, m, spare);
        std::mem::swap(m, &mut spare.product);
        if k < j {
            let zero = group.zero();
            m.iter_mut().for_each(|a| *a = group.less(zero, *a));
        }
        sum_of_powers(group, 1, k, m, spare);
        std::mem::swap(m, &mut spare.product);
    }
}

/// Writes 1 + x^d + .. + x^(d(e-1)) times `m` to the product.
fn sum_of_powers<G: Group>(group: &G, d: usize, e: usize, m: &[G::Element], spare: &mut Spare<G>) {
    spare.product.fill(group.zero());
    for _ in 0..e {
        times_power(group, d, &spare.product, &mut spare.other);
        add(group, &mut spare.other, m);
        std::mem::swap(&mut spare.product, &mut spare.other);
    }
}

/// Writes x^k times `m` to `out`: a turn by k among q places, of which the last is zero, less what
/// came to that place.
fn times_power<G: Group>(group: &G, k: usize, m: &[G::Element], out: &mut [G::Element]) {
    let q = m.len() + 1;
    let k = k % q;
    if k == 0 {
        out.copy_from_slice(m);
        return;
    }
    let back = m[q - 1 - k];
    out[k - 1] = group.less(group.zero(), back);
    for (to, a) in out[k..].iter_mut().zip(&m[..q - 1 - k]) {
        *to = group.less(*a, back);
    }
    for (to, a) in out[..k - 1].iter_mut().zip(&m[q - k..]) {
        *to = group.less(*a, back);
    }
}

/// As the proved library does: one walk around the circle of q places for each product.
pub struct Walk;

impl Multiply for Walk {
    const NAME: &str = "walk";

    fn add_point<G: Group>(
        group: &G,
        i: usize,
        m: &[G::Element],
        to: &mut [G::Element],
        _: &mut Spare<G>,
    ) {
        let width = m.len();
        let mut sum = group.zero();
        for s in 0..width {
            let less = if s >= i {
                m[s - i]
            } else if s + 1 < i {
                m[width + 1 + s - i]
            } else {
                group.zero()
            };
            sum = group.plus(sum, group.less(m[s], less));
            to[s] = group.plus(to[s], sum);
        }
    }

    fn times_quotient<G: Group>(
        group: &G,
        k: usize,
        j: usize,
        m: &mut Vec<G::Element>,
        spare: &mut Spare<G>,
    ) {
        let q = m.len() + 1;
        let onward = |i: usize, d: usize| if i + d < q { i + d } else { i + d - q };
        let d = onward(k, q - j);
        let mut to = q - 1;
        let mut sum = group.zero();
        let mut less = group.zero();
        for _ in 1..q {
            to = onward(to, d);
            let more = m.get(onward(to, j)).copied().unwrap_or(group.zero());
            sum = group.plus(sum, group.less(more, less));
            less = m[to];
            spare.other[to] = sum;
        }
        std::mem::swap(m, &mut spare.other);
    }
}

fn add<G: Group>(group: &G, to: &mut [G::Element], from: &[G::Element]) {
    for (a, b) in to.iter_mut().zip(from) {
        *a = group.plus(*a, *b);
    }
}

pub struct Cabinet<G: Group> {
    group: G,
    t: usize,
    n: usize,
    q: usize,
    shares: Vec<G::Element>,
    result: Vec<G::Element>,
    term: Vec<G::Element>,
    spare: Spare<G>,
}

impl<G: Group> Cabinet<G> {
    pub fn new(group: G, t: usize, n: usize) -> Self {
        let q = prime_above(n);
        let tuple = vec![group.zero(); q - 1];
        Cabinet {
            t,
            n,
            q,
            shares: vec![group.zero(); n * (q - 1)],
            result: tuple.clone(),
            term: tuple.clone(),
            spare: Spare {
                product: tuple.clone(),
                other: tuple,
            },
            group,
        }
    }

    pub fn shares(&self) -> &[G::Element] {
        &self.shares
    }

    fn all_valid(&self, elements: &[G::Element]) -> bool {
        elements.iter().all(|a| self.group.is_valid(*a))
    }

    /// Leaves no trace of a call in the working memory.
    fn clear(&mut self) {
        let zero = self.group.zero();
        self.result.fill(zero);
        self.term.fill(zero);
        self.spare.product.fill(zero);
        self.spare.other.fill(zero);
    }

    /// Adds what the key and the coefficients deal to each share.
    pub fn deposit<M: Multiply>(&mut self, key: G::Element, coefficients: &[G::Element]) -> bool {
        let width = self.q - 1;
        if coefficients.len() != (self.t - 1) * width
            || !self.group.is_valid(key)
            || !self.all_valid(coefficients)
            || !self.all_valid(&self.shares)
        {
            return false;
        }
        let (group, spare) = (&self.group, &mut self.spare);
        for holder in 1..=self.n {
            let mut rows = coefficients.chunks_exact(width).rev();
            self.term.copy_from_slice(rows.next().unwrap());
            for c in rows {
                self.result.copy_from_slice(c);
                M::add_point(group, holder, &self.term, &mut self.result, spare);
                std::mem::swap(&mut self.term, &mut self.result);
            }
            let share = &mut self.shares[(holder - 1) * width..holder * width];
            M::add_point(group, holder, &self.term, share, spare);
            share[0] = group.plus(share[0], key);
        }
        self.clear();
        true
    }

    /// The key, from t helpers' shares; nothing where they do not agree.
    pub fn open<M: Multiply>(&mut self, helpers: &[u32]) -> Option<G::Element> {
        let width = self.q - 1;
        let known = |h: &u32| 1 <= *h && *h as usize <= self.n;
        let twice = (1..helpers.len()).any(|i| helpers[..i].contains(&helpers[i]));
        if helpers.len() != self.t
            || !helpers.iter().all(known)
            || twice
            || !self.all_valid(&self.shares)
        {
            return None;
        }
        self.result.fill(self.group.zero());
        for j in helpers.iter().map(|h| *h as usize) {
            let share = &self.shares[(j - 1) * width..j * width];
            self.term.copy_from_slice(share);
            for k in helpers.iter().map(|h| *h as usize).filter(|k| *k != j) {
                M::times_quotient(&self.group, k, j, &mut self.term, &mut self.spare);
            }
            add(&self.group, &mut self.result, &self.term);
        }
        let zero = self.group.zero();
        let agreed = self.result[1..].iter().all(|a| *a == zero);
        let key = agreed.then_some(self.result[0]);
        self.clear();
        key
    }
}

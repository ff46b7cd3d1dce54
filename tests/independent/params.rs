//! The parameters of a proof and the lengths that follow from them.

/// n: log of the domain, b: log of the blowup, k: folds, q: queries.
/// Laid out as in C, because the linked library takes parameters by value.
#[repr(C)]
#[derive(Clone, Copy, PartialEq, Eq, Debug)]
pub struct Params {
    pub n: u8,
    pub b: u8,
    pub k: u8,
    pub q: u8,
}

/// Four counts of 2 bytes, and the 4 bytes of section 1.
const COUNTS_AND_PARAMETERS: usize = 12;
const DIGEST: usize = 32;
const NUMBER: usize = 4;

impl Params {
    pub fn new(n: u8, b: u8, k: u8, q: u8) -> Params {
        Params { n, b, k, q }
    }

    pub fn valid(self) -> bool {
        let Params { n, b, k, q } = self;
        (2..=20).contains(&n)
            && (1..=8).contains(&b)
            && (1..=12).contains(&k)
            && (1..=64).contains(&q)
            && b + k <= n
            && n - b - k <= 6
    }

    /// F, the number of final coefficients; 0 if the parameters are not valid.
    pub fn final_count(self) -> usize {
        if !self.valid() {
            return 0;
        }
        1 << (self.n - self.b - self.k)
    }

    /// Siblings in a path of the layer.
    pub fn height(self, layer: u8) -> usize {
        (self.n as usize).saturating_sub(layer as usize + 1)
    }

    /// Bytes of one opening in the layer: two values and the path.
    pub fn opening_length(self, layer: u8) -> usize {
        2 * NUMBER + DIGEST * self.height(layer)
    }

    /// L, the length of a proof; 0 if the parameters are not valid.
    pub fn file_length(self) -> usize {
        self.opening_offset(self.q, 0)
    }

    /// Bytes before the opening of the query in the layer; 0 if the parameters
    /// are not valid.
    pub fn opening_offset(self, query: u8, layer: u8) -> usize {
        if !self.valid() {
            return 0;
        }
        self.first_opening() + query as usize * self.openings(self.k) + self.openings(layer)
    }

    fn first_opening(self) -> usize {
        COUNTS_AND_PARAMETERS + DIGEST * self.k as usize + NUMBER * self.final_count()
    }

    /// Bytes of one query's openings in the layers before the given one.
    fn openings(self, layer: u8) -> usize {
        (0..layer).map(|before| self.opening_length(before)).sum()
    }
}

#[cfg(test)]
mod tests {
    use super::*;

    #[test]
    fn examples_of_the_document() {
        assert_eq!(Params::new(4, 2, 1, 2).file_length(), 260);
        assert_eq!(Params::new(4, 2, 1, 2).final_count(), 2);
        assert_eq!(Params::new(2, 1, 1, 1).final_count(), 1);
        assert_eq!(Params::new(2, 1, 1, 1).file_length(), 88);
        assert_eq!(Params::new(20, 2, 12, 64).file_length(), 338572);
        assert!(!Params::new(20, 8, 5, 1).valid());
        assert!(Params::new(20, 8, 6, 1).valid());
        assert!(!Params::new(4, 2, 1, 0).valid());
        assert!(!Params::new(4, 2, 1, 65).valid());
        assert!(Params::new(4, 2, 1, 64).valid());
        let walk = Params::new(4, 1, 2, 1);
        assert_eq!([walk.height(0), walk.height(1)], [3, 2]);
    }

    #[test]
    fn each_bound_counts() {
        for (n, b, k, valid) in [
            (1, 1, 1, false),
            (2, 1, 1, true),
            (21, 8, 12, false),
            (20, 8, 12, true),
            (9, 0, 5, false),
            (9, 1, 5, true),
            (20, 9, 10, false),
            (9, 8, 0, false),
            (14, 1, 13, false),
            (14, 1, 12, true),
            (4, 2, 3, false),
            (4, 2, 2, true),
            (9, 1, 2, true),
            (9, 1, 1, false),
            (255, 255, 255, false),
        ] {
            assert_eq!(Params::new(n, b, k, 1).valid(), valid, "{n} {b} {k}");
        }
    }

    #[test]
    fn length_is_the_formula_of_the_document() {
        for n in 2..=20 {
            for b in 1..=8 {
                for k in 1..=12 {
                    let params = Params::new(n, b, k, 7);
                    if !params.valid() {
                        assert_eq!(params.file_length(), 0);
                        continue;
                    }
                    let (n, b, k) = (n as usize, b as usize, k as usize);
                    let query: usize = (0..k).map(|j| 8 + 32 * (n - j - 1)).sum();
                    let length = 12 + 32 * k + 4 * (1 << (n - b - k)) + 7 * query;
                    assert_eq!(params.file_length(), length);
                    assert_eq!(params.opening_offset(6, k as u8), length);
                }
            }
        }
    }
}

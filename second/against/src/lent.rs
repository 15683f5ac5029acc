//! What is lent to a search or a walk, made from a seed: a set, a table and a query, right or beside the right lengths.
use crate::sets::beside;
use second::generate;

/// The set of a seed with its query, its own table and an arbitrary one.
pub struct Made {
    pub n: usize,
    d: usize,
    vectors: Vec<i8>,
    query: Vec<i8>,
    pub built: Vec<u16>,
    pub arbitrary: Vec<u16>,
}

impl Made {
    pub fn new(seed: u64) -> Made {
        let (n, d, vectors) = generate::set(seed);
        let query = generate::query(seed, d, &vectors);
        let mut built = vec![0u16; n * n];
        second::labels::build(second::Set { n, d, vectors: &vectors }, &mut built).expect("a generated set is not refused");
        let arbitrary = generate::table(seed, n);
        Made { n, d, vectors, query, built, arbitrary }
    }

    pub fn with<'a>(&'a self, table: &'a [u16]) -> Lent<'a> {
        Lent { n: self.n, d: self.d, vectors: &self.vectors, table, query: &self.query }
    }
}

#[derive(Clone, Copy)]
pub struct Lent<'a> {
    n: usize,
    d: usize,
    vectors: &'a [i8],
    pub table: &'a [u16],
    pub query: &'a [i8],
}

impl<'a> Lent<'a> {
    pub fn ours(&self) -> magpiehinge::Set<'a> {
        magpiehinge::Set { n: self.n, d: self.d, vectors: self.vectors }
    }

    pub fn theirs(&self) -> second::Set<'a> {
        second::Set { n: self.n, d: self.d, vectors: self.vectors }
    }

    /// The same with numbers and lengths beside the right ones.
    pub fn beside(&self, random: &mut generate::Random) -> Lent<'a> {
        let (n, d) = (beside(random, self.n), beside(random, self.d));
        Lent {
            n,
            d,
            vectors: &self.vectors[..beside(random, self.vectors.len()).min(self.vectors.len())],
            table: &self.table[..beside(random, self.table.len()).min(self.table.len())],
            query: &self.query[..beside(random, self.query.len()).min(self.query.len())],
        }
    }
}

//! The three fields. Products in the binary fields are taken without carries and then reduced by long division;
//! inverses are found by search.

#[derive(Clone, Copy, PartialEq, Eq, Debug)]
pub enum Field {
    Byte,
    Nibble,
    Prime,
}

pub const FIELDS: [Field; 3] = [Field::Byte, Field::Nibble, Field::Prime];

impl Field {
    pub fn name(self) -> &'static str {
        match self {
            Field::Byte => "byte",
            Field::Nibble => "nibble",
            Field::Prime => "prime",
        }
    }

    pub fn order(self) -> u16 {
        match self {
            Field::Byte => 256,
            Field::Nibble => 16,
            Field::Prime => 257,
        }
    }

    /// The polynomial of a binary field and its degree.
    fn polynomial(self) -> Option<(u32, u32)> {
        match self {
            Field::Byte => Some((0b1_0001_1101, 8)),
            Field::Nibble => Some((0b1_0011, 4)),
            Field::Prime => None,
        }
    }

    pub fn add(self, a: u16, b: u16) -> u16 {
        match self {
            Field::Prime => (a + b) % 257,
            _ => a ^ b,
        }
    }

    pub fn subtract(self, a: u16, b: u16) -> u16 {
        match self {
            Field::Prime => (a + 257 - b) % 257,
            _ => a ^ b,
        }
    }

    pub fn multiply(self, a: u16, b: u16) -> u16 {
        let (a, b) = (u32::from(a), u32::from(b));
        let result = match self.polynomial() {
            None => a * b % 257,
            Some((divisor, degree)) => {
                let product = (0..8).filter(|i| b >> i & 1 == 1).fold(0, |sum, i| sum ^ (a << i));
                (degree..16).rev().fold(product, |rest, i| if rest >> i & 1 == 1 { rest ^ (divisor << (i - degree)) } else { rest })
            }
        };
        result as u16
    }

    pub fn invert(self, a: u16) -> u16 {
        (1..self.order()).find(|&b| self.multiply(a, b) == 1).unwrap_or(0)
    }

    /// A(k, x), the weight in parity k of a chunk with coefficient column x.
    pub fn coefficient(self, k: usize, x: usize) -> u16 {
        self.invert(self.subtract(k as u16, 4 + x as u16))
    }

    /// The only solution of square equations, each a list of coefficients with the right side last.
    pub fn solve(self, mut rows: Vec<Vec<u16>>) -> Vec<u16> {
        let n = rows.len();
        for column in 0..n {
            let pivot = (column..n).find(|&i| rows[i][column] != 0).expect("the equations have one solution");
            rows.swap(column, pivot);
            let scale = self.invert(rows[column][column]);
            let lead: Vec<u16> = rows[column].iter().map(|&a| self.multiply(a, scale)).collect();
            for (i, row) in rows.iter_mut().enumerate() {
                let factor = row[column];
                if i != column && factor != 0 {
                    for (a, &b) in row.iter_mut().zip(&lead) {
                        *a = self.subtract(*a, self.multiply(factor, b));
                    }
                }
            }
            rows[column] = lead;
        }
        rows.iter().map(|row| row[n]).collect()
    }
}

#[cfg(test)]
mod tests {
    use super::*;

    #[test]
    fn coefficients() {
        let first_two = |f: Field| (f.coefficient(0, 0), f.coefficient(0, 1));
        assert_eq!(first_two(Field::Byte), (71, 167));
        assert_eq!(first_two(Field::Nibble), (13, 11));
        assert_eq!(first_two(Field::Prime), (64, 154));
    }

    #[test]
    fn inverses() {
        for f in FIELDS {
            assert_eq!(f.invert(0), 0);
            assert!((1..f.order()).all(|a| f.multiply(a, f.invert(a)) == 1));
            assert!((0..f.order()).all(|a| f.add(f.subtract(5, a), a) == 5));
        }
    }
}

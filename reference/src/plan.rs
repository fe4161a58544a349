//! Plans, where their chunks lie, labels, and refusals.

/// A refusal: its number and its place. The number alone says the layer.
#[derive(Clone, Copy, PartialEq, Eq, Debug)]
pub struct Refusal {
    pub number: u16,
    pub place: usize,
}

pub fn refuse<T>(number: u16, place: usize) -> Result<T, Refusal> {
    Err(Refusal { number, place })
}

impl std::fmt::Display for Refusal {
    fn fmt(&self, f: &mut std::fmt::Formatter) -> std::fmt::Result {
        let layer = match self.number {
            1 | 5 => "rack",
            2..=4 | 15 => "layout",
            14 => "coding",
            _ => "pool",
        };
        write!(f, "refused {} {} {}", self.number, layer, self.place)
    }
}

/// Row and column of a chunk, and its coefficient column.
#[derive(Clone, Copy, PartialEq, Eq, Debug)]
pub struct Cell {
    pub row: usize,
    pub column: usize,
    pub x: usize,
}

#[derive(Clone, Debug)]
pub struct Plan {
    pub order: u16,
    /// chunks and parities of a stripe, then of a row
    pub d: usize,
    pub r: usize,
    pub d2: usize,
    pub r2: usize,
    /// symbols of a chunk
    pub length: usize,
    pub chunks: usize,
    pub stripes: usize,
    pub rows: usize,
    /// by chunk
    pub cells: Vec<Cell>,
    /// the home row of each stripe
    pub home: Vec<usize>,
}

impl Plan {
    /// The plan of the numbers q, d, r, d', r', L.
    pub fn new(numbers: [u16; 6]) -> Result<Plan, Refusal> {
        let ranges = [(2, 14), (1, 4), (2, 14), (1, 4), (1, 4096)];
        for (i, (low, high)) in ranges.into_iter().enumerate() {
            if numbers[i + 1] < low || numbers[i + 1] > high {
                return refuse(2, i + 1);
            }
        }
        let order = numbers[0];
        let [d, r, d2, r2, length] = [1, 2, 3, 4, 5].map(|i| usize::from(numbers[i]));
        let spread = if d2 >= d { 1 } else { d / d2 + 1 };
        if spread > r {
            return refuse(3, 0);
        }
        if 4 + spread * d2 > usize::from(order) {
            return refuse(4, 0);
        }
        let g = (1..=d).rev().find(|n| d % n == 0 && d2 % n == 0).unwrap();
        let chunks = d * d2 / g;
        let mut plan = Plan { order, d, r, d2, r2, length, chunks, stripes: chunks / d, rows: chunks / d2, cells: vec![], home: vec![] };
        if d2 >= d {
            plan.place_wide(g);
        } else {
            plan.place_narrow();
        }
        Ok(plan)
    }

    fn place_wide(&mut self, g: usize) {
        let (d, d2) = (self.d, self.d2);
        let (w, z) = (d2 / d, d2 % d);
        let beta = z / g;
        let start = |i: usize| if i < beta { i * (d - z) % d2 } else { (i - beta + 1) * z % d2 };
        for j in 0..self.chunks {
            let (stripe, e) = (j / d, j % d);
            let (row, column) = if stripe < w * self.rows {
                let (i, u) = (stripe / w, stripe % w);
                (i, (start(i) + u * d + e) % d2)
            } else {
                let i = stripe - w * self.rows;
                if e < z {
                    (i, (start(i) + w * d + e) % d2)
                } else {
                    let t = i * (d - z) + e - z;
                    (beta + t / z, t % d2)
                }
            };
            self.cells.push(Cell { row, column, x: column });
        }
        self.home = (0..self.stripes).map(|s| self.cells[s * d].row).collect();
    }

    fn place_narrow(&mut self) {
        let (d, d2) = (self.d, self.d2);
        let (w, z) = (d / d2, d % d2);
        for j in 0..self.chunks {
            let (i, e) = (j / d, j % d);
            let y = e / d2;
            let (row, column) = if y < w {
                (i * w + y, e % d2)
            } else {
                let t = i * z + e - w * d2;
                (w * self.stripes + t / d2, t % d2)
            };
            self.cells.push(Cell { row, column, x: y * d2 + column });
        }
        self.home = (0..self.stripes).map(|i| i * w + w - 1).collect();
    }

    pub fn modules(&self) -> usize {
        self.d2 + self.r.max(self.r2)
    }

    pub fn slots(&self) -> usize {
        self.stripes + self.rows
    }

    /// The chunk in each column of a row.
    pub fn row_chunks(&self, row: usize) -> Vec<usize> {
        let mut chunks: Vec<usize> = (0..self.chunks).filter(|&j| self.cells[j].row == row).collect();
        chunks.sort_by_key(|&j| self.cells[j].column);
        chunks
    }

    /// How many data and parity chunks a changeover reads, by the formulas.
    pub fn counts(&self) -> (usize, usize) {
        if self.r2 > self.r {
            return (self.chunks, 0);
        }
        let data = if self.d2 >= self.d {
            let z = self.d2 % self.d;
            let g = self.d * self.d2 / self.chunks;
            z / g * (self.d - z)
        } else {
            self.stripes * (self.d - self.d2)
        };
        (data, self.r2 * self.stripes)
    }

    pub fn label(&self, after: bool) -> Vec<u8> {
        let sizes = [self.d, self.r, self.d2, self.r2, self.length].map(|n| n as u16);
        let numbers = [1, self.order, sizes[0], sizes[1], sizes[2], sizes[3], sizes[4], u16::from(after)];
        numbers.iter().flat_map(|n| n.to_le_bytes()).collect()
    }

    /// The plan of a label, and whether it says that the pool is after its changeover.
    pub fn from_label(label: &[u8]) -> Result<(Plan, bool), Refusal> {
        let numbers: Vec<u16> = label.chunks(2).map(|pair| u16::from_le_bytes([pair[0], *pair.last().unwrap()])).collect();
        if label.len() != 16 || numbers[0] != 1 || numbers[7] > 1 {
            return refuse(15, 0);
        }
        let plan = Plan::new([1, 2, 3, 4, 5, 6].map(|i| numbers[i]))?;
        Ok((plan, numbers[7] == 1))
    }
}

#[cfg(test)]
mod tests {
    use super::*;

    fn plan(d: u16, r: u16, d2: u16, r2: u16) -> Plan {
        Plan::new([256, d, r, d2, r2, 1]).unwrap()
    }

    fn cell(p: &Plan, j: usize) -> (usize, usize) {
        (p.cells[j].row, p.cells[j].column)
    }

    #[test]
    fn placements() {
        let wide = plan(4, 2, 5, 2);
        assert_eq!((wide.chunks, cell(&wide, 11), cell(&wide, 17)), (20, (2, 0), (1, 0)));
        let narrow = plan(5, 2, 4, 2);
        assert_eq!((cell(&narrow, 5), cell(&narrow, 9)), ((1, 0), (4, 1)));
    }

    #[test]
    fn counts() {
        assert_eq!(plan(12, 3, 14, 3).counts(), (10, 21));
        assert_eq!(plan(14, 4, 10, 3).counts(), (20, 15));
        assert_eq!(plan(7, 2, 14, 1).counts(), (0, 2));
        assert_eq!(plan(4, 1, 5, 2).counts(), (20, 0));
    }

    #[test]
    fn refusals() {
        let number = |numbers| Plan::new(numbers).err().map(|e| (e.number, e.place));
        assert_eq!(number([256, 12, 2, 6, 2, 1]), Some((3, 0)));
        assert_eq!(number([256, 12, 3, 6, 3, 1]), None);
        assert_eq!(number([16, 6, 2, 12, 2, 1]), None);
        assert_eq!(number([16, 6, 2, 13, 2, 1]), Some((4, 0)));
        assert_eq!(number([16, 6, 2, 15, 0, 1]), Some((2, 3)));
    }

    /// Of every plan: each cell has one chunk, coefficient columns differ in a stripe and in a row, no column holds more
    /// chunks of a stripe than it has parities, and the chunks outside the home rows are as many as the formula says.
    #[test]
    fn every_plan() {
        for d in 2..15 {
            for d2 in 2..15 {
                let Ok(p) = Plan::new([256, d, 4, d2, 1, 1]) else { continue };
                let mut cells: Vec<_> = (0..p.chunks).map(|j| cell(&p, j)).collect();
                cells.sort();
                cells.dedup();
                assert_eq!(cells.len(), p.chunks);
                assert!(cells.iter().all(|&(row, column)| row < p.rows && column < p.d2));
                for a in 0..p.chunks {
                    for b in 0..a {
                        let together = a / p.d == b / p.d || p.cells[a].row == p.cells[b].row;
                        assert!(!together || p.cells[a].x != p.cells[b].x);
                    }
                }
                for s in 0..p.stripes {
                    let stripe = s * p.d..(s + 1) * p.d;
                    assert!((0..p.d2).all(|c| stripe.clone().filter(|&j| p.cells[j].column == c).count() <= p.r));
                }
                let outside = (0..p.chunks).filter(|&j| p.cells[j].row != p.home[j / p.d]).count();
                assert_eq!(p.counts(), (outside, p.stripes));
            }
        }
    }
}

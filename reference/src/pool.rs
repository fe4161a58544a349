//! The pool. Parities that a changeover stages are encoded anew from the data, and chunks on modules that are out are
//! rebuilt by elimination over all chunks of their group.

use crate::field::Field;
use crate::plan::{refuse, Plan, Refusal};
use crate::rack::Rack;

pub const BEFORE: usize = 0;
pub const UNDER_WAY: usize = 1;
pub const VOIDED: usize = 2;
pub const AFTER: usize = 3;

#[derive(Clone, Copy, PartialEq, Eq, Debug)]
pub enum Kind {
    Stripe,
    Row,
}

/// A chunk or a parity of a group: where it lies, and its coefficients over the group's chunks.
struct Piece {
    module: usize,
    slot: usize,
    coefficients: Vec<u16>,
}

#[derive(Clone)]
pub struct Pool {
    pub plan: Plan,
    pub field: Field,
    pub rack: Rack,
    pub phase: usize,
    pub carried: usize,
    /// by parity and chunk
    weights: Vec<Vec<u16>>,
    /// whether the stripes were an encoding when the changeover began. Staged parities are then encoded anew; else, after
    /// opening over other memory, they are converted word for word as the rules say.
    encoded: bool,
}

impl Pool {
    /// The refusal of laying or opening a pool over a rack.
    pub fn check(plan: &Plan, field: Field, rack: &Rack, laying: bool) -> Result<(), Refusal> {
        let demands = [
            field.order() == plan.order,
            rack.order == plan.order,
            rack.modules() >= plan.modules(),
            rack.slots >= plan.slots(),
            rack.length >= plan.length,
        ];
        if let Some(i) = demands.iter().position(|met| !met) {
            return refuse(5, i + 1);
        }
        match (0..plan.modules()).find(|&m| !rack.fitted(m)) {
            Some(m) if laying => refuse(11, m),
            _ => Ok(()),
        }
    }

    /// A pool over the memory as it is.
    pub fn open(plan: Plan, field: Field, rack: Rack, after: bool) -> Pool {
        let weights = (0..4).map(|k| plan.cells.iter().map(|c| field.coefficient(k, c.x)).collect()).collect();
        Pool { plan, field, rack, phase: if after { AFTER } else { BEFORE }, carried: 0, weights, encoded: false }
    }

    pub fn lay(plan: Plan, field: Field, rack: Rack) -> Pool {
        let mut pool = Pool::open(plan, field, rack, false);
        for module in 0..pool.plan.modules() {
            for slot in 0..pool.plan.slots() {
                pool.clear(module, slot);
            }
        }
        pool
    }

    fn clear(&mut self, module: usize, slot: usize) {
        for offset in 0..self.plan.length {
            self.rack.put(module, slot, offset, 0);
        }
    }

    pub fn label(&self) -> Vec<u8> {
        self.plan.label(self.phase == AFTER)
    }

    /// The modules out, below M.
    pub fn out(&self) -> Vec<usize> {
        (0..self.plan.modules()).filter(|&m| !self.rack.fitted(m)).collect()
    }

    // Groups

    pub fn settled(&self) -> Kind {
        if self.phase == AFTER {
            Kind::Row
        } else {
            Kind::Stripe
        }
    }

    pub fn groups(&self, kind: Kind) -> usize {
        match kind {
            Kind::Stripe => self.plan.stripes,
            Kind::Row => self.plan.rows,
        }
    }

    pub fn parities(&self, kind: Kind) -> usize {
        match kind {
            Kind::Stripe => self.plan.r,
            Kind::Row => self.plan.r2,
        }
    }

    fn group_of(&self, kind: Kind, chunk: usize) -> usize {
        match kind {
            Kind::Stripe => chunk / self.plan.d,
            Kind::Row => self.plan.cells[chunk].row,
        }
    }

    /// The chunks of a group: a stripe's by index, a row's by column.
    fn chunks(&self, kind: Kind, group: usize) -> Vec<usize> {
        match kind {
            Kind::Stripe => (group * self.plan.d..(group + 1) * self.plan.d).collect(),
            Kind::Row => self.plan.row_chunks(group),
        }
    }

    fn parity_place(&self, kind: Kind, group: usize, k: usize) -> (usize, usize) {
        let slot = match kind {
            Kind::Stripe => group,
            Kind::Row => self.plan.stripes + group,
        };
        (self.plan.d2 + k, slot)
    }

    /// All pieces of a group: its chunks, then its parities.
    fn pieces(&self, kind: Kind, group: usize) -> Vec<Piece> {
        let chunks = self.chunks(kind, group);
        let mut pieces = vec![];
        for &j in &chunks {
            let cell = self.plan.cells[j];
            let coefficients = chunks.iter().map(|&i| u16::from(i == j)).collect();
            pieces.push(Piece { module: cell.column, slot: cell.row, coefficients });
        }
        for k in 0..self.parities(kind) {
            let (module, slot) = self.parity_place(kind, group, k);
            let coefficients = chunks.iter().map(|&j| self.weights[k][j]).collect();
            pieces.push(Piece { module, slot, coefficients });
        }
        pieces
    }

    /// Whether a group misses more pieces than it has parities.
    pub fn beyond_repair(&self, kind: Kind, group: usize) -> bool {
        self.pieces(kind, group).iter().filter(|p| !self.rack.fitted(p.module)).count() > self.parities(kind)
    }

    /// The symbols of a group's chunks at an offset, from its first pieces on fitted modules.
    fn rebuild(&self, kind: Kind, group: usize, offset: usize) -> Vec<u16> {
        let pieces = self.pieces(kind, group);
        let size = pieces[0].coefficients.len();
        let known = pieces.into_iter().filter(|p| self.rack.fitted(p.module)).take(size);
        let equations = known.map(|p| {
            let symbol = self.rack.get(p.module, p.slot, offset).unwrap();
            p.coefficients.into_iter().chain([symbol]).collect()
        });
        self.field.solve(equations.collect())
    }

    fn sum_of_products(&self, a: &[u16], b: &[u16]) -> u16 {
        a.iter().zip(b).fold(0, |sum, (&a, &b)| self.field.add(sum, self.field.multiply(a, b)))
    }

    /// Adds to a symbol of the rack, if its module is fitted.
    fn add(&mut self, (module, slot): (usize, usize), offset: usize, symbol: u16) {
        if let Some(old) = self.rack.get(module, slot, offset) {
            self.rack.put(module, slot, offset, self.field.add(old, symbol));
        }
    }

    // Words

    fn check_word(&self, chunk: usize, offset: usize) -> Result<(), Refusal> {
        if chunk >= self.plan.chunks {
            return refuse(7, 1);
        }
        if offset >= self.plan.length {
            return refuse(7, 2);
        }
        Ok(())
    }

    fn check_repair(&self, chunk: usize) -> Result<(), Refusal> {
        let group = self.group_of(self.settled(), chunk);
        if !self.rack.fitted(self.plan.cells[chunk].column) && self.beyond_repair(self.settled(), group) {
            return refuse(14, group);
        }
        Ok(())
    }

    /// A word, rebuilt if its module is out.
    fn word(&self, chunk: usize, offset: usize) -> u16 {
        let cell = self.plan.cells[chunk];
        self.rack.get(cell.column, cell.row, offset).unwrap_or_else(|| {
            let kind = self.settled();
            let group = self.group_of(kind, chunk);
            let index = self.chunks(kind, group).iter().position(|&j| j == chunk).unwrap();
            self.rebuild(kind, group, offset)[index]
        })
    }

    pub fn read(&self, chunk: usize, offset: usize) -> Result<u16, Refusal> {
        self.check_word(chunk, offset)?;
        self.check_repair(chunk)?;
        Ok(self.word(chunk, offset))
    }

    pub fn write(&mut self, chunk: usize, offset: usize, symbol: u16) -> Result<(), Refusal> {
        self.check_word(chunk, offset)?;
        if symbol >= self.field.order() {
            return refuse(8, usize::from(symbol));
        }
        self.check_repair(chunk)?;
        let difference = self.field.subtract(symbol, self.word(chunk, offset));
        let cell = self.plan.cells[chunk];
        self.rack.put(cell.column, cell.row, offset, symbol);
        self.add_to_parities(self.settled(), chunk, offset, difference);
        if self.phase == UNDER_WAY && chunk / self.plan.d < self.carried {
            if self.encoded {
                self.stage();
            } else {
                self.add_to_parities(Kind::Row, chunk, offset, difference);
            }
        }
        Ok(())
    }

    /// Adds a chunk's share to the parities of its group.
    fn add_to_parities(&mut self, kind: Kind, chunk: usize, offset: usize, symbol: u16) {
        let group = self.group_of(kind, chunk);
        for k in 0..self.parities(kind) {
            let share = self.field.multiply(self.weights[k][chunk], symbol);
            self.add(self.parity_place(kind, group, k), offset, share);
        }
    }

    // Modules

    pub fn pull(&mut self, module: usize) -> Result<(), Refusal> {
        if module >= self.plan.modules() {
            return refuse(6, module);
        }
        if !self.rack.pull(module) {
            return refuse(10, module);
        }
        if self.phase == UNDER_WAY {
            self.phase = VOIDED;
        }
        Ok(())
    }

    pub fn refit(&mut self, module: usize) -> Result<(), Refusal> {
        if module >= self.plan.modules() {
            return refuse(6, module);
        }
        if self.rack.fitted(module) {
            return refuse(10, module);
        }
        let kind = self.settled();
        let mut rebuilt = vec![];
        for group in 0..self.groups(kind) {
            let pieces: Vec<Piece> = self.pieces(kind, group).into_iter().filter(|p| p.module == module).collect();
            if pieces.is_empty() {
                continue;
            }
            if self.beyond_repair(kind, group) {
                return refuse(14, group);
            }
            for offset in 0..self.plan.length {
                let chunks = self.rebuild(kind, group, offset);
                rebuilt.extend(pieces.iter().map(|p| (p.slot, offset, self.sum_of_products(&p.coefficients, &chunks))));
            }
        }
        self.rack.fit(module);
        for (slot, offset, symbol) in rebuilt {
            self.rack.put(module, slot, offset, symbol);
        }
        Ok(())
    }

    // The changeover

    pub fn begin(&mut self) -> Result<(), Refusal> {
        if self.phase != BEFORE {
            return refuse(9, self.phase);
        }
        if let Some(&module) = self.out().first() {
            return refuse(11, module);
        }
        for row in 0..self.plan.rows {
            for k in 0..self.plan.r2 {
                let (module, slot) = self.parity_place(Kind::Row, row, k);
                self.clear(module, slot);
            }
        }
        self.phase = UNDER_WAY;
        self.carried = 0;
        self.encoded = self.is_encoding(Kind::Stripe);
        Ok(())
    }

    /// Whether the parities of all groups, no module being out, are those of their chunks.
    fn is_encoding(&self, kind: Kind) -> bool {
        (0..self.groups(kind)).all(|group| {
            let (chunks, parities) = self.pieces(kind, group).into_iter().partition::<Vec<_>, _>(|p| p.module < self.plan.d2);
            (0..self.plan.length).all(|o| {
                let symbols: Vec<u16> = chunks.iter().map(|p| self.rack.get(p.module, p.slot, o).unwrap()).collect();
                parities.iter().all(|p| self.rack.get(p.module, p.slot, o) == Some(self.sum_of_products(&p.coefficients, &symbols)))
            })
        })
    }

    fn check_under_way(&self) -> Result<(), Refusal> {
        match self.phase {
            UNDER_WAY => Ok(()),
            VOIDED => refuse(12, 0),
            phase => refuse(9, phase),
        }
    }

    /// Answers how many data chunks and how many parity chunks were read.
    pub fn carry(&mut self) -> Result<(usize, usize), Refusal> {
        self.check_under_way()?;
        if self.carried == self.plan.stripes {
            return refuse(13, self.carried);
        }
        let stripe = self.carried;
        self.carried += 1;
        if self.encoded {
            self.stage();
        } else {
            self.convert(stripe);
        }
        if self.plan.r2 > self.plan.r {
            return Ok((self.plan.d, 0));
        }
        let chunks = self.chunks(Kind::Stripe, stripe);
        let outside = chunks.iter().filter(|&&j| self.plan.cells[j].row != self.plan.home[stripe]).count();
        Ok((outside, self.plan.r2))
    }

    /// Encodes the parities of all rows anew, with the chunks of stripes that are not yet carried taken as zero.
    fn stage(&mut self) {
        for row in 0..self.plan.rows {
            let chunks: Vec<usize> = self.chunks(Kind::Row, row).into_iter().filter(|j| j / self.plan.d < self.carried).collect();
            for k in 0..self.plan.r2 {
                let (module, slot) = self.parity_place(Kind::Row, row, k);
                for offset in 0..self.plan.length {
                    let shares = chunks.iter().map(|&j| self.field.multiply(self.weights[k][j], self.word(j, offset)));
                    let parity = shares.fold(0, |sum, share| self.field.add(sum, share));
                    self.rack.put(module, slot, offset, parity);
                }
            }
        }
    }

    /// Carries a stripe as the rules say it: from its parities where r' ≤ r, else from its chunks.
    fn convert(&mut self, stripe: usize) {
        let home = self.plan.home[stripe];
        let from_parities = self.plan.r2 <= self.plan.r;
        for k in 0..self.plan.r2 {
            for offset in 0..self.plan.length {
                let home_parity = self.parity_place(Kind::Row, home, k);
                if from_parities {
                    let (module, slot) = self.parity_place(Kind::Stripe, stripe, k);
                    let parity = self.rack.get(module, slot, offset).unwrap();
                    self.add(home_parity, offset, parity);
                }
                for j in self.chunks(Kind::Stripe, stripe) {
                    let row = self.plan.cells[j].row;
                    let share = self.field.multiply(self.weights[k][j], self.word(j, offset));
                    if from_parities && row == home {
                        continue;
                    }
                    if from_parities {
                        self.add(home_parity, offset, self.field.subtract(0, share));
                    }
                    self.add(self.parity_place(Kind::Row, row, k), offset, share);
                }
            }
        }
    }

    pub fn ready(&self) -> Result<(), Refusal> {
        self.check_under_way()?;
        if self.carried < self.plan.stripes {
            return refuse(13, self.carried);
        }
        Ok(())
    }

    pub fn close(&mut self) -> Result<(), Refusal> {
        self.ready()?;
        self.phase = AFTER;
        Ok(())
    }

    pub fn drop_order(&mut self) {
        if self.phase == UNDER_WAY || self.phase == VOIDED {
            self.phase = BEFORE;
        }
    }
}

#[cfg(test)]
mod tests {
    use super::*;
    use crate::random::Random;

    fn laid(field: Field, numbers: [u16; 5]) -> Pool {
        let [d, r, d2, r2, length] = numbers;
        let plan = Plan::new([field.order(), d, r, d2, r2, length]).unwrap();
        let rack = Rack::new(field.order(), plan.modules() as u16, plan.slots() as u16, length).unwrap();
        Pool::check(&plan, field, &rack, true).unwrap();
        Pool::lay(plan, field, rack)
    }

    /// The pool of the plan (2, 2, 3, 2) with the chunks 1, 2, 3, 4, 5, 7.
    fn worked(field: Field) -> Pool {
        let mut pool = laid(field, [2, 2, 3, 2, 1]);
        for (j, symbol) in [1, 2, 3, 4, 5, 7].into_iter().enumerate() {
            pool.write(j, 0, symbol).unwrap();
        }
        pool
    }

    fn parity(pool: &Pool, kind: Kind, group: usize, k: usize) -> u16 {
        let (module, slot) = pool.parity_place(kind, group, k);
        pool.rack.get(module, slot, 0).unwrap()
    }

    fn change_over(pool: &mut Pool) -> (usize, usize) {
        pool.begin().unwrap();
        let reads: Vec<_> = (0..pool.plan.stripes).map(|_| pool.carry().unwrap()).collect();
        pool.close().unwrap();
        reads.iter().fold((0, 0), |sum, read| (sum.0 + read.0, sum.1 + read.1))
    }

    #[test]
    fn worked_parities() {
        let mut pool = worked(Field::Byte);
        let pair = |pool: &Pool, kind, i| (parity(pool, kind, i, 0), parity(pool, kind, i, 1));
        assert_eq!([0, 1, 2].map(|i| pair(&pool, Kind::Stripe, i)), [(20, 41), (1, 27), (71, 58)]);
        assert_eq!(change_over(&mut pool), pool.plan.counts());
        assert_eq!([0, 1].map(|i| pair(&pool, Kind::Row, i)), [(155, 65), (201, 73)]);
        let mut pool = worked(Field::Prime);
        assert_eq!([0, 2].map(|i| parity(&pool, Kind::Stripe, i, 0)), [115, 233]);
        change_over(&mut pool);
        assert_eq!(parity(&pool, Kind::Row, 0, 0), 157);
    }

    #[test]
    fn worked_losses() {
        let mut pool = worked(Field::Byte);
        for module in [0, 1, 3] {
            pool.pull(module).unwrap();
        }
        assert_eq!(pool.read(2, 0), Ok(3));
        assert_eq!(pool.read(3, 0), Ok(4));
        assert_eq!(pool.read(0, 0), refuse(14, 0));
    }

    /// Every symbol in force on a fitted module is that of a fresh encoding of the image.
    fn check_symbols(pool: &Pool, image: &[Vec<u16>]) {
        let plan = &pool.plan;
        let mut wanted = vec![];
        for (j, cell) in plan.cells.iter().enumerate() {
            wanted.extend((0..plan.length).map(|o| (cell.column, cell.row, o, image[j][o])));
        }
        let staged = if pool.phase == UNDER_WAY { vec![Kind::Row] } else { vec![] };
        for kind in [pool.settled()].into_iter().chain(staged) {
            let counted = if kind == Kind::Row && pool.phase == UNDER_WAY { pool.carried * plan.d } else { plan.chunks };
            for group in 0..pool.groups(kind) {
                for k in 0..pool.parities(kind) {
                    for o in 0..plan.length {
                        let members = (0..counted).filter(|&j| pool.group_of(kind, j) == group);
                        let shares = members.map(|j| pool.field.multiply(pool.field.coefficient(k, plan.cells[j].x), image[j][o]));
                        let (module, slot) = pool.parity_place(kind, group, k);
                        wanted.push((module, slot, o, shares.fold(0, |sum, share| pool.field.add(sum, share))));
                    }
                }
            }
        }
        for (module, slot, offset, symbol) in wanted {
            assert!(!pool.rack.fitted(module) || pool.rack.get(module, slot, offset) == Some(symbol));
        }
    }

    /// Random calls: reads answer what was written, symbols in force are a fresh encoding, converting gives what encoding
    /// anew gives, and a closed changeover has read what the formulas say.
    #[test]
    fn random_calls() {
        let mut closed = 0;
        for seed in 0..300 {
            let random = &mut Random::new(seed);
            let (field, numbers) = random.good_plan();
            let mut pool = laid(field, [1, 2, 3, 4, 5].map(|i| numbers[i]));
            let mut image = vec![vec![0; pool.plan.length]; pool.plan.chunks];
            let mut reads = (0, 0);
            for _ in 0..120 {
                let (chunk, offset) = (random.below(pool.plan.chunks), random.below(pool.plan.length));
                let symbol = random.below(usize::from(field.order())) as u16;
                let module = random.below(pool.plan.modules());
                match random.below(if pool.phase == UNDER_WAY { 20 } else { 12 }) {
                    0 => {
                        pool.begin().ok();
                        reads = if pool.carried == 0 { (0, 0) } else { reads };
                    }
                    1 if pool.phase != UNDER_WAY || random.chance(20) => drop(pool.pull(module)),
                    2..=4 => drop(pool.refit(module)),
                    5..=8 => {
                        if pool.write(chunk, offset, symbol).is_ok() {
                            image[chunk][offset] = symbol;
                        }
                    }
                    9 => {
                        if let Ok(symbol) = pool.read(chunk, offset) {
                            assert_eq!(symbol, image[chunk][offset]);
                        }
                    }
                    10 if pool.phase == VOIDED => pool.drop_order(),
                    _ => {
                        let mut other = pool.clone();
                        other.encoded = false;
                        assert!(pool.phase != UNDER_WAY || pool.encoded);
                        if let Ok((data, parities)) = pool.carry() {
                            other.carry().unwrap();
                            assert_eq!(pool.rack, other.rack);
                            reads = (reads.0 + data, reads.1 + parities);
                        }
                        if pool.close().is_ok() {
                            closed += 1;
                            assert_eq!(reads, pool.plan.counts());
                        }
                    }
                }
                check_symbols(&pool, &image);
            }
        }
        assert!(closed > 100);
    }
}

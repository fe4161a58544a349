//! What a rack means. Both kinds mean the same, so that one stands for both.

#[derive(Clone, PartialEq, Debug)]
pub struct Rack {
    pub order: u16,
    pub slots: usize,
    pub length: usize,
    /// the symbols of each module, or nothing where it is out
    modules: Vec<Option<Vec<u16>>>,
}

impl Rack {
    /// A rack of zeros, unless a number is out of its bounds.
    pub fn new(order: u16, modules: u16, slots: u16, length: u16) -> Option<Rack> {
        let fine = order >= 2 && (1..=32).contains(&modules) && (1..=64).contains(&slots) && (1..=4096).contains(&length);
        let (slots, length) = (usize::from(slots), usize::from(length));
        fine.then(|| Rack { order, slots, length, modules: vec![Some(vec![0; slots * length]); usize::from(modules)] })
    }

    pub fn modules(&self) -> usize {
        self.modules.len()
    }

    pub fn fitted(&self, module: usize) -> bool {
        matches!(self.modules.get(module), Some(Some(_)))
    }

    fn cell(&mut self, module: usize, slot: usize, offset: usize) -> Option<&mut u16> {
        if slot >= self.slots || offset >= self.length {
            return None;
        }
        self.modules.get_mut(module)?.as_mut()?.get_mut(slot * self.length + offset)
    }

    pub fn get(&self, module: usize, slot: usize, offset: usize) -> Option<u16> {
        let inside = slot < self.slots && offset < self.length;
        let symbols = self.modules.get(module)?.as_ref()?;
        inside.then(|| symbols[slot * self.length + offset])
    }

    pub fn put(&mut self, module: usize, slot: usize, offset: usize, symbol: u16) -> bool {
        let fits = symbol < self.order;
        match self.cell(module, slot, offset) {
            Some(cell) if fits => {
                *cell = symbol;
                true
            }
            _ => false,
        }
    }

    pub fn pull(&mut self, module: usize) -> bool {
        let done = self.fitted(module);
        if done {
            self.modules[module] = None;
        }
        done
    }

    pub fn fit(&mut self, module: usize) -> bool {
        let done = module < self.modules.len() && !self.fitted(module);
        if done {
            self.modules[module] = Some(vec![0; self.slots * self.length]);
        }
        done
    }
}

//! Random scripts. Each line is played as it is made, so that the next can be chosen by the state: most calls are sensible
//! where they stand, and some are not.

use crate::field::{Field, FIELDS};
use crate::plan::Plan;
use crate::pool::{Pool, AFTER, BEFORE, UNDER_WAY, VOIDED};
use crate::script::Player;
use std::collections::VecDeque;

/// Numbers by xorshift.
pub struct Random(u64);

impl Random {
    pub fn new(seed: u64) -> Random {
        let mut random = Random(seed.wrapping_add(1).wrapping_mul(0x9E37_79B9_7F4A_7C15) | 1);
        for _ in 0..10 {
            random.next();
        }
        random
    }

    fn next(&mut self) -> u64 {
        self.0 ^= self.0 << 13;
        self.0 ^= self.0 >> 7;
        self.0 ^= self.0 << 17;
        self.0.wrapping_mul(0x2545_F491_4F6C_DD1D) >> 16
    }

    pub fn below(&mut self, n: usize) -> usize {
        (self.next() % n as u64) as usize
    }

    pub fn chance(&mut self, percent: usize) -> bool {
        self.below(100) < percent
    }

    fn pick<T: Copy>(&mut self, items: &[T]) -> T {
        items[self.below(items.len())]
    }

    fn between(&mut self, low: u16, high: u16) -> u16 {
        low + self.below(usize::from(high - low) + 1) as u16
    }

    /// One of the names, each as often as its weight says.
    fn weighted(&mut self, choices: &[(usize, &'static str)]) -> &'static str {
        let mut left = self.below(choices.iter().map(|c| c.0).sum());
        for &(weight, name) in choices {
            if left < weight {
                return name;
            }
            left -= weight;
        }
        unreachable!()
    }

    /// A field and the numbers of a plan that is not refused, wide as often as narrow.
    pub fn good_plan(&mut self) -> (Field, [u16; 6]) {
        let field = self.pick(&FIELDS);
        let (narrow, top) = (self.chance(50), if self.chance(20) { 14 } else { 6 });
        loop {
            let (d, d2) = (self.between(2, top), self.between(2, top));
            let length = if self.chance(85) { self.between(1, 3) } else { self.between(4, 7) + if self.chance(5) { 40 } else { 0 } };
            let numbers = [field.order(), d, self.between(1, 4), d2, self.between(1, 4), length];
            if (d2 < d) == narrow && Plan::new(numbers).is_ok() {
                return (field, numbers);
            }
        }
    }
}

/// Words in place of a number, and whole lines, with `|` between them.
const ODD_NUMBERS: &str = "0|1|4096|4097|65535|65536|70000|18446744073709551616|-1|+1|0x1|1.0|٣|1\t";
const ODD_LINES: &[u8] =
    b"|#|# a comment: read 0 0|#plan| # no comment| |   |\t|lay|lay bytes|lay Byte|open byte|open byte 0|open byte 0x|\
    READ 0 0|read|begin now|label 2|label 00|label 01|rack round 256 5 5 1|\
    rack flat 65535 32 64 4096|rack turning 65535 32 64 4096|put 31 63 4095 65534|get 31 63 4095|show\r|show \xff\xfe|\0";

struct Generator {
    random: Random,
    player: Player,
    text: Vec<u8>,
    /// lines that are already chosen
    queue: VecDeque<String>,
    /// how often, without a pool, one is set up: seldom in scripts that are about plans and racks
    setup_weight: usize,
    /// how often modules are pulled beyond repair
    loss_weight: usize,
}

/// A script with so many lines, most of them commands, and `show` at the end.
pub fn script(seed: u64, calls: usize) -> Vec<u8> {
    let mut random = Random::new(seed);
    let setup_weight = if random.chance(10) { 2 } else { 100 };
    let loss_weight = if random.chance(25) { 14 } else { 2 };
    let mut generator = Generator { random, player: Player::default(), text: vec![], queue: VecDeque::new(), setup_weight, loss_weight };
    for _ in 0..calls {
        let line = generator.next_line();
        generator.player.line(&line);
        generator.text.extend(line);
        generator.text.push(b'\n');
    }
    generator.text.extend(b"show");
    if generator.random.chance(80) {
        generator.text.push(b'\n');
    }
    generator.text
}

fn joined(name: &str, numbers: &[u16]) -> String {
    numbers.iter().fold(name.to_string(), |line, n| format!("{line} {n}"))
}

impl Generator {
    fn next_line(&mut self) -> Vec<u8> {
        if self.random.chance(2) {
            return self.random.pick(&ODD_LINES.split(|&b| b == b'|').collect::<Vec<_>>()).to_vec();
        }
        let line = match self.queue.pop_front() {
            Some(line) => line,
            None if self.player.pool.is_some() => self.pool_line(),
            None => self.bench_line(),
        };
        let spelled = match self.random.below(100) {
            0..=1 => self.damaged(&line),
            2..=4 => line.replace(' ', "  ") + " ",
            5 => format!("  {line}"),
            6 => line.split(' ').map(|word| if word.parse::<u16>().is_ok() { format!("00{word} ") } else { format!("{word} ") }).collect(),
            _ => line,
        };
        spelled.into_bytes()
    }

    /// A word removed, added or replaced.
    fn damaged(&mut self, line: &str) -> String {
        let mut words: Vec<&str> = line.split(' ').collect();
        let i = self.random.below(words.len());
        let odd = self.random.pick(&ODD_NUMBERS.split('|').collect::<Vec<_>>());
        match self.random.below(3) {
            0 => drop(words.remove(i)),
            1 => words.insert(i + 1, odd),
            _ => words[i] = odd,
        }
        words.join(" ")
    }

    // Without a pool

    fn bench_line(&mut self) -> String {
        let choices = [
            (self.setup_weight, "setup"),
            (8, "plan"),
            (4, "map"),
            (4, "label"),
            (6, "rack"),
            (60, "rack call"),
            (3, "open"),
            (3, "lay"),
            (5, "pool call"),
        ];
        match self.random.weighted(&choices) {
            "setup" => self.setup(),
            "plan" => self.plan_line(),
            "map" => "map".to_string(),
            "label" => self.random.pick(&["label 0", "label 1", "label"]).to_string(),
            "rack" => self.rack_line(),
            "rack call" => self.rack_call(),
            "open" => self.open_line(),
            "lay" => format!("lay {}", self.random.pick(&FIELDS).name()),
            _ => self
                .random
                .pick(&["read 0 0", "write 0 0 1", "pull 0", "refit 0", "begin", "carry", "ready", "close", "drop", "show"])
                .to_string(),
        }
    }

    /// A plan, a rack for it, and a pool: laid, or opened over what stands in the rack.
    fn setup(&mut self) -> String {
        let (field, mut numbers) = self.random.good_plan();
        let plan = Plan::new(numbers).unwrap();
        let kind = self.random.pick(&["flat", "turning"]);
        let mut sizes = [field.order(), plan.modules() as u16, plan.slots() as u16, numbers[5]];
        for size in &mut sizes[1..] {
            *size += if self.random.chance(40) { self.random.between(1, 3) } else { 0 };
        }
        let misfit = self.random.chance(12);
        if misfit {
            // one number that does not fit
            match self.random.below(5) {
                0 => numbers[0] = self.random.pick(&[16, 256, 257, 1000]),
                1 => sizes[0] = self.random.pick(&[16, 256, 257, 65535]),
                i => sizes[i - 1] = sizes[i - 1].saturating_sub(self.random.between(1, 3)),
            }
        }
        self.queue.push_back(joined(&format!("rack {kind}"), &sizes));
        if self.random.chance(20) {
            self.queue.push_back("map".to_string());
        }
        let open = self.random.chance(30);
        if open || self.random.chance(20) {
            let puts = self.random.below(40);
            for _ in 0..puts {
                let place = [sizes[1], sizes[2], sizes[3], field.order()].map(|n| self.random.below(usize::from(n).max(1)) as u16);
                self.queue.push_back(joined("put", &place));
            }
        }
        let pulls = if self.random.chance(if open { 40 } else { 12 }) { self.random.between(1, 2) } else { 0 };
        for _ in 0..pulls {
            self.queue.push_back(format!("pull-module {}", self.random.below(usize::from(sizes[1]).max(1))));
        }
        if open {
            let label = plan.label(self.random.chance(30));
            let hex = self.hexadecimal(&label);
            self.queue.push_back(format!("open {} {hex}", field.name()));
            self.queue.push_back("show".to_string());
        } else {
            self.queue.push_back(format!("lay {}", field.name()));
            for chunk in 0..if misfit { 1 } else { plan.chunks.min(12) } {
                let symbol = self.symbol(field.order());
                self.queue.push_back(format!("write {chunk} {} {symbol}", self.random.below(plan.length)));
            }
        }
        joined("plan", &numbers)
    }

    fn plan_line(&mut self) -> String {
        let (_, mut numbers) = self.random.good_plan();
        if self.random.chance(30) {
            // often too few parities, or too few codes
            numbers =
                [self.random.pick(&[16, 20, 256]), self.random.between(6, 14), self.random.between(1, 3), self.random.between(2, 14), 1, 1];
        } else if self.random.chance(60) {
            let i = self.random.below(6);
            numbers[i] = self.random.pick(&[0, 1, 2, 4, 5, 14, 15, 16, 17, 257, 4096, 4097, 65535]);
        }
        joined("plan", &numbers)
    }

    fn rack_line(&mut self) -> String {
        let mut sizes =
            [self.random.pick(&[2, 16, 256, 257, 65535]), self.random.between(1, 8), self.random.between(1, 8), self.random.between(1, 4)];
        if self.random.chance(50) {
            let i = self.random.below(4);
            sizes[i] = self.random.pick(&[0, 1, 32, 33, 64, 65, 4096, 4097, 65535]);
        }
        joined(self.random.pick(&["rack flat", "rack turning"]), &sizes)
    }

    fn rack_call(&mut self) -> String {
        let sizes = self.player.any_rack().map_or([3, 3, 3, 20], |r| [r.modules(), r.slots, r.length, usize::from(r.order)]);
        let place = sizes.map(|n| self.random.below(n + n / 8 + 1) as u16);
        match self.random.below(10) {
            0..=3 => joined("put", &place),
            4..=6 => joined("get", &place[..3]),
            7 => joined("pull-module", &place[..1]),
            8 => joined("fit-module", &place[..1]),
            _ => joined("ask", &place[..1]),
        }
    }

    fn hexadecimal(&mut self, bytes: &[u8]) -> String {
        let upper = self.random.chance(30);
        bytes.iter().map(|b| if upper { format!("{b:02X}") } else { format!("{b:02x}") }).collect()
    }

    /// Opens by the label of the pool or of the plan, or by one that is damaged.
    fn open_line(&mut self) -> String {
        let after = self.random.chance(50);
        let mut label = match (&self.player.pool, &self.player.plan) {
            (Some(pool), _) => pool.label(),
            (None, Some(plan)) => plan.label(after),
            _ => vec![0; 16],
        };
        let order = self.player.any_rack().map_or(256, |rack| rack.order);
        let mut field = FIELDS.into_iter().find(|f| f.order() == order).unwrap_or(Field::Byte);
        match self.random.below(20) {
            0..=1 => label[14] ^= 1,
            2 => label.truncate(self.random.below(16).max(1)),
            3 => label.extend([0; 3]),
            4..=5 => {
                let i = self.random.pick(&[0, 1, 2, 3, 4, 6, 6, 8, 8, 10, 12, 13, 14, 15]);
                label[i] = self.random.pick(&[0, 1, 2, 3, 5, 255]);
            }
            6 => label = Plan::new(self.random.good_plan().1).unwrap().label(after),
            7..=10 => label = self.other_label(&label, after),
            11 => field = self.random.pick(&FIELDS),
            _ => {}
        }
        let mut hex = self.hexadecimal(&label);
        if self.random.chance(3) {
            hex.pop();
        }
        format!("open {} {hex}", field.name())
    }

    /// The label of a plan, if one is found, that fits into all of the rack: its pool shows symbols that none had before.
    fn other_label(&mut self, label: &[u8], after: bool) -> Vec<u8> {
        let Some(rack) = self.player.any_rack() else { return label.to_vec() };
        let (order, modules, slots, length) = (rack.order, rack.modules(), rack.slots, rack.length);
        let plans =
            (0..200).map(|_| self.random.good_plan().1).filter_map(|n| Plan::new([order, n[1], n[2], n[3], n[4], length as u16]).ok());
        let fitting = plans.filter(|p| p.modules() <= modules && p.slots() <= slots);
        fitting.max_by_key(|p| p.modules() * p.slots()).map_or(label.to_vec(), |p| p.label(after))
    }

    // With a pool

    fn pool(&self) -> &Pool {
        self.player.pool.as_ref().unwrap()
    }

    fn pool_line(&mut self) -> String {
        let pool = self.pool();
        let (out, parities) = (pool.out().len(), pool.parities(pool.settled()));
        let all = pool.carried == pool.plan.stripes;
        // pulls are rare where a group may be beyond repair, and then the pool is soon given up
        let pull = if out < parities { 5 } else { self.loss_weight };
        let refit = if out > 0 { 14 } else { 1 };
        let give_up = if out > parities { 6 } else { 1 };
        let mut choices =
            vec![(4, "show"), (1, "label"), (1, "other"), (give_up, "setup"), (1, "lay"), (1, "open"), (2, "step"), (1, "drop")];
        choices.extend(match pool.phase {
            BEFORE => {
                [(20, "read"), (30, "write"), (pull, "pull"), (refit, "refit"), (if out == 0 { 15 } else { 2 }, "begin"), (1, "open")]
            }
            UNDER_WAY if all => [(6, "read"), (12, "write"), (1, "pull"), (1, "refit"), (8, "step"), (20, "close")],
            UNDER_WAY => [(8, "read"), (25, "write"), (3, "pull"), (1, "refit"), (1, "begin"), (40, "carry")],
            VOIDED => [(10, "read"), (20, "write"), (2, "pull"), (14, "refit"), (2, "begin"), (4, "drop")],
            AFTER => [(20, "read"), (25, "write"), (pull, "pull"), (refit, "refit"), (3, "lay"), (3, "open")],
            _ => unreachable!(),
        });
        match self.random.weighted(&choices) {
            "read" => self.word_line("read"),
            "write" => {
                let symbol = self.symbol(self.pool().plan.order);
                format!("{} {symbol}", self.word_line("write"))
            }
            "pull" => format!("pull {}", self.module(true)),
            "refit" => format!("refit {}", self.module(false)),
            "step" => self.random.pick(&["carry", "ready", "close"]).to_string(),
            "setup" => self.setup(),
            "open" => {
                self.queue.push_back("show".to_string());
                self.open_line()
            }
            "lay" => format!("lay {}", if self.random.chance(80) { self.pool().field } else { self.random.pick(&FIELDS) }.name()),
            "other" => match self.random.below(5) {
                0 => self.plan_line(),
                1 => "map".to_string(),
                2 => "label 1".to_string(),
                3 => self.rack_line(),
                _ => self.rack_call(),
            },
            name => name.to_string(),
        }
    }

    /// A chunk, often one whose module is out, and an offset; at times there is no such word.
    fn word_line(&mut self, name: &str) -> String {
        let plan = &self.player.pool.as_ref().unwrap().plan;
        let (chunks, length) = (plan.chunks, plan.length);
        let pool = self.pool();
        let gone: Vec<usize> = (0..chunks).filter(|&j| !pool.rack.fitted(pool.plan.cells[j].column)).collect();
        let chunk = match self.random.below(100) {
            0..=1 => chunks + self.random.below(3),
            2 => 65535,
            3..=50 if !gone.is_empty() => self.random.pick(&gone),
            _ => self.random.below(chunks),
        };
        let offset = if self.random.chance(2) { length + self.random.below(2) } else { self.random.below(length) };
        format!("{name} {chunk} {offset}")
    }

    fn symbol(&mut self, order: u16) -> u16 {
        match self.random.below(100) {
            0..=3 => order.saturating_add(self.random.between(0, 2)),
            4 => 65535,
            5..=10 => self.random.between(0, 1),
            11..=20 => order - 1,
            _ => self.random.below(usize::from(order)) as u16,
        }
    }

    /// A module that is fitted, or one that is out; at times any number.
    fn module(&mut self, fitted: bool) -> usize {
        let (rack, modules) = (&self.pool().rack, self.pool().plan.modules());
        let fit: Vec<usize> = (0..modules).filter(|&m| rack.fitted(m) == fitted).collect();
        match self.random.below(20) {
            0..=1 => self.random.below(modules + 3),
            _ if !fit.is_empty() => self.random.pick(&fit),
            _ => self.random.below(modules),
        }
    }
}

#[cfg(test)]
mod tests {
    use super::*;
    use crate::script::play;

    /// Scripts reach every refusal, and deep states often.
    #[test]
    fn scripts_go_deep() {
        let output: Vec<u8> = (0..200).flat_map(|seed| play(&script(seed, 300))).collect();
        let text = String::from_utf8_lossy(&output);
        let count = |part: &str| text.matches(part).count();
        assert!((1..16).all(|number| count(&format!(": refused {number} ")) > 2));
        assert!(["no plan", "no rack", "no pool", "not understood", "nothing done"].iter().all(|answer| count(answer) > 10));
        assert!((0..4).all(|phase| count(&format!(": phase {phase}, ")) > 50));
        assert!(count("\ncarry: ok") > 1000 && count("\nclose: ok") > 300);
        assert_eq!(script(5, 100), script(5, 100));
    }
}

//! Plays a script as the program `sample` must.

use crate::field::{Field, FIELDS};
use crate::plan::{Plan, Refusal};
use crate::pool::{Pool, UNDER_WAY, VOIDED};
use crate::rack::Rack;
use std::fmt::Display;

/// The plan in use, and the rack in use or the pool that has it.
#[derive(Default)]
pub struct Player {
    pub plan: Option<Plan>,
    pub rack: Option<Rack>,
    pub pool: Option<Pool>,
}

/// What must be printed for a whole script.
pub fn play(script: &[u8]) -> Vec<u8> {
    let mut player = Player::default();
    script.split(|&b| b == b'\n').flat_map(|line| player.line(line)).collect()
}

fn number(word: &str) -> Option<u16> {
    let digits = !word.is_empty() && word.bytes().all(|b| b.is_ascii_digit());
    let value = word.bytes().fold(0, |value, b| (value * 10 + u32::from(b.wrapping_sub(b'0'))).min(100_000));
    (digits && value <= 65_535).then_some(value as u16)
}

fn numbers<const N: usize>(words: &[&str]) -> Option<[u16; N]> {
    let values: Option<Vec<u16>> = words.iter().map(|word| number(word)).collect();
    values?.try_into().ok()
}

fn field_named(word: &str) -> Option<Field> {
    FIELDS.into_iter().find(|field| field.name() == word)
}

fn bytes_of(hex: &str) -> Option<Vec<u8>> {
    let digits: Option<Vec<u32>> = hex.chars().map(|c| c.to_digit(16)).collect();
    let digits = digits.filter(|d| d.len() >= 2 && d.len() % 2 == 0)?;
    Some(digits.chunks(2).map(|pair| (pair[0] * 16 + pair[1]) as u8).collect())
}

/// Each after a space.
fn listed<T: Display>(items: impl IntoIterator<Item = T>) -> String {
    items.into_iter().map(|item| format!(" {item}")).collect()
}

fn done(did: bool) -> String {
    if did { "done" } else { "nothing done" }.to_string()
}

fn ok(answer: Result<(), Refusal>) -> String {
    answer.map_or_else(|refusal| refusal.to_string(), |()| "ok".to_string())
}

fn shown_label(label: &[u8]) -> String {
    format!("ok{}", listed(label.iter().map(|byte| format!("{byte:02x}"))))
}

fn map(plan: &Plan) -> String {
    let mut text = format!("l {}, stripes {}, rows {}, ", plan.chunks, plan.stripes, plan.rows);
    text += &format!("modules {}, slots {}\n", plan.modules(), plan.slots());
    for row in 0..plan.rows {
        text += &format!("row {row}:{}\n", listed(plan.row_chunks(row)));
    }
    let (data, parities) = plan.counts();
    text += &format!("home:{}\ncounts: {data} data, {parities} parities\n", listed(&plan.home));
    text + &format!("re-encoding: {} data", plan.chunks)
}

fn show(pool: &Pool) -> String {
    let carried = if pool.phase == UNDER_WAY || pool.phase == VOIDED { pool.carried } else { 0 };
    let mut text = format!("phase {}, carried {carried}, out{}", pool.phase, listed(pool.out()));
    for module in (0..pool.plan.modules()).filter(|&m| pool.rack.fitted(m)) {
        for slot in 0..pool.plan.slots() {
            let symbols = (0..pool.plan.length).map(|offset| pool.rack.get(module, slot, offset).unwrap());
            text += &format!("\nmodule {module} slot {slot}:{}", listed(symbols));
        }
    }
    text
}

impl Player {
    /// What must be printed for a line.
    pub fn line(&mut self, line: &[u8]) -> Vec<u8> {
        if line.is_empty() || line[0] == b'#' {
            return vec![];
        }
        let text = String::from_utf8_lossy(line);
        let words: Vec<&str> = text.split(' ').filter(|word| !word.is_empty()).collect();
        let answer = self.answer(&words).unwrap_or_else(|| "not understood".to_string());
        [line, b": ", answer.as_bytes(), b"\n"].concat()
    }

    /// The answer to a command, or nothing where it is not understood.
    fn answer(&mut self, words: &[&str]) -> Option<String> {
        let (&name, arguments) = words.split_first()?;
        match (name, arguments.len()) {
            ("plan", 6) => {
                let made = Plan::new(numbers(arguments)?);
                Some(ok(made.map(|plan| self.plan = Some(plan))))
            }
            ("map", 0) => Some(self.plan.as_ref().map_or("no plan".to_string(), map)),
            ("label", 1) => {
                let after = number(arguments[0]).filter(|&flag| flag <= 1)? == 1;
                Some(self.plan.as_ref().map_or("no plan".to_string(), |plan| shown_label(&plan.label(after))))
            }
            ("rack", 5) => {
                let [order, modules, slots, length] = numbers(&arguments[1..])?;
                if arguments[0] != "flat" && arguments[0] != "turning" {
                    return None;
                }
                let Some(rack) = Rack::new(order, modules, slots, length) else {
                    return Some(Refusal { number: 1, place: 0 }.to_string());
                };
                self.pool = None;
                self.rack = Some(rack);
                Some("ok".to_string())
            }
            ("get", 3) | ("put", 4) | ("pull-module" | "fit-module" | "ask", 1) => self.rack_call(name, arguments),
            ("lay", 1) => {
                let field = field_named(arguments[0])?;
                Some(self.lay(field))
            }
            ("open", 2) => {
                let (field, label) = (field_named(arguments[0])?, bytes_of(arguments[1])?);
                Some(self.open(field, &label))
            }
            _ => self.pool_call(name, arguments),
        }
    }

    fn rack_call(&mut self, name: &str, arguments: &[&str]) -> Option<String> {
        let values: Vec<usize> = arguments.iter().map(|word| number(word).map(usize::from)).collect::<Option<_>>()?;
        let Some(rack) = &mut self.rack else { return Some("no rack".to_string()) };
        Some(match name {
            "get" => rack.get(values[0], values[1], values[2]).map_or("nothing".to_string(), |symbol| format!("ok {symbol}")),
            "put" => done(rack.put(values[0], values[1], values[2], values[3] as u16)),
            "pull-module" => done(rack.pull(values[0])),
            "fit-module" => done(rack.fit(values[0])),
            _ => if rack.fitted(values[0]) { "fitted" } else { "out" }.to_string(),
        })
    }

    /// The rack in use, or that of the pool.
    pub fn any_rack(&self) -> Option<&Rack> {
        self.rack.as_ref().or(self.pool.as_ref().map(|pool| &pool.rack))
    }

    fn take_rack(&mut self) -> Rack {
        let rack = self.rack.take();
        rack.unwrap_or_else(|| self.pool.take().unwrap().rack)
    }

    fn lay(&mut self, field: Field) -> String {
        let Some(plan) = self.plan.clone() else { return "no plan".to_string() };
        let Some(rack) = self.any_rack() else { return "no rack".to_string() };
        ok(Pool::check(&plan, field, rack, true).map(|()| self.pool = Some(Pool::lay(plan, field, self.take_rack()))))
    }

    fn open(&mut self, field: Field, label: &[u8]) -> String {
        let Some(rack) = self.any_rack() else { return "no rack".to_string() };
        let read = Plan::from_label(label).and_then(|(plan, after)| {
            Pool::check(&plan, field, rack, false)?;
            Ok((plan, after))
        });
        ok(read.map(|(plan, after)| self.pool = Some(Pool::open(plan, field, self.take_rack(), after))))
    }

    fn pool_call(&mut self, name: &str, arguments: &[&str]) -> Option<String> {
        let count = match name {
            "read" => 2,
            "write" => 3,
            "pull" | "refit" => 1,
            "begin" | "carry" | "ready" | "close" | "drop" | "show" | "label" => 0,
            _ => return None,
        };
        let values: Vec<u16> = arguments.iter().map(|word| number(word)).collect::<Option<_>>()?;
        if values.len() != count {
            return None;
        }
        let Some(pool) = &mut self.pool else { return Some("no pool".to_string()) };
        let at = |i: usize| usize::from(values[i]);
        Some(match name {
            "read" => pool.read(at(0), at(1)).map_or_else(|refusal| refusal.to_string(), |symbol| format!("ok {symbol}")),
            "write" => ok(pool.write(at(0), at(1), values[2])),
            "pull" => ok(pool.pull(at(0))),
            "refit" => ok(pool.refit(at(0))),
            "begin" => ok(pool.begin()),
            "carry" => pool.carry().map_or_else(|refusal| refusal.to_string(), |(data, parities)| format!("ok {data} {parities}")),
            "ready" => ok(pool.ready()),
            "close" => ok(pool.close()),
            "drop" => {
                pool.drop_order();
                "ok".to_string()
            }
            "show" => show(pool),
            _ => shown_label(&pool.label()),
        })
    }
}

#[cfg(test)]
mod tests {
    use super::*;

    fn answers(script: &str) -> String {
        String::from_utf8(play(script.as_bytes())).unwrap()
    }

    #[test]
    fn numbers_and_labels() {
        assert_eq!(["0", "007", "65535"].map(number), [Some(0), Some(7), Some(65535)]);
        assert_eq!(["", "65536", "-1", "+1", "1x", "99999999999999999999999"].map(number), [None; 6]);
        assert_eq!(bytes_of("0aFf"), Some(vec![10, 255]));
        assert_eq!(["", "0", "000", "0g"].map(bytes_of), [None, None, None, None]);
    }

    #[test]
    fn a_script() {
        let setup = "plan 257 2 2 3 2 1\nrack flat 257 5 5 1\nlay prime\n";
        let writes: String = [1, 2, 3, 4, 5, 7].iter().enumerate().map(|(j, symbol)| format!("write {j} 0 {symbol}\n")).collect();
        let before: String = (setup.to_string() + &writes).lines().map(|line| format!("{line}: ok\n")).collect();
        let script = "# over\n\nbegin\ncarry\ncarry\npull 0\nclose\ndrop\nrefit 0\nbegin\n carry \ncarry\ncarry\nclose\nget 0 0 0\nshow";
        let mut wanted =
            "begin: ok\ncarry: ok 0 2\ncarry: ok 0 2\npull 0: ok\nclose: refused 12 pool 0\ndrop: ok\nrefit 0: ok\n".to_string();
        wanted +=
            "begin: ok\n carry : ok 0 2\ncarry: ok 0 2\ncarry: ok 1 2\nclose: ok\nget 0 0 0: no rack\nshow: phase 3, carried 0, out\n";
        let found = answers(&(setup.to_string() + &writes + script));
        assert!(found.starts_with(&(before + &wanted)));
        assert!(found.contains("\nmodule 3 slot 0: 115\n") && found.contains("\nmodule 3 slot 2: 233\n"));
        assert!(found.contains("\nmodule 3 slot 3: 157\n"));
    }
}

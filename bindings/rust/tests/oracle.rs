//! A thousand random plans, played here and by the crate that this database was carried over from. TOTDB_ORACLE names the
//! oracle program; without it the test says that it is skipped. The plans keep to what the two have in common: with a dummy
//! in the plan only the direction If is demanded, and no value is asked for (docs/DIFFERENCES.md).
use std::io::Write;
use std::process::{Command, Stdio};
use totdb::{Db, NodeId, Refusal, Semantics};

const PLANS: u64 = 1000;

/// A small generator of pseudo-random numbers (xorshift).
struct Dice(u64);

impl Dice {
    fn below(&mut self, n: usize) -> usize {
        self.0 ^= self.0 << 13;
        self.0 ^= self.0 >> 7;
        self.0 ^= self.0 << 17;
        (self.0 % n as u64) as usize
    }
}

/// A plan as it is played: the lines for the oracle, and what the database answered to each.
struct Plan {
    dice: Dice,
    db: Db,
    inputs: usize,
    general: Vec<bool>,
    has_dummy: bool,
    lines: Vec<String>,
    answers: Vec<String>,
}

impl Plan {
    fn new(seed: u64) -> Plan {
        let mut dice = Dice(seed.wrapping_mul(0x9e37_79b9_7f4a_7c15) | 1);
        let inputs = 1 + dice.below(6);
        let db = Db::new(inputs + 1, 100_000).unwrap();
        let lines = vec![format!("fresh {} 100000", inputs + 1)];
        let answers = vec![format!("ok |  | {}", inputs + 1)];
        Plan {
            dice,
            db,
            inputs,
            general: Vec::new(),
            has_dummy: false,
            lines,
            answers,
        }
    }

    /// Notes a line and what it answered; the clauses are those that the call appended.
    fn note(&mut self, line: String, answer: String) {
        let words: Vec<String> = self.db.words().iter().map(i32::to_string).collect();
        self.lines.push(line);
        self.answers.push(format!(
            "{answer} | {} | {}",
            words.join(" "),
            self.db.next_variable()
        ));
        self.db.empty_clauses().unwrap();
    }

    fn node(&mut self) -> NodeId {
        NodeId(self.dice.below(self.general.len()))
    }

    fn added(&mut self, line: String, id: NodeId, general: bool) {
        if id.0 == self.general.len() {
            self.general.push(general);
        }
        self.note(line, id.0.to_string());
    }

    fn leaves(&mut self) {
        for _ in 0..1 + self.dice.below(6) {
            let variable = 1 + self.dice.below(self.inputs) as i32;
            let x = if self.dice.below(3) == 0 {
                -variable
            } else {
                variable
            };
            let id = self.db.leaf(x).unwrap();
            self.added(format!("leaf {x}"), id, false);
        }
        if self.dice.below(4) == 0 {
            self.has_dummy = true;
            let id = self.db.dummy().unwrap();
            self.added("dummy".into(), id, false);
        }
    }

    fn join(&mut self) {
        let (a, b) = (self.node(), self.node());
        let plain = !self.general[a.0] && !self.general[b.0];
        let (mut x, mut y) = (1, 1);
        if self.dice.below(3) == 0 || !plain {
            (x, y) = (1 + self.dice.below(4), 1 + self.dice.below(4));
        }
        // what is refused here is a panic or a wrong count there
        if let Ok(id) = self.db.inner(a, x, b, y) {
            self.added(
                format!("join {} {x} {} {y}", a.0, b.0),
                id,
                !(plain && x == y),
            );
        }
    }

    fn count(&mut self) {
        let node = self.node();
        let outputs = self.db.values(node).unwrap().len();
        if self.general[node.0] || outputs == 0 {
            return;
        }
        let index = self.dice.below(outputs);
        let (semantics, word) = match if self.has_dummy {
            0
        } else {
            self.dice.below(3)
        } {
            0 => (Semantics::If, "if"),
            1 => (Semantics::OnlyIf, "onlyif"),
            _ => (Semantics::IfAndOnlyIf, "both"),
        };
        let lit = self.db.define_unweighted(node, index, semantics).unwrap();
        self.note(format!("count {} {index} {word}", node.0), lit.to_string());
    }

    fn sum(&mut self) {
        let node = self.node();
        let values = self.db.values(node).unwrap();
        let Some(&most) = values.last() else { return };
        let value = if self.dice.below(3) == 0 {
            1 + self.dice.below(most as usize)
        } else {
            values[self.dice.below(values.len())] as usize
        };
        let answer = match self.db.define_weighted(node, value) {
            Ok(lit) => lit.to_string(),
            Err(Refusal::NoSuchOutput) => "none".into(),
            Err(why) => panic!("{why}"),
        };
        self.note(format!("sum {} {value}", node.0), answer);
    }

    fn upkeep(&mut self) {
        let node = self.node();
        match self.dice.below(4) {
            0 => {
                self.db.reserve_vars(node).unwrap();
                self.note(format!("reserve {}", node.0), "ok".into());
            }
            1 => {
                self.db.reset().unwrap();
                self.note("reset".into(), "ok".into());
            }
            _ if !self.has_dummy => {
                let bits: Vec<bool> = (0..self.inputs).map(|_| self.dice.below(2) == 1).collect();
                let text: String = bits.iter().map(|&b| if b { '1' } else { '0' }).collect();
                let value = self.db.value(node, &bits).unwrap();
                self.note(format!("value {} {text}", node.0), value.to_string());
            }
            _ => {}
        }
    }

    fn play(&mut self) {
        self.leaves();
        for _ in 0..2 + self.dice.below(6) {
            self.join();
        }
        for _ in 0..4 + self.dice.below(8) {
            match self.dice.below(8) {
                0..=2 => self.count(),
                3..=5 => self.sum(),
                6 => self.upkeep(),
                _ => self.join(),
            }
        }
        assert!(self.db.check());
    }
}

/// What the oracle says to these lines.
fn ask(program: &str, lines: &[String]) -> Vec<String> {
    let mut child = Command::new(program)
        .stdin(Stdio::piped())
        .stdout(Stdio::piped())
        .spawn()
        .expect("the oracle starts");
    let mut input = child.stdin.take().expect("piped");
    let text = lines.join("\n") + "\n";
    let writer = std::thread::spawn(move || input.write_all(text.as_bytes()));
    let output = child.wait_with_output().expect("the oracle ends");
    writer.join().expect("writer").expect("the oracle reads");
    String::from_utf8(output.stdout)
        .expect("text")
        .lines()
        .map(tidy)
        .collect()
}

fn tidy(line: &str) -> String {
    line.split('|').map(str::trim).collect::<Vec<_>>().join("|")
}

#[test]
fn a_thousand_plans() {
    let mut lines = Vec::new();
    let mut answers = Vec::new();
    for seed in 1..=PLANS {
        let mut plan = Plan::new(seed);
        plan.play();
        lines.append(&mut plan.lines);
        answers.append(&mut plan.answers);
    }
    let Ok(program) = std::env::var("TOTDB_ORACLE") else {
        // not by eprintln, which the test runner keeps to itself
        let line = format!("SKIPPED: {PLANS} plans were played, and not compared: set TOTDB_ORACLE to the oracle program\n");
        std::io::stderr()
            .write_all(line.as_bytes())
            .expect("stderr");
        return;
    };
    let theirs = ask(&program, &lines);
    assert_eq!(theirs.len(), lines.len());
    for (at, (line, (ours, theirs))) in lines.iter().zip(answers.iter().zip(&theirs)).enumerate() {
        assert_eq!(&tidy(ours), theirs, "line {at}: {line}");
    }
    println!(
        "{PLANS} plans, {} calls: equal to the oracle's",
        lines.len()
    );
}

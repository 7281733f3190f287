//! Which of eight parcels a site takes in, under its count cap and its weight cap: `site CNF-FILE`. The clauses go to the
//! file, and a SAT solver answers: cadical, or the one that SOLVER names, which takes `-q FILE` and writes `s` and `v` lines.
use std::fmt::Write as _;
use std::process::Command;
use totdb::{Db, NodeId, Refusal, Semantics};

/// The parcels with their weights in kg, two to a van. Parcel n is variable n: true where the site takes it in.
const PARCELS: [(&str, usize); 8] = [
    ("books", 3),
    ("boots", 5),
    ("lamp", 2),
    ("anvil", 7),
    ("kettle", 4),
    ("tea", 2),
    ("saw", 6),
    ("honey", 3),
];

/// Each van drops one of its two parcels at least; the lamp and the tea want the one dry shelf, and the books and the honey
/// the one high shelf.
const RULES: [[i32; 2]; 6] = [[1, 2], [3, 4], [5, 6], [7, 8], [-3, -6], [-1, -8]];

struct Site {
    db: Db,
    /// the inner nodes, for the reader
    tree: Vec<String>,
    count: NodeId,
    weight: NodeId,
}

impl Site {
    /// Two trees over the same leaves: `count` counts the parcels, `weight` adds up their weights.
    fn new() -> Result<Site, Refusal> {
        let mut db = Db::new(PARCELS.len() + 1, 1000)?;
        let mut leaves = Vec::new();
        for parcel in 1..=PARCELS.len() {
            leaves.push(db.leaf(parcel as i32)?);
        }
        let mut site = Site {
            db,
            tree: Vec::new(),
            count: leaves[0],
            weight: leaves[0],
        };
        let mut counts = Vec::new();
        let mut weights = Vec::new();
        for (van, pair) in leaves.chunks(2).enumerate() {
            let (left, right) = (PARCELS[2 * van].1, PARCELS[2 * van + 1].1);
            counts.push(site.join(pair[0], 1, pair[1], 1)?);
            weights.push(site.join(pair[0], left, pair[1], right)?);
        }
        site.count = site.top(&counts)?;
        site.weight = site.top(&weights)?;
        Ok(site)
    }

    fn join(&mut self, left: NodeId, x: usize, right: NodeId, y: usize) -> Result<NodeId, Refusal> {
        let node = self.db.inner(left, x, right, y)?;
        let values = self.db.values(node)?;
        self.tree.push(format!(
            "node {}: {x} * node {} + {y} * node {}, {} values",
            node.0,
            left.0,
            right.0,
            values.len()
        ));
        Ok(node)
    }

    /// The nodes joined two by two until one is left.
    fn top(&mut self, nodes: &[NodeId]) -> Result<NodeId, Refusal> {
        if let [one] = nodes {
            return Ok(*one);
        }
        let (left, right) = nodes.split_at(nodes.len() / 2);
        let (left, right) = (self.top(left)?, self.top(right)?);
        self.join(left, 1, right, 1)
    }

    /// At most `cap` parcels: "at least cap + 1" is demanded, and forbidden.
    fn cap_count(&mut self, cap: usize) -> Result<Vec<i32>, Refusal> {
        Ok(vec![-self.db.define_unweighted(
            self.count,
            cap,
            Semantics::If,
        )?])
    }

    /// At most `cap` kg: an output says "the weight is this value", not "at least", so every value above the cap is
    /// demanded, and forbidden.
    fn cap_weight(&mut self, cap: usize) -> Result<Vec<i32>, Refusal> {
        let above: Vec<u32> = self
            .db
            .values(self.weight)?
            .iter()
            .copied()
            .filter(|&v| v as usize > cap)
            .collect();
        above
            .into_iter()
            .map(|v| Ok(-self.db.define_weighted(self.weight, v as usize)?))
            .collect()
    }

    /// The site as a CNF: the rules, the clauses of the demands, and what is forbidden.
    fn cnf(&self, forbidden: &[i32]) -> String {
        let clauses = RULES.len() + self.db.clauses().count() + forbidden.len();
        let mut text = format!("p cnf {} {clauses}\n", self.db.next_variable() - 1);
        let units = forbidden.chunks(1);
        for clause in RULES
            .iter()
            .map(|r| &r[..])
            .chain(self.db.clauses())
            .chain(units)
        {
            for literal in clause {
                write!(text, "{literal} ").expect("a string");
            }
            text.push_str("0\n");
        }
        text
    }
}

/// The solver's answer: the parcels that are taken in, or none where no plan is possible.
fn solve(file: &str, cnf: &str) -> Option<Vec<bool>> {
    std::fs::write(file, cnf).expect("the CNF file can be written");
    let solver = std::env::var("SOLVER").unwrap_or_else(|_| "cadical".into());
    let output = Command::new(&solver)
        .args(["-q", file])
        .output()
        .unwrap_or_else(|why| panic!("{solver}: {why}"));
    let text = String::from_utf8(output.stdout).expect("text");
    if text.lines().any(|line| line == "s UNSATISFIABLE") {
        return None;
    }
    assert!(
        text.lines().any(|line| line == "s SATISFIABLE"),
        "{solver} gave no answer: {text}"
    );
    let mut taken = vec![false; PARCELS.len()];
    for word in text
        .lines()
        .filter_map(|line| line.strip_prefix("v "))
        .flat_map(str::split_whitespace)
    {
        let literal: i32 = word.parse().expect("a literal");
        if let Some(parcel) = taken.get_mut((literal.unsigned_abs() as usize).wrapping_sub(1)) {
            *parcel = literal > 0;
        }
    }
    Some(taken)
}

/// The clauses made, eight to a line.
fn print_clauses(db: &Db) {
    let clauses: Vec<String> = db.clauses().map(|clause| format!("{clause:?}")).collect();
    for line in clauses.chunks(8) {
        println!("    {}", line.join(" "));
    }
}

fn plan(file: &str, count: usize, weight: usize) -> Result<(), Refusal> {
    println!("At most {count} parcels, at most {weight} kg:");
    let mut site = Site::new()?;
    let mut forbidden = site.cap_count(count)?;
    println!(
        "  count: output {count} of node {}: literal {}, forbidden",
        site.count.0, -forbidden[0]
    );
    let above = site.cap_weight(weight)?;
    println!(
        "  weight: {} values of node {} above {weight}, forbidden",
        above.len(),
        site.weight.0
    );
    forbidden.extend(above);
    let cnf = site.cnf(&forbidden);
    println!(
        "  {} clauses made, {} in all",
        site.db.clauses().count(),
        cnf.lines().count() - 1
    );
    if site.db.clauses().count() < 40 {
        print_clauses(&site.db);
    }
    let Some(taken) = solve(file, &cnf) else {
        println!("  the solver: no such plan");
        return Ok(());
    };
    let names: Vec<&str> = PARCELS
        .iter()
        .zip(&taken)
        .filter(|(_, &b)| b)
        .map(|(p, _)| p.0)
        .collect();
    println!("  the solver: {}", names.join(", "));
    println!(
        "  that is {} parcels, {} kg",
        site.db.value(site.count, &taken)?,
        site.db.value(site.weight, &taken)?
    );
    Ok(())
}

fn main() -> Result<(), Refusal> {
    let file = std::env::args().nth(1).expect("usage: site CNF-FILE");
    let site = Site::new()?;
    println!("Parcels, each with its weight in kg:");
    for (at, (name, weight)) in PARCELS.iter().enumerate() {
        println!("  {} {name} {weight}", at + 1);
    }
    println!(
        "The trees, over the leaves 0 to {}, one for each parcel:",
        PARCELS.len() - 1
    );
    for line in &site.tree {
        println!("  {line}");
    }
    println!(
        "The count's values (node {}): {:?}",
        site.count.0,
        site.db.values(site.count)?
    );
    println!(
        "The weight's values (node {}): {:?}",
        site.weight.0,
        site.db.values(site.weight)?
    );
    for (count, weight) in [(4, 14), (4, 13), (3, 32)] {
        plan(&file, count, weight)?;
    }
    Ok(())
}

//! The yardstick of `bench/run.sh`: reads a problem text on standard input and writes its dump, in plain Rust and with no
//! crates. It keeps two sets of whole fields, and walks a kernel's expression tree at every index. It checks nothing, so the
//! text has to be a right one.
mod rows;

use rows::write_rows;
use std::io::{self, BufWriter, Read as _, Write as _};

#[derive(Clone, Copy, PartialEq)]
enum How {
    Same,
    Coarse,
    Fine(Fold),
    Count,
}

#[derive(Clone, Copy, PartialEq)]
enum Fold {
    Sum,
    Min,
    Max,
}

impl Fold {
    fn identity(self) -> i64 {
        match self {
            Fold::Sum => 0,
            Fold::Min => i64::MAX,
            Fold::Max => i64::MIN,
        }
    }

    fn combine(self, a: i64, b: i64) -> i64 {
        match self {
            Fold::Sum => a.wrapping_add(b),
            Fold::Min => a.min(b),
            Fold::Max => a.max(b),
        }
    }
}

enum Expr {
    Literal(i64),
    Coordinate(usize),
    Level,
    Material,
    Step,
    Read { old: bool, how: How, variable: usize, offset: [i64; 3] },
    Number { old: bool, reduction: usize },
    Neg(Box<Expr>),
    Binary(&'static str, Box<Expr>, Box<Expr>),
    Select(Box<Expr>, Box<Expr>, Box<Expr>),
}

struct Variable {
    name: String,
    /// Whether it has an index at the high bound besides, along each axis.
    points: [bool; 3],
    outside: i64,
}

struct Reduction {
    name: String,
    fold: Fold,
}

struct Level {
    ratio: i64,
    low: [i64; 3],
    high: [i64; 3],
}

enum Write {
    Field { variable: usize, computes: bool, kernel: Expr },
    Reduction { reduction: usize, points: [bool; 3], kernel: Expr },
}

struct Task {
    levels: Vec<usize>,
    materials: Vec<usize>,
    writes: Vec<Write>,
}

struct Problem {
    steps: u64,
    period: u64,
    materials: usize,
    levels: Vec<Level>,
    variables: Vec<Variable>,
    reductions: Vec<Reduction>,
    lists: [Vec<Task>; 2],
    keeps: Vec<String>,
}

#[derive(Clone)]
struct Field {
    low: [i64; 3],
    high: [i64; 3],
    numbers: Vec<i64>,
}

impl Field {
    fn at(&self, i: [i64; 3]) -> Option<i64> {
        let [low, high] = [self.low, self.high];
        let is_inside = (low[0]..high[0]).contains(&i[0]) && (low[1]..high[1]).contains(&i[1]) && (low[2]..high[2]).contains(&i[2]);
        let [width, height] = [high[0] - low[0], high[1] - low[1]];
        is_inside.then(|| self.numbers[(i[0] - low[0] + width * (i[1] - low[1] + height * (i[2] - low[2]))) as usize])
    }
}

/// What stands at a moment: fields by variable, material and level, and reductions.
struct Store {
    fields: Vec<Option<Field>>,
    reductions: Vec<i64>,
}

struct Place<'a> {
    problem: &'a Problem,
    old: &'a Store,
    new: &'a Store,
    step: i64,
    level: usize,
    material: usize,
}

impl Problem {
    fn place(&self, variable: usize, material: usize, level: usize) -> usize {
        (variable * self.materials + material) * self.levels.len() + level
    }

    fn span(&self, level: usize, points: [bool; 3]) -> ([i64; 3], [i64; 3]) {
        let l = &self.levels[level];
        (l.low, [0, 1, 2].map(|axis| l.high[axis] + i64::from(points[axis])))
    }
}

impl Place<'_> {
    fn read(&self, old: bool, variable: usize, level: usize, i: [i64; 3]) -> Option<i64> {
        let store = if old { self.old } else { self.new };
        store.fields[self.problem.place(variable, self.material, level)].as_ref()?.at(i)
    }

    fn fine(&self, old: bool, fold: Option<Fold>, variable: usize, i: [i64; 3]) -> i64 {
        let level = self.level + 1;
        let ratio = self.problem.levels[level].ratio;
        let reach = self.problem.variables[variable].points.map(|point| if point { 1 } else { ratio });
        let mut result = fold.map_or(0, Fold::identity);
        for z in 0..reach[2] {
            for y in 0..reach[1] {
                for x in 0..reach[0] {
                    if let Some(n) = self.read(old, variable, level, [ratio * i[0] + x, ratio * i[1] + y, ratio * i[2] + z]) {
                        result = fold.map_or(result + 1, |f| f.combine(result, n));
                    }
                }
            }
        }
        result
    }

    fn value(&self, e: &Expr, i: [i64; 3]) -> i64 {
        match e {
            Expr::Literal(n) => *n,
            Expr::Coordinate(axis) => i[*axis],
            Expr::Level => self.level as i64,
            Expr::Material => self.material as i64,
            Expr::Step => self.step,
            Expr::Read { old, how: How::Same, variable, offset: o } => self
                .read(*old, *variable, self.level, [i[0] + o[0], i[1] + o[1], i[2] + o[2]])
                .unwrap_or(self.problem.variables[*variable].outside),
            Expr::Read { old, how: How::Coarse, variable, offset: o } => {
                let ratio = self.problem.levels[self.level].ratio;
                let c = i.map(|n| n.div_euclid(ratio));
                self.read(*old, *variable, self.level - 1, [c[0] + o[0], c[1] + o[1], c[2] + o[2]])
                    .unwrap_or(self.problem.variables[*variable].outside)
            }
            Expr::Read { old, how: How::Fine(fold), variable, .. } => self.fine(*old, Some(*fold), *variable, i),
            Expr::Read { old, how: How::Count, variable, .. } => self.fine(*old, None, *variable, i),
            Expr::Number { old, reduction } => (if *old { self.old } else { self.new }).reductions[*reduction],
            Expr::Neg(a) => self.value(a, i).wrapping_neg(),
            Expr::Binary(op, a, b) => apply(op, self.value(a, i), self.value(b, i)),
            Expr::Select(c, a, b) => self.value(if self.value(c, i) != 0 { a } else { b }, i),
        }
    }
}

fn apply(op: &str, a: i64, b: i64) -> i64 {
    match op {
        "+" => a.wrapping_add(b),
        "-" => a.wrapping_sub(b),
        "*" => a.wrapping_mul(b),
        "/" if b == 0 => 0,
        "/" => a.wrapping_div(b),
        "%" if b == 0 => 0,
        "%" => a.wrapping_rem(b),
        "<" => i64::from(a < b),
        "<=" => i64::from(a <= b),
        ">" => i64::from(a > b),
        ">=" => i64::from(a >= b),
        "==" => i64::from(a == b),
        "!=" => i64::from(a != b),
        "min" => a.min(b),
        _ => a.max(b),
    }
}

/// The indexes of a span in order, each handed on.
fn each_index(low: [i64; 3], high: [i64; 3], mut visit: impl FnMut([i64; 3])) {
    for z in low[2]..high[2] {
        for y in low[1]..high[1] {
            for x in low[0]..high[0] {
                visit([x, y, z]);
            }
        }
    }
}

fn run_task(p: &Problem, task: &Task, step: u64, old: &Store, new: &mut Store) {
    let mut fields = Vec::new();
    let mut reductions = Vec::new();
    for write in &task.writes {
        match write {
            Write::Field { variable, kernel, .. } => {
                for &level in &task.levels {
                    for &material in &task.materials {
                        let place = Place { problem: p, old, new, step: step as i64, level, material };
                        let (low, high) = p.span(level, p.variables[*variable].points);
                        let mut numbers = Vec::with_capacity((0..3).map(|a| (high[a] - low[a]) as usize).product());
                        each_index(low, high, |i| numbers.push(place.value(kernel, i)));
                        fields.push((p.place(*variable, material, level), Field { low, high, numbers }));
                    }
                }
            }
            Write::Reduction { reduction, points, kernel } => {
                let fold = p.reductions[*reduction].fold;
                let mut result = fold.identity();
                for &level in &task.levels {
                    for &material in &task.materials {
                        let place = Place { problem: p, old, new, step: step as i64, level, material };
                        let (low, high) = p.span(level, *points);
                        each_index(low, high, |i| result = fold.combine(result, place.value(kernel, i)));
                    }
                }
                reductions.push((*reduction, result));
            }
        }
    }
    for (place, field) in fields {
        new.fields[place] = Some(field);
    }
    for (reduction, number) in reductions {
        new.reductions[reduction] = number;
    }
}

fn write_step(p: &Problem, step: u64, new: &Store, out: &mut impl io::Write) -> io::Result<()> {
    writeln!(out, "step {step}")?;
    let list = &p.lists[usize::from(step > 0)];
    for keep in &p.keeps {
        let Some(variable) = p.variables.iter().position(|v| v.name == *keep) else {
            let reduction = p.reductions.iter().position(|r| r.name == *keep).expect("a name");
            writeln!(out, "number {keep} {}", new.reductions[reduction])?;
            continue;
        };
        for material in 0..p.materials {
            for level in 0..p.levels.len() {
                let is_computed = list.iter().any(|t| {
                    t.materials.contains(&material)
                        && t.levels.contains(&level)
                        && t.writes.iter().any(|w| matches!(w, Write::Field { variable: v, computes: true, .. } if *v == variable))
                });
                if is_computed {
                    let field = new.fields[p.place(variable, material, level)].as_ref().expect("a field");
                    let ([a, b, c], [d, e, f]) = (field.low, field.high);
                    writeln!(out, "field {keep} {material} {level} {a} {b} {c} {d} {e} {f}")?;
                    write_rows(&field.numbers, (d - a) as usize, out)?;
                }
            }
        }
    }
    Ok(())
}

/// The tokens of an expression, read from the front.
struct Tokens<'a> {
    texts: Vec<&'a str>,
    at: usize,
    variables: &'a [Variable],
    reductions: &'a [Reduction],
}

fn tokens(text: &str) -> Vec<&str> {
    let mut found = Vec::new();
    let mut rest = text.trim_start();
    while let Some(first) = rest.chars().next() {
        let is_word = |c: char| c.is_ascii_alphanumeric() || c == '_';
        let length = if is_word(first) {
            rest.find(|c| !is_word(c)).unwrap_or(rest.len())
        } else if ["<=", ">=", "==", "!="].iter().any(|sign| rest.starts_with(sign)) {
            2
        } else {
            1
        };
        found.push(&rest[..length]);
        rest = rest[length..].trim_start();
    }
    found
}

impl Tokens<'_> {
    fn next(&mut self) -> &str {
        self.at += 1;
        self.texts[self.at - 1]
    }

    fn takes(&mut self, signs: &[&'static str]) -> Option<&'static str> {
        let sign = signs.iter().find(|sign| self.texts.get(self.at) == Some(sign))?;
        self.at += 1;
        Some(sign)
    }

    fn expr(&mut self) -> Expr {
        let left = self.sum();
        match self.takes(&["<", "<=", ">", ">=", "==", "!="]) {
            Some(op) => Expr::Binary(op, Box::new(left), Box::new(self.sum())),
            None => left,
        }
    }

    fn sum(&mut self) -> Expr {
        let mut left = self.product();
        while let Some(op) = self.takes(&["+", "-"]) {
            left = Expr::Binary(op, Box::new(left), Box::new(self.product()));
        }
        left
    }

    fn product(&mut self) -> Expr {
        let mut left = self.unary();
        while let Some(op) = self.takes(&["*", "/", "%"]) {
            left = Expr::Binary(op, Box::new(left), Box::new(self.unary()));
        }
        left
    }

    fn unary(&mut self) -> Expr {
        match self.takes(&["-"]) {
            Some(_) => Expr::Neg(Box::new(self.unary())),
            None => self.primary(),
        }
    }

    fn signed(&mut self) -> i64 {
        let sign = if self.takes(&["-"]).is_some() { -1 } else { 1 };
        sign * self.next().parse::<i64>().expect("a number")
    }

    fn primary(&mut self) -> Expr {
        match self.next() {
            "(" => {
                let inner = self.expr();
                self.next();
                inner
            }
            "x" => Expr::Coordinate(0),
            "y" => Expr::Coordinate(1),
            "z" => Expr::Coordinate(2),
            "level" => Expr::Level,
            "material" => Expr::Material,
            "step" => Expr::Step,
            "old" => self.read(true),
            "new" => self.read(false),
            "min" => self.pair("min"),
            "max" => self.pair("max"),
            "select" => {
                self.next();
                let c = Box::new(self.expr());
                self.next();
                let a = Box::new(self.expr());
                self.next();
                let b = Box::new(self.expr());
                self.next();
                Expr::Select(c, a, b)
            }
            number => Expr::Literal(number.parse().expect("a number")),
        }
    }

    fn pair(&mut self, op: &'static str) -> Expr {
        self.next();
        let a = Box::new(self.expr());
        self.next();
        let b = Box::new(self.expr());
        self.next();
        Expr::Binary(op, a, b)
    }

    fn read(&mut self, old: bool) -> Expr {
        self.next();
        let how = match self.texts[self.at] {
            "coarse" => How::Coarse,
            "fine_sum" => How::Fine(Fold::Sum),
            "fine_min" => How::Fine(Fold::Min),
            "fine_max" => How::Fine(Fold::Max),
            "fine_count" => How::Count,
            _ => How::Same,
        };
        if how != How::Same {
            self.at += 2;
        }
        let name = self.texts[self.at];
        self.at += 1;
        let is_indexed = matches!(how, How::Same | How::Coarse) && self.takes(&["["]).is_some();
        let mut offset = [0; 3];
        if is_indexed {
            for by in &mut offset {
                *by = self.signed();
                self.next();
            }
        } else if how == How::Same {
            let reduction = self.reductions.iter().position(|r| r.name == name).expect("a reduction");
            return Expr::Number { old, reduction };
        }
        let variable = self.variables.iter().position(|v| v.name == name).expect("a variable");
        Expr::Read { old, how, variable, offset }
    }
}

fn points(centring: &str) -> [bool; 3] {
    match centring {
        "cell" => [false; 3],
        "node" => [true; 3],
        face => ["facex", "facey", "facez"].map(|across| face == across),
    }
}

fn number<T: std::str::FromStr>(word: &str) -> T {
    word.parse().ok().expect("a number")
}

fn bounds(words: &[&str]) -> ([i64; 3], [i64; 3]) {
    ([1, 2, 3].map(|at| number(words[at])), [4, 5, 6].map(|at| number(words[at])))
}

fn read_problem(text: &str) -> Problem {
    let mut p = Problem {
        steps: 0,
        period: 1,
        materials: 1,
        levels: Vec::new(),
        variables: Vec::new(),
        reductions: Vec::new(),
        lists: [Vec::new(), Vec::new()],
        keeps: Vec::new(),
    };
    let mut list = 0;
    for line in text.lines() {
        let line = line.split('#').next().unwrap_or("");
        let words: Vec<&str> = line.split_whitespace().collect();
        let kernel = |p: &Problem| {
            let (_, text) = line.split_once('=').expect("a kernel");
            Tokens { texts: tokens(text), at: 0, variables: &p.variables, reductions: &p.reductions }.expr()
        };
        match words.first().copied() {
            Some("steps") => p.steps = number(words[1]),
            Some("dump") => p.period = number(words[1]),
            Some("materials") => p.materials = number(words[1]),
            Some("level") => p.levels.push(Level { ratio: number(words[2]), low: [0; 3], high: [0; 3] }),
            Some("box") => {
                let level = p.levels.last_mut().expect("a level");
                (level.low, level.high) = bounds(&words);
            }
            Some("var") => p.variables.push(Variable {
                name: words[1].into(),
                points: points(words[2]),
                outside: number(&words[4..].concat()),
            }),
            Some("reduction") => p.reductions.push(Reduction {
                name: words[1].into(),
                fold: match words[2] {
                    "sum" => Fold::Sum,
                    "min" => Fold::Min,
                    _ => Fold::Max,
                },
            }),
            Some("timestep") => list = 1,
            Some("task") => {
                let middle = words.iter().position(|w| *w == "materials").expect("materials");
                p.lists[list].push(Task {
                    levels: words[3..middle].iter().map(|w| number(w)).collect(),
                    materials: words[middle + 1..].iter().map(|w| number(w)).collect(),
                    writes: Vec::new(),
                });
            }
            Some(kind @ ("computes" | "modifies")) => {
                let variable = p.variables.iter().position(|v| v.name == words[1]).expect("a variable");
                let write = Write::Field { variable, computes: kind == "computes", kernel: kernel(&p) };
                p.lists[list].last_mut().expect("a task").writes.push(write);
            }
            Some("reduces") => {
                let reduction = p.reductions.iter().position(|r| r.name == words[1]).expect("a reduction");
                let write = Write::Reduction { reduction, points: points(words[2]), kernel: kernel(&p) };
                p.lists[list].last_mut().expect("a task").writes.push(write);
            }
            Some("keep") => p.keeps.push(words[1].into()),
            _ => (),
        }
    }
    p
}

fn main() -> io::Result<()> {
    let mut text = String::new();
    io::stdin().read_to_string(&mut text)?;
    let p = read_problem(&text);
    let empty = || Store {
        fields: vec![None; p.variables.len() * p.materials * p.levels.len()],
        reductions: vec![0; p.reductions.len()],
    };
    let mut out = BufWriter::with_capacity(65_536, io::stdout().lock());
    let mut old = empty();
    writeln!(out, "dump 1")?;
    for step in 0..=p.steps {
        let mut new = empty();
        for task in &p.lists[usize::from(step > 0)] {
            run_task(&p, task, step, &old, &mut new);
        }
        if step % p.period == 0 || step == p.steps {
            write_step(&p, step, &new, &mut out)?;
        }
        old = new;
    }
    writeln!(out, "end")?;
    out.flush()
}

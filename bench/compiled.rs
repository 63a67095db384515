//! The second yardstick of `bench/run.sh`: writes the dumps of its two problems with their kernels compiled in, in plain Rust.
//! `compiled diffusion STEPS SIZE` or `compiled two_levels`.
mod rows;

use rows::write_rows;
use std::io::{self, BufWriter, Write};

/// A field with a layer of the outside number all around: of so many numbers along each axis.
struct Padded {
    size: [usize; 3],
    numbers: Vec<i64>,
}

impl Padded {
    fn new(size: [usize; 3], outside: i64) -> Padded {
        let numbers = vec![outside; size.iter().map(|n| n + 2).product()];
        Padded { size, numbers }
    }

    /// Where the number at (0, y, z) stands.
    fn row(&self, y: usize, z: usize) -> usize {
        1 + (self.size[0] + 2) * (y + 1 + (self.size[1] + 2) * (z + 1))
    }

    fn fill(&mut self, number: impl Fn(usize, usize, usize) -> i64) {
        for z in 0..self.size[2] {
            for y in 0..self.size[1] {
                let row = self.row(y, z);
                for x in 0..self.size[0] {
                    self.numbers[row + x] = number(x, y, z);
                }
            }
        }
    }

    /// Each number from the seven around it in the field before: left, right, down, up, below, above and its own.
    fn sweep(&mut self, old: &Padded, kernel: impl Fn([i64; 7]) -> i64) {
        let [width, height, depth] = self.size;
        let line = width + 2;
        let plane = line * (height + 2);
        for z in 0..depth {
            for y in 0..height {
                let at = self.row(y, z);
                let piece = |from: usize| &old.numbers[from..from + width];
                let [left, right] = [piece(at - 1), piece(at + 1)];
                let [down, up] = [piece(at - line), piece(at + line)];
                let [below, above] = [piece(at - plane), piece(at + plane)];
                let own = piece(at);
                for (x, out) in self.numbers[at..at + width].iter_mut().enumerate() {
                    *out = kernel([left[x], right[x], down[x], up[x], below[x], above[x], own[x]]);
                }
            }
        }
    }

    fn inner(&self) -> impl Iterator<Item = &[i64]> {
        (0..self.size[2]).flat_map(move |z| (0..self.size[1]).map(move |y| &self.numbers[self.row(y, z)..][..self.size[0]]))
    }

    fn write(&self, out: &mut impl Write) -> io::Result<()> {
        self.inner().try_for_each(|row| write_rows(row, self.size[0], out))
    }
}

fn diffusion(steps: u32, size: usize, out: &mut impl Write) -> io::Result<()> {
    let mut old = Padded::new([size; 3], 5);
    let mut new = Padded::new([size; 3], 5);
    new.fill(|_, _, _| 1);
    for step in 0..=steps {
        if step > 0 {
            std::mem::swap(&mut old, &mut new);
            new.sweep(&old, |n| n.iter().fold(0, |sum: i64, n| sum.wrapping_add(*n)));
        }
        writeln!(out, "step {step}\nfield u 0 0 0 0 0 {size} {size} {size}")?;
        new.write(out)?;
    }
    Ok(())
}

fn two_levels(out: &mut impl Write) -> io::Result<()> {
    let sizes = [[32, 32, 8], [16, 16, 16]];
    let low = [[0, 0], [8, 8]];
    let fields = || [0, 1].map(|_: usize| sizes.map(|size| Padded::new(size, 0)));
    let (mut old, mut new) = (fields(), fields());
    let mut b = [0, 1].map(|_: usize| Padded::new(sizes[1], 0));
    for step in 0..=10 {
        std::mem::swap(&mut old, &mut new);
        for material in 0..2 {
            for level in 0..2 {
                let field = &mut new[material][level];
                if step == 0 {
                    let at = low[level];
                    field.fill(|x, y, z| ((x + at[0]) * 7 + (y + at[1]) * 11 + z * 13 + material * 5) as i64 % 100);
                } else {
                    field.sweep(&old[material][level], |n| (n[..6].iter().sum::<i64>() + 2 * n[6]) / 8);
                }
            }
            if step > 0 {
                let [coarse, fine] = &mut new[material];
                for z in 0..8 {
                    for y in 4..12 {
                        for x in 4..12 {
                            let sum: i64 = (0..8)
                                .map(|k| fine.numbers[fine.row(2 * (y - 4) + k / 2 % 2, 2 * z + k / 4) + 2 * (x - 4) + k % 2])
                                .sum();
                            let at = coarse.row(y, z) + x;
                            coarse.numbers[at] = sum / 8;
                        }
                    }
                }
                b[material].fill(|x, y, z| coarse.numbers[coarse.row(4 + y / 2, z / 2) + 4 + x / 2]);
            }
        }
        let greatest = new.iter().flatten().flat_map(|field| field.inner().flatten()).max();
        if step % 5 == 0 {
            writeln!(out, "step {step}")?;
            for (material, levels) in new.iter().enumerate() {
                for (level, field) in levels.iter().enumerate() {
                    let span = ["0 0 0 32 32 8", "8 8 0 24 24 16"][level];
                    writeln!(out, "field u {material} {level} {span}")?;
                    field.write(out)?;
                }
            }
            writeln!(out, "number top {}", greatest.expect("numbers"))?;
        }
    }
    std::hint::black_box(&b);
    Ok(())
}

fn main() -> io::Result<()> {
    let words: Vec<String> = std::env::args().skip(1).collect();
    let mut out = BufWriter::with_capacity(65_536, io::stdout().lock());
    writeln!(out, "dump 1")?;
    match words.iter().map(String::as_str).collect::<Vec<_>>()[..] {
        ["diffusion", steps, size] => diffusion(steps.parse().expect("steps"), size.parse().expect("a size"), &mut out)?,
        _ => two_levels(&mut out)?,
    }
    writeln!(out, "end")?;
    out.flush()
}

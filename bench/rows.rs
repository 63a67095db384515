//! The lines of a field's rows, for both yardsticks.
use std::io::{self, Write};

const PAIRS: &[u8; 200] = b"0001020304050607080910111213141516171819\
2021222324252627282930313233343536373839\
4041424344454647484950515253545556575859\
6061626364656667686970717273747576777879\
8081828384858687888990919293949596979899";

fn put(line: &mut Vec<u8>, number: i64) {
    let mut digits = [0; 20];
    let mut at = digits.len();
    let mut rest = number.unsigned_abs();
    while rest >= 100 {
        let pair = 2 * (rest % 100) as usize;
        rest /= 100;
        at -= 2;
        digits[at..at + 2].copy_from_slice(&PAIRS[pair..pair + 2]);
    }
    let pair = 2 * rest as usize;
    let first = if rest < 10 { pair + 1 } else { pair };
    at -= pair + 2 - first;
    digits[at..at + pair + 2 - first].copy_from_slice(&PAIRS[first..pair + 2]);
    if number < 0 {
        line.push(b'-');
    }
    line.extend_from_slice(&digits[at..]);
}

/// A line for each row of so many numbers.
pub fn write_rows(numbers: &[i64], width: usize, out: &mut impl Write) -> io::Result<()> {
    let mut line = Vec::new();
    for row in numbers.chunks(width) {
        line.clear();
        for (place, number) in row.iter().enumerate() {
            if place > 0 {
                line.push(b' ');
            }
            put(&mut line, *number);
        }
        line.push(b'\n');
        out.write_all(&line)?;
    }
    Ok(())
}

//! The loops of `column_bench` in Rust: `columns OPERATION CELLS`.
//!
//! A column is its values beside flags, and an answer stands in new vectors, with 0 where a value is
//! missing. The data, the lines and the number of the answer's cells are those of `column_bench`.
use std::hint::black_box;
use std::time::Instant;

const RUNS: usize = 7;

struct Column<T> {
    values: Vec<T>,
    present: Vec<bool>,
}

impl<T: Copy> Column<T> {
    fn blank(value: T, count: usize) -> Column<T> {
        Column { values: vec![value; count], present: vec![false; count] }
    }

    fn len(&self) -> usize {
        self.values.len()
    }

    // The values and the flags, of one length, so that no index below it is tested again.
    fn parts(&self, count: usize) -> (&[T], &[bool]) {
        (&self.values[..count], &self.present[..count])
    }

    fn parts_mut(&mut self, count: usize) -> (&mut [T], &mut [bool]) {
        (&mut self.values[..count], &mut self.present[..count])
    }
}

// ---- the data, as `column_bench` makes it

fn jump(row: usize) -> usize {
    row % 65536 * 40503 % 65536
}

fn other_jump(row: usize) -> usize {
    row % 65536 * 30011 % 65536
}

fn column<T: Default>(count: usize, at: fn(usize) -> usize, value: fn(usize) -> T) -> Column<T> {
    let mut made = Column { values: Vec::new(), present: Vec::new() };
    for row in 0..count {
        let present = at(row) >= 8192;
        made.present.push(present);
        made.values.push(if present { value(at(row)) } else { T::default() });
    }
    made
}

fn numbers(count: usize) -> Column<i64> {
    column(count, jump, |at| at as i64 - 32768)
}

fn divisors(count: usize) -> Column<i64> {
    column(count, other_jump, |at| (at % 1000 + 1) as i64)
}

fn truths(count: usize) -> Column<bool> {
    column(count, jump, |at| at % 4096 < 2048)
}

fn other_truths(count: usize) -> Column<bool> {
    column(count, other_jump, |at| at % 4096 < 2048)
}

fn bits(count: usize) -> Column<i64> {
    column(count, jump, |at| (at / 64 % 2) as i64)
}

fn places(count: usize) -> Vec<Option<usize>> {
    (0..count).map(|row| if other_jump(row) < 8192 { None } else { Some(row.saturating_sub(jump(row))) }).collect()
}

// ---- the loops

#[inline(never)]
fn add(a: &Column<i64>, b: &Column<i64>) -> Column<i64> {
    let count = a.len();
    let mut made = Column::blank(0, count);
    let ((x, p), (y, q), (z, r)) = (a.parts(count), b.parts(count), made.parts_mut(count));
    for row in 0..count {
        r[row] = p[row] & q[row];
        z[row] = if r[row] { x[row].wrapping_add(y[row]) } else { 0 };
    }
    made
}

// The quotient, rounded toward minus infinity; it wraps at the smallest number by -1.
#[inline(always)]
fn quotient(x: i64, y: i64) -> i64 {
    let whole = x.wrapping_div(y);
    if x.wrapping_rem(y) != 0 && (x < 0) != (y < 0) { whole - 1 } else { whole }
}

#[inline(never)]
fn floor_div(a: &Column<i64>, b: &Column<i64>) -> Result<Column<i64>, usize> {
    let count = a.len();
    let mut made = Column::blank(0, count);
    let ((x, p), (y, q), (z, r)) = (a.parts(count), b.parts(count), made.parts_mut(count));
    for row in 0..count {
        r[row] = p[row] & q[row];
        if r[row] {
            if y[row] == 0 {
                return Err(row);
            }
            z[row] = quotient(x[row], y[row]);
        }
    }
    Ok(made)
}

#[inline(never)]
fn lt(a: &Column<i64>, b: &Column<i64>) -> Column<bool> {
    let count = a.len();
    let mut made = Column::blank(false, count);
    let ((x, p), (y, q), (z, r)) = (a.parts(count), b.parts(count), made.parts_mut(count));
    for row in 0..count {
        r[row] = p[row] & q[row];
        z[row] = r[row] & (x[row] < y[row]);
    }
    made
}

// False decides, also beside a missing value.
#[inline(never)]
fn and(a: &Column<bool>, b: &Column<bool>) -> Column<bool> {
    let count = a.len();
    let mut made = Column::blank(false, count);
    let ((x, p), (y, q), (z, r)) = (a.parts(count), b.parts(count), made.parts_mut(count));
    for row in 0..count {
        r[row] = (p[row] & q[row]) | (p[row] & !x[row]) | (q[row] & !y[row]);
        z[row] = p[row] & q[row] & x[row] & y[row];
    }
    made
}

#[inline(never)]
fn sum(a: &Column<i64>) -> i64 {
    let count = a.len();
    let (x, p) = a.parts(count);
    let mut total = 0i64;
    for row in 0..count {
        if p[row] {
            total = total.wrapping_add(x[row]);
        }
    }
    total
}

#[inline(never)]
fn cumsum(a: &Column<i64>) -> Column<i64> {
    let count = a.len();
    let mut made = Column::blank(0, count);
    let ((x, p), (z, r)) = (a.parts(count), made.parts_mut(count));
    let mut total = 0i64;
    for row in 0..count {
        if p[row] {
            total = total.wrapping_add(x[row]);
            z[row] = total;
            r[row] = true;
        }
    }
    made
}

#[inline(never)]
fn shift(a: &Column<i64>, periods: usize) -> Column<i64> {
    let count = a.len();
    let mut made = Column::blank(0, count);
    let ((x, p), (z, r)) = (a.parts(count), made.parts_mut(count));
    for row in periods..count {
        z[row] = x[row - periods];
        r[row] = p[row - periods];
    }
    made
}

#[inline(never)]
fn take(a: &Column<i64>, places: &[Option<usize>]) -> Column<i64> {
    let count = places.len();
    let mut made = Column::blank(0, count);
    let (z, r) = made.parts_mut(count);
    for row in 0..count {
        if let Some(place) = places[row] {
            r[row] = a.present[place];
            z[row] = a.values[place];
        }
    }
    made
}

#[inline(never)]
fn cast(a: &Column<i64>) -> Result<Column<bool>, usize> {
    let count = a.len();
    let mut made = Column::blank(false, count);
    let ((x, p), (z, r)) = (a.parts(count), made.parts_mut(count));
    for row in 0..count {
        if p[row] {
            if x[row] as u64 > 1 {
                return Err(row);
            }
            r[row] = true;
            z[row] = x[row] == 1;
        }
    }
    Ok(made)
}

// ---- the lines

fn number_of<T: Copy + Into<i64>>(made: &Column<T>) -> i64 {
    let mut so_far = 0i64;
    for row in 0..made.len() {
        let number = if made.present[row] { made.values[row].into() } else { -3 };
        so_far = so_far.wrapping_add(((row % 1000 + 1) as i64).wrapping_mul(number));
    }
    so_far
}

fn measure<A>(name: &str, run: impl Fn() -> A, number: impl Fn(&A) -> i64) {
    for _ in 0..RUNS {
        let start = Instant::now();
        let answer = black_box(run());
        let micros = start.elapsed().as_micros();
        println!("{name} took {micros}");
        drop(answer);
    }
    println!("{name} {}", number(&run()));
}

fn main() {
    let words: Vec<String> = std::env::args().collect();
    let count: usize = words[2].parse().expect("the number of cells");
    let name = words[1].as_str();
    match name {
        "add" => {
            let (a, b) = (numbers(count), divisors(count));
            measure(name, || add(&a, &b), number_of);
        }
        "floor_div" => {
            let (a, b) = (numbers(count), divisors(count));
            measure(name, || floor_div(&a, &b).expect("no divisor is 0"), number_of);
        }
        "lt" => {
            let (a, b) = (numbers(count), divisors(count));
            measure(name, || lt(&a, &b), number_of);
        }
        "and" => {
            let (a, b) = (truths(count), other_truths(count));
            measure(name, || and(&a, &b), number_of);
        }
        "sum" => {
            let a = numbers(count);
            measure(name, || sum(&a), |total| *total);
        }
        "cumsum" => {
            let a = numbers(count);
            measure(name, || cumsum(&a), number_of);
        }
        "shift" => {
            let a = numbers(count);
            measure(name, || shift(&a, 1), number_of);
        }
        "take" => {
            let (a, places) = (numbers(count), places(count));
            measure(name, || take(&a, &places), number_of);
        }
        "cast" => {
            let a = bits(count);
            measure(name, || cast(&a).expect("each is 0 or 1"), number_of);
        }
        _ => panic!("no operation {}", name),
    }
}

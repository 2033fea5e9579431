//! Arithmetic modulo 257, and equations solved by Gaussian elimination with pivoting.

pub const MODULUS: u32 = 257;

/// "The twelve points are 1, 3, 9, .., the powers of 3", and "the points for nodes 12 and 13 are 222 and 152" (document
/// 02 §7).
pub const POINTS: [u32; 14] = [1, 3, 9, 27, 81, 243, 215, 131, 136, 151, 196, 74, 222, 152];

pub fn add(x: u32, y: u32) -> u32 {
    (x + y) % MODULUS
}

pub fn subtract(x: u32, y: u32) -> u32 {
    (x + MODULUS - y) % MODULUS
}

pub fn multiply(x: u32, y: u32) -> u32 {
    x * y % MODULUS
}

pub fn power(mut base: u32, mut exponent: u32) -> u32 {
    let mut result = 1;
    while exponent > 0 {
        if exponent % 2 == 1 {
            result = multiply(result, base);
        }
        base = multiply(base, base);
        exponent /= 2;
    }
    result
}

/// "Inverses are powers with exponent 255."
pub fn inverse(x: u32) -> u32 {
    power(x, MODULUS - 2)
}

/// The solution of the equations whose rows are coefficients and then the right-hand side. "All points in one set of
/// equations differ": a column without a pivot is a fault.
pub fn solve(mut rows: Vec<Vec<u32>>) -> Vec<u32> {
    let size = rows.len();
    for column in 0..size {
        let pivot = (column..size).find(|&row| rows[row][column] != 0).expect("all points differ");
        rows.swap(column, pivot);
        let scale = inverse(rows[column][column]);
        for entry in &mut rows[column] {
            *entry = multiply(*entry, scale);
        }
        let pivot_row = rows[column].clone();
        for (index, row) in rows.iter_mut().enumerate() {
            let factor = row[column];
            if index != column && factor != 0 {
                for (entry, pivot_entry) in row.iter_mut().zip(&pivot_row) {
                    *entry = subtract(*entry, multiply(factor, *pivot_entry));
                }
            }
        }
    }
    rows.iter().map(|row| row[size]).collect()
}

/// The values at the unknown points that make the first parity equations true, as many equations as
/// there are unknowns, where the known points carry the values beside them.
pub fn solve_parity(known: &[(u32, u32)], unknown: &[u32]) -> Vec<u32> {
    let mut coefficients = vec![1; unknown.len()];
    let mut terms: Vec<u32> = known.iter().map(|&(_, value)| value).collect();
    let mut rows = Vec::new();
    for _ in 0..unknown.len() {
        let mut row = coefficients.clone();
        row.push(subtract(0, terms.iter().sum::<u32>() % MODULUS));
        rows.push(row);
        for (coefficient, &point) in coefficients.iter_mut().zip(unknown) {
            *coefficient = multiply(*coefficient, point);
        }
        for (term, &(point, _)) in terms.iter_mut().zip(known) {
            *term = multiply(*term, point);
        }
    }
    solve(rows)
}

//! Matrices of words: a list of rows.

use super::field::{add, inverse, multiply, subtract};

pub type Matrix = Vec<Vec<u64>>;

/// The matrix of a linear function of `size` words.
pub fn matrix_of(size: usize, function: impl Fn(&[u64]) -> Vec<u64>) -> Matrix {
    let column = |i: usize| {
        let mut unit = vec![0; size];
        unit[i] = 1;
        function(&unit)
    };
    let columns: Vec<Vec<u64>> = (0..size).map(column).collect();
    (0..size).map(|row| columns.iter().map(|column| column[row]).collect()).collect()
}

pub fn times(matrix: &Matrix, words: &[u64]) -> Vec<u64> {
    let product = |row: &Vec<u64>| row.iter().zip(words).fold(0, |sum, (&a, &b)| add(sum, multiply(a, b)));
    matrix.iter().map(product).collect()
}

/// Elimination: the first columns, as many as there are rows, become the identity, if each has a pivot.
fn eliminated(mut rows: Matrix) -> Option<Matrix> {
    for column in 0..rows.len() {
        let pivot = (column..rows.len()).find(|&row| rows[row][column] != 0)?;
        rows.swap(column, pivot);
        let scale = inverse(rows[column][column]);
        let scaled: Vec<u64> = rows[column].iter().map(|&word| multiply(word, scale)).collect();
        for row in rows.iter_mut() {
            let factor = row[column];
            for (word, &by) in row.iter_mut().zip(&scaled) {
                *word = subtract(*word, multiply(factor, by));
            }
        }
        rows[column] = scaled;
    }
    Some(rows)
}

/// Whether a square matrix has an inverse.
pub fn has_inverse(matrix: &Matrix) -> bool {
    eliminated(matrix.clone()).is_some()
}

/// The inverse of a square matrix, if it has one: what elimination makes of the identity beside it.
pub fn inverse_matrix(matrix: &Matrix) -> Option<Matrix> {
    let size = matrix.len();
    let mut rows: Matrix = matrix.clone();
    for (i, row) in rows.iter_mut().enumerate() {
        row.extend((0..size).map(|j| u64::from(i == j)));
    }
    Some(eliminated(rows)?.into_iter().map(|row| row[size..].to_vec()).collect())
}

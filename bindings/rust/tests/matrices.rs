//! Each call on matrices beside what plain lists of lists give.

use conthiral::BitMatrix;
use rand::Rng;

const ROUNDS: usize = 15;

fn list(rows: usize, columns: usize) -> Vec<Vec<bool>> {
    let mut rng = rand::rng();
    let often = rng.random_range(1..30);
    (0..rows).map(|_| (0..columns).map(|_| rng.random_range(0..often) == 0).collect()).collect()
}

fn some_size() -> usize {
    let mut rng = rand::rng();
    match rng.random_range(0..3) {
        0 => rng.random_range(0..3) * 64,
        _ => rng.random_range(0..140),
    }
}

fn matrix(list: &[Vec<bool>], columns: usize) -> BitMatrix {
    let mut matrix = BitMatrix::new(list.len(), columns);
    for (i, row) in list.iter().enumerate() {
        for (j, &bit) in row.iter().enumerate() {
            assert_eq!(matrix.set(i, j, bit), bit);
        }
    }
    matrix
}

fn same(matrix: &BitMatrix, list: &[Vec<bool>], columns: usize) {
    assert_eq!((matrix.rows(), matrix.columns()), (list.len(), columns));
    for (i, row) in list.iter().enumerate() {
        assert_eq!(matrix.row(i).iter().collect::<Vec<_>>(), *row);
        assert_eq!(matrix.clone().row_mut(i), matrix.row(i));
        assert_eq!((0..columns).map(|j| matrix.get(i, j).unwrap()).collect::<Vec<_>>(), *row);
        assert_eq!(matrix.get(i, columns), None);
    }
    assert_eq!(matrix.get(list.len(), 0), None);
    let back = BitMatrix::from_words(matrix.words().to_vec(), list.len(), columns);
    assert_eq!(back.as_ref(), Ok(matrix));
}

#[test]
fn closures() {
    for _ in 0..ROUNDS {
        let size = some_size();
        let own = list(size, size);
        let mut call = matrix(&own, size);
        same(&call, &own, size);
        let mut wanted = own.clone();
        for k in 0..size {
            for i in 0..size {
                for j in 0..size {
                    wanted[i][j] |= wanted[i][k] && wanted[k][j];
                }
            }
        }
        let from = list(1, size);
        let reached = call.reach(&from[0].iter().copied().collect());
        let nodes = (0..size).map(|j| from[0][j] || (0..size).any(|i| from[0][i] && wanted[i][j]));
        assert_eq!(reached.iter().collect::<Vec<_>>(), nodes.collect::<Vec<_>>());
        assert_eq!(call.close(), wanted != own);
        same(&call, &wanted, size);
        assert!(!call.close());
    }
}

#[test]
fn products_and_transposes() {
    for _ in 0..ROUNDS {
        let (rows, inner, columns) = (some_size(), some_size(), some_size());
        let (own, other) = (list(rows, inner), list(inner, columns));
        let call = matrix(&own, inner);
        let turned: Vec<Vec<bool>> = (0..inner).map(|j| (0..rows).map(|i| own[i][j]).collect()).collect();
        same(&call.transpose(), &turned, rows);
        let mut wanted = vec![vec![false; columns]; rows];
        for i in 0..rows {
            for k in (0..inner).filter(|&k| own[i][k]) {
                for j in 0..columns {
                    wanted[i][j] |= other[k][j];
                }
            }
        }
        same(&call.product(&matrix(&other, columns)), &wanted, columns);
    }
}

#[test]
#[should_panic(expected = "as many rows as the first has columns")]
fn products_must_fit() {
    BitMatrix::new(3, 4).product(&BitMatrix::new(3, 4));
}

#[test]
fn words_must_fit() {
    assert!(BitMatrix::from_words(vec![0, 0], 2, 3).is_ok());
    assert!(BitMatrix::from_words(vec![0, 8], 2, 3).is_err());
    assert!(BitMatrix::from_words(vec![0], 2, 3).is_err());
    assert!(BitMatrix::from_words(vec![], usize::MAX, usize::MAX).is_err());
    assert!(BitMatrix::from_words(vec![], 7, 0).is_ok());
}

#[test]
#[should_panic(expected = "as many rows as columns")]
fn only_squares_are_closed() {
    BitMatrix::new(3, 4).close();
}

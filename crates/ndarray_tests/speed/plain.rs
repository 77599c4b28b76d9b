//! The same calls as plain loops over the vectors: `plain GROUP N TURNS`.

use std::hint::black_box;
use std::time::Instant;

const WALKS: [&str; 44] = [
    "sum", "sum_transposed", "sum_reversed", "sum_stepped", "sums_fit", "sums_fit_transposed", "checked_sum",
    "sum_axis_rows", "sum_axis_columns", "iter", "iter_transposed", "iter_stepped", "iter_mut", "indexed_iter",
    "indexed_iter_mut", "to_owned", "to_owned_column_major", "into_iter_of_a_copy", "windows_3x3", "axis_iter",
    "columns", "zip_one_fold", "zip_one_for_each", "zip_two_fold", "zip_three_fold", "zip_two_for_each",
    "zip_two_map_collect", "zip_two_map_assign_into", "zip_two_map_assign_into_view", "zip_two_for_each_mixed",
    "zip_two_fold_column_major", "zip_two_fold_mixed", "zip_two_map_collect_mixed", "ref_add_ref",
    "ref_add_ref_mixed", "ref_add_row", "ref_add_column", "ref_add_scalar", "owned_add_ref", "owned_add_scalar", "add_assign",
    "add_assign_mixed", "add_assign_row", "add_assign_column",
];

const EVERYDAY: [&str; 10] = [
    "map", "mapv", "combine", "from_shape_fn", "mapv_inplace", "map_inplace", "zip_mut_with", "assign", "fill", "equals",
];

const NARROW: [&str; 6] = [
    "ref_add_ref", "ref_add_scalar", "add_assign", "add_assign_scalar", "ref_add_column", "add_assign_column",
];

const JOINS: [&str; 13] = [
    "triu", "triu_column_major", "tril", "concatenate_rows", "concatenate_columns", "stack_first", "stack_last",
    "product_axis_rows", "product_axis_columns", "cumprod_rows", "cumprod_columns", "diff_rows", "diff_columns",
];

const FILTERS: [&str; 16] = [
    "box_filter", "indexed_map_collect", "update", "update_view", "update_view_column_major",
    "update_view_second_columns", "scan_rows", "scan_columns", "zip_four_fold", "zip_six_fold", "zip_column_fold",
    "zip_view_for_each", "conv_valid_3x3", "conv_full_32", "valid_fits_3x3", "full_fits_32",
];

const BOXES: [&str; 2] = ["box_sums_9x9", "separable_9x9"];

const SMALL: [&str; 4] = ["small_ref_add_ref", "small_add_assign", "small_iter", "small_product"];

const PRODUCTS: [&str; 4] = ["product", "product_left_transposed", "product_right_transposed", "product_both_transposed"];

const VECTORS: [&str; 7] = [
    "vector_times_matrix", "matrix_times_vector", "transposed_times_vector", "matrix_and_vector_fit",
    "transposed_and_vector_fit", "dynamic_times_vector", "dynamic_three_columns",
];

/// Prints the least time of some turns of a call, an item of an n by n table.
fn report(name: &str, n: usize, turns: usize, mut call: impl FnMut() -> i64) {
    let (mut best, mut answers) = (u128::MAX, 0i64);
    for _ in 0..turns {
        let start = Instant::now();
        let answer = call();
        best = best.min(start.elapsed().as_nanos());
        answers = answers.wrapping_add(black_box(answer));
    }
    println!("{name} {} {answers}", best * 1000 / (n * n) as u128);
}

fn main() {
    let words: Vec<String> = std::env::args().skip(1).collect();
    let (n, turns): (usize, usize) = (words[1].parse().unwrap(), words[2].parse().unwrap());
    let (mut a, b, c) = (vec![3i64; n * n], vec![4i64; n * n], vec![5i64; n * n]);
    match words[0].as_str() {
        "walks" => {
            for name in WALKS {
                report(name, n, turns, || walk(name, n, black_box(&mut a), black_box(&b), black_box(&c)));
            }
            let ones = vec![1i64; n * n];
            report("products_fit", n, turns, || magnitude_product(black_box(&ones)).unwrap_or(0));
            report("dot_fits", n, turns, || magnitude_sum(black_box(&ones), black_box(&ones)).unwrap_or(0));
            report("checked_dot", n, turns, || sums_checked(black_box(&ones).iter(), black_box(&ones)).map_or(0, |it| it.0));
            let (mut bytes, more_bytes) = (vec![3u8; n * n], vec![4u8; n * n]);
            let (mut numbers, more_numbers) = (vec![3i32; n * n], vec![4i32; n * n]);
            for name in NARROW {
                report(&format!("byte_{name}"), n, turns, || narrow(name, n, black_box(&mut bytes), black_box(&more_bytes), |x, y| x.wrapping_add(y), 1) as i64);
                report(&format!("word_{name}"), n, turns, || narrow(name, n, black_box(&mut numbers), black_box(&more_numbers), |x, y| x.wrapping_add(y), 1) as i64);
            }
        }
        "everyday" => {
            for name in EVERYDAY {
                report(name, n, turns, || everyday(name, n, black_box(&mut a), black_box(&b)));
            }
        }
        "joins" => {
            let (a, left, right) = (vec![3u32; n * n], vec![3u32; (n / 20) * (n / 20)], vec![5u32; 400]);
            for name in JOINS {
                report(name, n, turns, || join(name, n, black_box(&a)) as i64);
            }
            report("kron", n, turns, || blocks(n / 20, black_box(&left), 20, black_box(&right)) as i64);
        }
        "filters" => {
            for name in FILTERS {
                report(name, n, turns, || filter(name, n, black_box(&mut a), black_box(&b)));
            }
        }
        "boxes" => {
            for name in BOXES {
                report(name, n, turns, || boxes(name, n, black_box(&b)));
            }
        }
        "products" | "vectors" => {
            let names: &[&str] = if words[0] == "products" { &PRODUCTS } else { &VECTORS };
            for name in names {
                report(name, n, turns, || product(name, n, black_box(&b), black_box(&c)));
            }
            if words[0] == "products" {
                let (left, right, mut sums) = (vec![3u32; n * n], vec![5u32; n * n], vec![7u32; n * n]);
                report("general_product", n, turns, || general_product(n, black_box(&left), black_box(&right), black_box(&mut sums)) as i64);
            }
        }
        "small" => {
            for name in SMALL {
                let (mut best, mut answers) = (u128::MAX, 0i64);
                for _ in 0..turns {
                    let start = Instant::now();
                    for _ in 0..1000 {
                        answers = answers.wrapping_add(black_box(small(name, black_box(&mut a[..9]), black_box(&b[..9]))));
                    }
                    best = best.min(start.elapsed().as_nanos() / 1000);
                }
                println!("{name} {} {answers}", best * 1000 / 9);
            }
        }
        _ => {}
    }
}

/// Calls on tables of 3 by 3.
#[inline(never)]
fn small(name: &str, a: &mut [i64], b: &[i64]) -> i64 {
    match name {
        "small_ref_add_ref" => return a.iter().zip(b).map(|(x, y)| x.wrapping_add(*y)).collect::<Vec<i64>>()[4],
        "small_add_assign" => {
            for (x, y) in a.iter_mut().zip(b) {
                *x = x.wrapping_add(*y);
            }
        }
        "small_iter" => return sum_of(a.iter()),
        _ => {
            let mut made = vec![0i64; 9];
            for (sums, row) in made.chunks_mut(3).zip(a.chunks(3)) {
                for (x, other) in row.iter().zip(b.chunks(3)) {
                    add_scaled(sums, *x, other);
                }
            }
            return made[4];
        }
    }
    a[4]
}

#[inline(never)]
fn everyday(name: &str, n: usize, a: &mut [i64], b: &[i64]) -> i64 {
    match name {
        "map" | "mapv" => return b.iter().map(|x| x.wrapping_mul(3)).collect::<Vec<i64>>()[n + 1],
        "combine" => return b.iter().zip(a).map(|(x, y)| x.wrapping_add(*y)).collect::<Vec<i64>>()[n + 1],
        "from_shape_fn" => {
            let mut made = Vec::with_capacity(n * n);
            for i in 0..n {
                made.extend((0..n).map(|j| if i < j { 1i64 } else { 3 }));
            }
            return made[n + 1];
        }
        "mapv_inplace" | "map_inplace" => {
            for x in a.iter_mut() {
                *x = x.wrapping_add(1);
            }
        }
        "zip_mut_with" => {
            for (x, y) in a.iter_mut().zip(b) {
                *x = x.wrapping_add(*y);
            }
        }
        "assign" => a.copy_from_slice(b),
        "fill" => a.fill(4),
        _ => return a.iter().zip(b).all(|(x, y)| x == y) as i64,
    }
    a[n + 1]
}

#[inline(never)]
fn narrow<A: Copy>(name: &str, n: usize, a: &mut [A], b: &[A], add: impl Fn(A, A) -> A, one: A) -> A {
    match name {
        "ref_add_ref" => return a.iter().zip(b).map(|(x, y)| add(*x, *y)).collect::<Vec<A>>()[n + 1],
        "ref_add_scalar" => return a.iter().map(|x| add(*x, one)).collect::<Vec<A>>()[n + 1],
        "add_assign" => {
            for (x, y) in a.iter_mut().zip(b) {
                *x = add(*x, *y);
            }
        }
        "ref_add_column" => {
            let mut made = Vec::with_capacity(n * n);
            for (cells, y) in a.chunks(n).zip(b.chunks(n)) {
                made.extend(cells.iter().map(|x| add(*x, y[0])));
            }
            return made[n + 1];
        }
        "add_assign_column" => {
            for (cells, y) in a.chunks_mut(n).zip(b.chunks(n)) {
                for x in cells {
                    *x = add(*x, y[0]);
                }
            }
        }
        _ => {
            for x in a.iter_mut() {
                *x = add(*x, one);
            }
        }
    }
    a[n + 1]
}

/// Calls on residues modulo 2^32.
#[inline(never)]
fn join(name: &str, n: usize, a: &[u32]) -> u32 {
    let mut made: Vec<u32> = Vec::with_capacity(2 * n * n);
    match name {
        "triu" | "triu_column_major" => {
            for (i, row) in a.chunks(n).enumerate() {
                made.resize(made.len() + i, 0);
                made.extend_from_slice(&row[i..]);
            }
        }
        "tril" => {
            for (i, row) in a.chunks(n).enumerate() {
                made.extend_from_slice(&row[..i + 1]);
                made.resize(made.len() + n - i - 1, 0);
            }
        }
        "concatenate_rows" | "stack_first" => {
            made.extend_from_slice(a);
            made.extend_from_slice(a);
        }
        "concatenate_columns" => {
            for row in a.chunks(n) {
                made.extend_from_slice(row);
                made.extend_from_slice(row);
            }
        }
        "stack_last" => {
            made.resize(2 * n * n, 0);
            for (pair, x) in made.chunks_exact_mut(2).zip(a) {
                pair.copy_from_slice(&[*x, *x]);
            }
        }
        "product_axis_rows" => made.extend(a.chunks(n).map(|row| row.iter().fold(1u32, |p, x| p.wrapping_mul(*x)))),
        "product_axis_columns" => {
            made.resize(n, 1);
            for row in a.chunks(n) {
                for (p, x) in made.iter_mut().zip(row) {
                    *p = p.wrapping_mul(*x);
                }
            }
        }
        "cumprod_rows" => {
            for row in a.chunks(n) {
                let mut product = 1u32;
                for x in row {
                    product = product.wrapping_mul(*x);
                    made.push(product);
                }
            }
        }
        "cumprod_columns" => {
            made.extend_from_slice(a);
            for i in 1..n {
                let (before, row) = made.split_at_mut(i * n);
                for (p, q) in row[..n].iter_mut().zip(&before[(i - 1) * n..]) {
                    *p = p.wrapping_mul(*q);
                }
            }
        }
        "diff_rows" => {
            for row in a.chunks(n) {
                made.extend(row[1..].iter().zip(row).map(|(y, x)| y.wrapping_sub(*x)));
            }
        }
        _ => made.extend(a[n..].iter().zip(a).map(|(y, x)| y.wrapping_sub(*x))),
    }
    made[1]
}

#[inline(never)]
fn blocks(n: usize, a: &[u32], m: usize, b: &[u32]) -> u32 {
    let mut made = Vec::with_capacity(n * n * m * m);
    for left in a.chunks(n) {
        for right in b.chunks(m) {
            for x in left {
                made.extend(right.iter().map(|y| x.wrapping_mul(*y)));
            }
        }
    }
    made[1]
}

/// The sum of each square of K by K, of what its cells count.
#[inline(always)]
fn each_square<const K: usize>(n: usize, a: &[i64], count: impl Fn(usize, usize, i64) -> i64) -> i64 {
    let mut made = Vec::with_capacity(n * n);
    for i in 0..n - (K - 1) {
        for j in 0..n - (K - 1) {
            let mut sum = 0i64;
            for k in 0..K {
                for l in 0..K {
                    sum = sum.wrapping_add(count(k, l, a[(i + k) * n + j + l]));
                }
            }
            made.push(sum);
        }
    }
    made[n]
}

/// Sums of windows of 9 by 9, over all cells of each.
#[inline(never)]
fn boxes(name: &str, n: usize, a: &[i64]) -> i64 {
    if name == "box_sums_9x9" {
        return each_square::<9>(n, a, |_, _, x| x);
    }
    let mut kernel = [[0i64; 9]; 9];
    for (i, row) in kernel.iter_mut().enumerate() {
        for (j, number) in row.iter_mut().enumerate() {
            *number = a[(8 - i) * n].wrapping_mul(a[8 - j]);
        }
    }
    each_square::<9>(n, a, |k, l, x| x.wrapping_mul(kernel[k][l]))
}

#[inline(never)]
fn filter(name: &str, n: usize, a: &mut [i64], b: &[i64]) -> i64 {
    let mut sum = 0i64;
    match name {
        "box_filter" => return each_square::<3>(n, a, |_, _, x| x),
        "conv_valid_3x3" => return each_square::<3>(n, a, |k, l, x| x.wrapping_mul(b[(2 - k) * n + 2 - l])),
        "conv_full_32" => {
            let mut made = vec![0i64; a.len() + 31];
            for (i, x) in a.iter().enumerate() {
                for (sum, y) in made[i..i + 32].iter_mut().zip(&b[..32]) {
                    *sum = sum.wrapping_add(x.wrapping_mul(*y));
                }
            }
            return made[1];
        }
        "valid_fits_3x3" => {
            let square = |i: usize| (0..9).try_fold(0, |most: i64, k| Some(most.checked_add(b[i + k / 3 * n + k % 3].checked_mul(b[k / 3 * n + k % 3])?.checked_abs()?)?));
            return (0..n - 2).all(|i| (0..n - 2).all(|j| square(i * n + j).is_some())) as i64;
        }
        "full_fits_32" => {
            let meeting = |s: usize| &b[s.max(31) - 31..b.len().min(s + 1)];
            return (0..b.len() + 31).all(|s| magnitude_sum(meeting(s), &b[..32]).is_some()) as i64;
        }
        "indexed_map_collect" => {
            let mut made = Vec::with_capacity(n * n);
            for (i, row) in a.chunks(n).enumerate() {
                made.extend(row.iter().enumerate().map(|(j, x)| if i < j { x.wrapping_add(1) } else { *x }));
            }
            return made[n + 1];
        }
        "update" | "update_view" => {
            for (i, row) in a.chunks_mut(n).enumerate() {
                for (j, x) in row.iter_mut().enumerate() {
                    *x = if i < j { x.wrapping_add(1) } else { *x };
                }
            }
        }
        "update_view_column_major" => {
            for (j, column) in a.chunks_mut(n).enumerate() {
                for (i, x) in column.iter_mut().enumerate() {
                    *x = if i < j { x.wrapping_add(1) } else { *x };
                }
            }
        }
        "update_view_second_columns" => {
            for (i, row) in a.chunks_mut(n).enumerate() {
                for (j, x) in row.iter_mut().step_by(2).enumerate() {
                    *x = if i < j { x.wrapping_add(1) } else { *x };
                }
            }
        }
        "scan_rows" => {
            for row in a.chunks_mut(n) {
                let mut sum = 0i64;
                for x in row {
                    sum = sum.wrapping_add(*x);
                    *x = sum;
                }
            }
        }
        "scan_columns" => {
            for i in 1..n {
                let (before, row) = a.split_at_mut(i * n);
                for (sum, x) in row[..n].iter_mut().zip(&before[(i - 1) * n..]) {
                    *sum = sum.wrapping_add(*x);
                }
            }
        }
        "zip_four_fold" => return fold_of_four([a, b, a, b]),
        "zip_six_fold" => return fold_of_six([a, b, a, b, a, b]),
        "zip_column_fold" => {
            for (row, y) in a.chunks(n).zip(b.chunks(n)) {
                for x in row {
                    sum = sum.wrapping_add(x.wrapping_mul(y[0]));
                }
            }
        }
        _ => {
            for (x, y) in a.iter_mut().zip(b) {
                *x = x.wrapping_add(*y);
            }
        }
    }
    sum
}

/// Products in the best order of loops for the layouts.
#[inline(never)]
fn product(name: &str, n: usize, a: &[i64], b: &[i64]) -> i64 {
    let mut made = vec![0i64; if PRODUCTS.contains(&name) { n * n } else { n }];
    match name {
        "product" | "product_both_transposed" => {
            // Of two sides by columns the product by columns is that of the sides exchanged, by rows.
            let (a, b) = if name == "product" { (a, b) } else { (b, a) };
            for (sums, row) in made.chunks_mut(n).zip(a.chunks(n)) {
                for (x, other) in row.iter().zip(b.chunks(n)) {
                    add_scaled(sums, *x, other);
                }
            }
        }
        "product_left_transposed" => {
            for (i, sums) in made.chunks_mut(n).enumerate() {
                for (row, other) in a.chunks(n).zip(b.chunks(n)) {
                    add_scaled(sums, row[i], other);
                }
            }
        }
        "product_right_transposed" => {
            for (sums, row) in made.chunks_mut(n).zip(a.chunks(n)) {
                for (sum, column) in sums.iter_mut().zip(b.chunks(n)) {
                    *sum = inner(row, column);
                }
            }
        }
        "matrix_and_vector_fit" => {
            return b.chunks(n).all(|row| sums_checked(row.iter(), &a[..n]).is_some()) as i64;
        }
        "transposed_and_vector_fit" => {
            return (0..n).all(|j| sums_checked(b[j..].iter().step_by(n), &a[..n]).is_some()) as i64;
        }
        "matrix_times_vector" | "dynamic_times_vector" => {
            for (sum, row) in made.iter_mut().zip(b.chunks(n)) {
                *sum = inner(row, &a[..n]);
            }
        }
        "dynamic_three_columns" => {
            for (sum, row) in made.iter_mut().zip(b.chunks(n)) {
                *sum = inner(&row[..3], &a[..3]);
            }
        }
        _ => {
            for (x, row) in a[..n].iter().zip(b.chunks(n)) {
                add_scaled(&mut made[..n], *x, row);
            }
        }
    }
    made[1]
}

/// As if all slices were different ones: so that each is read.
#[inline(never)]
fn fold_of_four([w, x, y, z]: [&[i64]; 4]) -> i64 {
    w.iter().zip(x).zip(y).zip(z).fold(0, |sum: i64, (((w, x), y), z)| {
        sum.wrapping_add(w.wrapping_mul(*x)).wrapping_add(y.wrapping_mul(*z))
    })
}

/// The same of six.
#[inline(never)]
fn fold_of_six([u, v, w, x, y, z]: [&[i64]; 6]) -> i64 {
    u.iter().zip(v).zip(w).zip(x).zip(y).zip(z).fold(0, |sum: i64, (((((u, v), w), x), y), z)| {
        sum.wrapping_add(u.wrapping_mul(*v)).wrapping_add(w.wrapping_mul(*x)).wrapping_add(y.wrapping_mul(*z))
    })
}

/// Adds a product, in the best order of loops.
#[inline(never)]
fn general_product(n: usize, a: &[u32], b: &[u32], c: &mut [u32]) -> u32 {
    for (sums, row) in c.chunks_mut(n).zip(a.chunks(n)) {
        for (x, other) in row.iter().zip(b.chunks(n)) {
            for (sum, y) in sums.iter_mut().zip(other) {
                *sum = sum.wrapping_add(x.wrapping_mul(*y));
            }
        }
    }
    c[1]
}

fn add_scaled(sums: &mut [i64], x: i64, ys: &[i64]) {
    for (sum, y) in sums.iter_mut().zip(ys) {
        *sum = sum.wrapping_add(x.wrapping_mul(*y));
    }
}

/// The sum of the products, and that of their absolute values, where the type has them.
fn sums_checked<'a>(xs: impl Iterator<Item = &'a i64>, ys: &[i64]) -> Option<(i64, i64)> {
    let (mut sum, mut magnitude) = (0i64, 0i64);
    for (x, y) in xs.zip(ys) {
        let product = x.checked_mul(*y)?;
        magnitude = magnitude.checked_add(product.checked_abs()?)?;
        sum = sum.checked_add(product)?;
    }
    Some((sum, magnitude))
}

/// The sum of the absolute values of the products, where the type has it.
#[inline(never)]
fn magnitude_sum(xs: &[i64], ys: &[i64]) -> Option<i64> {
    xs.iter().zip(ys).try_fold(0i64, |sum, (x, y)| sum.checked_add(x.checked_mul(*y)?.checked_abs()?))
}

/// The product of the absolute values that are not zero, where the type has it.
fn magnitude_product(xs: &[i64]) -> Option<i64> {
    xs.iter().filter(|x| **x != 0).try_fold(1i64, |product, x| product.checked_mul(x.checked_abs()?))
}

fn inner(xs: &[i64], ys: &[i64]) -> i64 {
    xs.iter().zip(ys).fold(0, |sum: i64, (x, y)| sum.wrapping_add(x.wrapping_mul(*y)))
}

fn sum_of<'a>(numbers: impl Iterator<Item = &'a i64>) -> i64 {
    numbers.fold(0, |sum, x| sum.wrapping_add(*x))
}

#[inline(never)]
fn walk(name: &str, n: usize, a: &mut [i64], b: &[i64], c: &[i64]) -> i64 {
    let mut sum = 0i64;
    match name {
        "sum" | "sum_transposed" | "iter" | "zip_one_fold" => return sum_of(a.iter()),
        "sum_reversed" => return sum_of(a.iter().rev()),
        "sums_fit" | "sums_fit_transposed" | "checked_sum" => {
            let (mut up, mut down) = (0i64, 0i64);
            for x in a.iter() {
                let sums = if *x < 0 { down.checked_add(*x).map(|it| (up, it)) } else { up.checked_add(*x).map(|it| (it, down)) };
                match sums {
                    Some(sums) => (up, down) = sums,
                    None => return 0,
                }
            }
            return up + down;
        }
        "iter_transposed" => {
            for j in 0..n {
                for i in 0..n {
                    sum = sum.wrapping_add(a[i * n + j]);
                }
            }
        }
        "iter_stepped" | "sum_stepped" => {
            for row in a.chunks(n).step_by(2) {
                for x in row.iter().step_by(2) {
                    sum = sum.wrapping_add(*x);
                }
            }
        }
        "iter_mut" | "zip_one_for_each" | "owned_add_scalar" => {
            for x in a.iter_mut() {
                *x = x.wrapping_add(1);
            }
            return 1;
        }
        "indexed_iter" => {
            for (i, row) in a.chunks(n).enumerate() {
                for (j, x) in row.iter().enumerate() {
                    sum = sum.wrapping_add(*x).wrapping_add((i < j) as i64);
                }
            }
        }
        "indexed_iter_mut" => {
            for (i, row) in a.chunks_mut(n).enumerate() {
                for (j, x) in row.iter_mut().enumerate() {
                    *x = if i < j { 1 } else { 3 };
                }
            }
            return 1;
        }
        "to_owned" | "to_owned_column_major" => return a.to_vec()[n + 1],
        "into_iter_of_a_copy" => {
            for x in a.to_vec() {
                sum = sum.wrapping_add(x);
            }
        }
        "windows_3x3" => {
            for i in 0..n - 2 {
                for j in 0..n - 2 {
                    for k in 0..3 {
                        for l in 0..3 {
                            sum = sum.wrapping_add(a[(i + k) * n + j + l]);
                        }
                    }
                }
            }
        }
        "axis_iter" => {
            for row in a.chunks(n) {
                sum = sum.wrapping_add(sum_of(row.iter())).wrapping_mul(3);
            }
        }
        "columns" => {
            for j in 0..n {
                for i in 0..n {
                    sum = sum.wrapping_add(a[i * n + j]);
                }
                sum = sum.wrapping_mul(3);
            }
        }
        "sum_axis_rows" => {
            let made: Vec<i64> = b.chunks(n).map(|row| sum_of(row.iter())).collect();
            return made[1];
        }
        "sum_axis_columns" => {
            let mut made = vec![0i64; n];
            for row in b.chunks(n) {
                for (sum, x) in made.iter_mut().zip(row) {
                    *sum = sum.wrapping_add(*x);
                }
            }
            return made[1];
        }
        "zip_two_fold" | "zip_two_fold_column_major" => {
            for (x, y) in a.iter().zip(b) {
                sum = sum.wrapping_add(x.wrapping_mul(*y));
            }
        }
        "zip_three_fold" => {
            for ((x, y), z) in a.iter().zip(b).zip(c) {
                sum = sum.wrapping_add(x.wrapping_mul(*y)).wrapping_add(*z);
            }
        }
        "zip_two_for_each" | "owned_add_ref" | "add_assign" => {
            for (x, y) in a.iter_mut().zip(b) {
                *x = x.wrapping_add(*y);
            }
            return 1;
        }
        "zip_two_map_collect" | "ref_add_ref" => {
            let made: Vec<i64> = a.iter().zip(b).map(|(x, y)| x.wrapping_add(*y)).collect();
            return made[n + 1];
        }
        "zip_two_map_assign_into" | "zip_two_map_assign_into_view" => {
            for ((into, x), y) in a.iter_mut().zip(b).zip(c) {
                *into = x.wrapping_add(*y);
            }
            return 1;
        }
        "zip_two_fold_mixed" => {
            for i in 0..n {
                for j in 0..n {
                    sum = sum.wrapping_add(a[i * n + j].wrapping_mul(b[j * n + i]));
                }
            }
        }
        "zip_two_for_each_mixed" | "add_assign_mixed" => {
            for i in 0..n {
                for j in 0..n {
                    a[i * n + j] = a[i * n + j].wrapping_add(b[j * n + i]);
                }
            }
            return 1;
        }
        "ref_add_scalar" => {
            let made: Vec<i64> = a.iter().map(|x| x.wrapping_add(1)).collect();
            return made[n + 1];
        }
        "ref_add_row" => {
            let row = &b[..n];
            let mut made = Vec::with_capacity(n * n);
            for cells in a.chunks(n) {
                made.extend(cells.iter().zip(row).map(|(x, y)| x.wrapping_add(*y)));
            }
            return made[n + 1];
        }
        "add_assign_row" => {
            let row = &b[..n];
            for cells in a.chunks_mut(n) {
                for (x, y) in cells.iter_mut().zip(row) {
                    *x = x.wrapping_add(*y);
                }
            }
            return 1;
        }
        "ref_add_column" => {
            let mut made = Vec::with_capacity(n * n);
            for (cells, y) in a.chunks(n).zip(b) {
                made.extend(cells.iter().map(|x| x.wrapping_add(*y)));
            }
            return made[n + 1];
        }
        "add_assign_column" => {
            for (cells, y) in a.chunks_mut(n).zip(b) {
                for x in cells {
                    *x = x.wrapping_add(*y);
                }
            }
            return 1;
        }
        "zip_two_map_collect_mixed" | "ref_add_ref_mixed" => {
            let mut made = Vec::with_capacity(n * n);
            for i in 0..n {
                for j in 0..n {
                    made.push(a[i * n + j].wrapping_add(b[j * n + i]));
                }
            }
            return made[n + 1];
        }
        _ => {}
    }
    sum
}

//! The same tasks in plain Rust, with the usual bounds checks: Gauss and Jordan on rows of bytes, with tables for the fields that are not prime.
//! `plain TASK FIELD SIZE [TIMES]`, as linear_bench.

struct Field {
    q: usize,
    sums: Vec<u8>,
    products: Vec<u8>,
}

fn polynomial(q: usize) -> (usize, Vec<usize>) {
    match q {
        4 => (2, vec![1, 1]),
        8 => (2, vec![1, 1, 0]),
        9 => (3, vec![1, 0]),
        16 => (2, vec![1, 1, 0, 0]),
        25 => (5, vec![2, 0]),
        27 => (3, vec![1, 2, 0]),
        p => (p, vec![0]),
    }
}

impl Field {
    fn new(q: usize) -> Field {
        let (p, low) = polynomial(q);
        let e = low.len();
        let digits = |mut n: usize| -> Vec<usize> {
            (0..e).map(|_| { let d = n % p; n /= p; d }).collect()
        };
        let number = |c: &[usize]| c.iter().rev().fold(0, |n, d| n * p + d) as u8;
        let (mut sums, mut products) = (vec![0; q * q], vec![0; q * q]);
        for a in 0..q {
            for b in 0..q {
                let (x, y) = (digits(a), digits(b));
                let s: Vec<usize> = x.iter().zip(&y).map(|(u, v)| (u + v) % p).collect();
                sums[a * q + b] = number(&s);
                let mut z = vec![0; 2 * e];
                for i in 0..e {
                    for j in 0..e {
                        z[i + j] = (z[i + j] + x[i] * y[j]) % p;
                    }
                }
                for k in (e..2 * e).rev() {
                    let c = z[k];
                    z[k] = 0;
                    for i in 0..e {
                        z[k - e + i] = (z[k - e + i] + (p - low[i]) * c) % p;
                    }
                }
                products[a * q + b] = number(&z[..e]);
            }
        }
        Field { q, sums, products }
    }

    fn neg(&self, a: u8) -> u8 {
        (0..self.q as u8).find(|b| self.sums[a as usize * self.q + *b as usize] == 0).unwrap()
    }

    fn inv(&self, a: u8) -> u8 {
        (1..self.q as u8).find(|b| self.products[a as usize * self.q + *b as usize] == 1).unwrap()
    }

    fn add_multiple(&self, factor: u8, source: &[u8], target: &mut [u8]) {
        let q = self.q;
        match q {
            2 => target.iter_mut().zip(source).for_each(|(t, s)| *t ^= s),
            3 => target.iter_mut().zip(source).for_each(|(t, s)| *t = (*t + factor * s) % 3),
            5 => target.iter_mut().zip(source).for_each(|(t, s)| *t = (*t + factor * s) % 5),
            4 | 8 | 16 => {
                let row = &self.products[factor as usize * q..(factor as usize + 1) * q];
                target.iter_mut().zip(source).for_each(|(t, s)| *t ^= row[*s as usize]);
            }
            _ => {
                let row = &self.products[factor as usize * q..(factor as usize + 1) * q];
                target.iter_mut().zip(source).for_each(|(t, s)| *t = self.sums[*t as usize * q + row[*s as usize] as usize]);
            }
        }
    }
}

fn two<'a>(m: &'a mut [u8], cols: usize, source: usize, target: usize, from: usize) -> (&'a [u8], &'a mut [u8]) {
    if source < target {
        let (a, b) = m.split_at_mut(target * cols);
        (&a[source * cols + from..(source + 1) * cols], &mut b[from..cols])
    } else {
        let (a, b) = m.split_at_mut(source * cols);
        (&b[from..cols], &mut a[target * cols + from..(target + 1) * cols])
    }
}

fn echelon(f: &Field, m: &mut [u8], rows: usize, cols: usize) -> Vec<usize> {
    let mut pivots = vec![];
    for c in 0..cols {
        let r = pivots.len();
        let Some(i) = (r..rows).find(|i| m[i * cols + c] != 0) else { continue };
        for j in 0..cols {
            m.swap(r * cols + j, i * cols + j);
        }
        let s = f.inv(m[r * cols + c]);
        for j in 0..cols {
            m[r * cols + j] = f.products[s as usize * f.q + m[r * cols + j] as usize];
        }
        for i in 0..rows {
            if i != r && m[i * cols + c] != 0 {
                let factor = f.neg(m[i * cols + c]);
                let (source, target) = two(m, cols, r, i, c);
                f.add_multiple(factor, source, target);
            }
        }
        pivots.push(c);
    }
    pivots
}

fn random(f: &Field, n: usize, seed: u32) -> Vec<u8> {
    let mut x = seed;
    (0..n * n)
        .map(|_| {
            x = x.wrapping_mul(1664525).wrapping_add(1013904223);
            ((x >> 26) % f.q as u32) as u8
        })
        .collect()
}

fn main() {
    let words: Vec<String> = std::env::args().collect();
    let (q, n): (usize, usize) = (words[2].parse().unwrap(), words[3].parse().unwrap());
    let times: u32 = words.get(4).map_or(1, |word| word.parse().unwrap());
    let f = Field::new(q);
    let mut answer = 0;
    for _ in 0..times {
        answer = run_once(&f, &words[1], n);
    }
    println!("{answer}");
}

fn run_once(f: &Field, task: &str, n: usize) -> usize {
    let mut a = random(f, n, 1);
    match task {
        "rank" => echelon(f, &mut a, n, n).len(),
        "kernel" => {
            let mut wide = vec![0; 2 * n * n];
            for i in 0..n {
                wide[2 * n * i..2 * n * i + n].copy_from_slice(&a[n * i..n * i + n]);
                wide[2 * n * i + n + i] = 1;
            }
            echelon(f, &mut wide, n, 2 * n).iter().filter(|p| **p >= n).count()
        }
        "product" => {
            let b = random(f, n, 2);
            let mut c = vec![0; n * n];
            for i in 0..n {
                for k in 0..n {
                    if a[i * n + k] != 0 {
                        f.add_multiple(a[i * n + k], &b[k * n..(k + 1) * n], &mut c[i * n..(i + 1) * n]);
                    }
                }
            }
            std::hint::black_box(&c);
            n
        }
        _ => {
            let b = random(f, n, 2);
            let mut wide = vec![0; 2 * n * n];
            for i in 0..n {
                for t in 0..n {
                    wide[t * 2 * n + i] = a[i * n + t];
                    wide[t * 2 * n + n + i] = b[i * n + t];
                }
            }
            let pivots = echelon(f, &mut wide, n, 2 * n);
            if pivots.iter().any(|p| *p >= n) { 0 } else { n }
        }
    }
}

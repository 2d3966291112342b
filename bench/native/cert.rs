//! Checks a certificate of a row of Kazhdan-Lusztig polynomials: a measure for `bench/cert.py`,
//! plain Rust with std alone.
//!
//!     rustc --edition 2024 -O -o cert cert.rs && ./cert t < CERTIFICATE
//!
//! It reads the text of a certificate, sees that its words are the elements below the given one, and
//! sums R(x,y) P(y,w) up over the y, by columns of R, the y in lexicographic order of their words,
//! with the columns of the prefixes of the last word kept. Its argument is not looked at.
//!
//! It is not verified, keeps to one thread, and panics where something is wrong. It writes what took
//! how long; where a polynomial is not P(x,w) it writes the place of the first such x.
use std::io::Read;
use std::time::Instant;

const NONE: u32 = u32::MAX;

type Word = Vec<u8>;

/// A Coxeter group by its integer matrix. An element u is known by the heights of the roots
/// u^-1 e(t), which its letters change one by one.
struct Group {
    n: usize,
    a: Vec<Vec<i128>>,
}

impl Group {
    fn heights(&self, w: &[u8]) -> Vec<i128> {
        let mut h = vec![1i128; self.n];
        for &s in w.iter().rev() {
            self.put_before(&mut h, s as usize - 1);
        }
        h
    }

    /// Puts a letter, from 0, before the word.
    fn put_before(&self, h: &mut [i128], s: usize) {
        let own = h[s];
        for t in 0..self.n {
            h[t] -= self.a[s][t] * own;
        }
    }

    /// The ShortLex normal form.
    fn normal_form(&self, mut h: Vec<i128>) -> Word {
        let mut w = vec![];
        while let Some(s) = h.iter().position(|x| *x < 0) {
            w.push(s as u8 + 1);
            self.put_before(&mut h, s);
        }
        w
    }

    /// Whether y is below w in Bruhat order, by lifting; w is reduced.
    fn below(&self, y: &[u8], w: &[u8]) -> bool {
        let mut h = self.heights(y);
        for &s in w {
            if h[s as usize - 1] < 0 {
                self.put_before(&mut h, s as usize - 1);
            }
        }
        h.iter().all(|x| *x > 0)
    }
}

fn word(t: &str, n: usize) -> Word {
    if t == "e" {
        vec![]
    } else if n < 10 {
        t.bytes().map(|b| b - b'0').collect()
    } else {
        t.split('.').map(|x| x.parse().unwrap()).collect()
    }
}

/// The coefficients of a polynomial, read term by term.
fn polynomial(t: &str) -> Vec<i128> {
    let mut p = vec![];
    if t == "0" {
        return p;
    }
    let mut start = 0;
    let b = t.as_bytes();
    let mut terms = vec![];
    for i in 1..b.len() {
        if b[i] == b'+' || b[i] == b'-' {
            terms.push(&t[start..i]);
            start = i;
        }
    }
    terms.push(&t[start..]);
    for term in terms {
        let (c, k) = if let Some(i) = term.find('q') {
            let k = if i + 1 < term.len() {
                term[i + 2..].parse().unwrap()
            } else {
                1usize
            };
            (
                match &term[..i] {
                    "" | "+" => 1,
                    "-" => -1,
                    x => x.parse::<i128>().unwrap(),
                },
                k,
            )
        } else {
            (term.parse().unwrap(), 0)
        };
        while p.len() <= k {
            p.push(0)
        }
        p[k] = c;
    }
    p
}

/// The ShortLex order.
fn cmp(a: &[u8], b: &[u8]) -> std::cmp::Ordering {
    a.len().cmp(&b.len()).then(a.cmp(b))
}

fn main() {
    let mut text = String::new();
    std::io::stdin().read_to_string(&mut text).unwrap();
    let t0 = Instant::now();
    let lines: Vec<&str> = text.lines().collect();
    let nums: Vec<usize> = lines[0]
        .split(' ')
        .skip(1)
        .map(|x| x.parse().unwrap())
        .collect();
    let n = nums[0];
    let mut a = vec![vec![0i128; n]; n];
    let mut at = 1;
    for s in 0..n {
        a[s][s] = 2;
        for t in s + 1..n {
            let (x, y) = match nums[at] {
                0 => (-2, -2),
                2 => (0, 0),
                3 => (-1, -1),
                4 => (-1, -2),
                _ => (-1, -3),
            };
            a[s][t] = x;
            a[t][s] = y;
            at += 1;
        }
    }
    let g = Group { n, a };
    let w = word(&lines[1][8..], n);
    let count: usize = lines[2][5..].parse().unwrap();
    let mut words = vec![];
    let mut ps = vec![];
    for l in &lines[3..3 + count] {
        let (x, p) = l.split_once(':').unwrap();
        words.push(word(x, n));
        ps.push(polynomial(p));
    }
    let t_parse = t0.elapsed();
    let t = Instant::now();
    let lw = w.len();
    assert!(lw <= 39);
    assert_eq!(g.normal_form(g.heights(&w)), w);
    // The words rise, each is a normal form, and each is below w.
    assert_eq!(words[count - 1], w);
    for i in 1..count {
        assert!(cmp(&words[i - 1], &words[i]).is_lt());
    }
    for x in &words {
        assert!(g.below(x, &w));
        assert_eq!(&g.normal_form(g.heights(x)), x);
    }
    let t_below = t.elapsed();
    let t = Instant::now();
    // For each x and s the number of sx, by its normal form and a binary search.
    let find = |v: &[u8]| {
        words
            .binary_search_by(|x| cmp(x, v))
            .map_or(NONE, |i| i as u32)
    };
    let mut left = vec![NONE; count * n];
    for i in 0..count {
        let h = g.heights(&words[i]);
        for s in 0..n {
            if h[s] < 0 {
                let mut h2 = h.clone();
                g.put_before(&mut h2, s);
                let j = find(&g.normal_form(h2));
                assert!(j != NONE);
                left[i * n + s] = j;
                left[j as usize * n + s] = i as u32;
            }
        }
    }
    let t_shift = t.elapsed();
    let t = Instant::now();
    // The list is whole: along the suffixes v of w, what is below s v is what is below v, and s
    // times that.
    let mut inn = vec![false; count];
    inn[0] = true;
    let mut size = 1;
    for &s in w.iter().rev() {
        for x in 0..count {
            if inn[x] {
                let y = left[x * n + s as usize - 1];
                assert!(y != NONE, "not whole");
                if !inn[y as usize] {
                    inn[y as usize] = true;
                    size += 1;
                }
            }
        }
    }
    assert_eq!(size, count);
    let t_whole = t.elapsed();
    let len: Vec<usize> = words.iter().map(|x| x.len()).collect();
    // The polynomial 1 stands at w, and the others meet the bound on their degrees.
    let one = |p: &Vec<i128>| p.len() == 1 && p[0] == 1;
    assert!(one(&ps[count - 1]));
    for i in 0..count - 1 {
        assert!(
            ps[i].is_empty() || 2 * (ps[i].len() - 1) + 1 <= lw - len[i],
            "degree"
        );
    }
    println!(
        "elements {count}: read {t_parse:?}, words {t_below:?}, shifts {t_shift:?}, whole {t_whole:?}"
    );
    let st = lw + 1;
    let first_wrong = |h: &[i128]| -> Option<usize> {
        for x in 0..count {
            let d = lw - len[x];
            for k in 0..st {
                let v = if x * st + k < h.len() {
                    h[x * st + k]
                } else {
                    0
                };
                let want = if k <= d {
                    ps[x].get(d - k).copied().unwrap_or(0)
                } else {
                    0
                };
                if v != want {
                    return Some(x);
                }
            }
        }
        None
    };
    // The right shifts, by the left ones: x t = s ((s x) t).
    let t = Instant::now();
    let mut right = vec![NONE; count * n];
    for i in 0..count {
        for t in 0..n {
            if i == 0 {
                right[t] = left[t];
                continue;
            }
            let s = words[i][0] as usize - 1;
            let rest = left[i * n + s] as usize;
            let m = right[rest * n + t];
            right[i * n + t] = if m == NONE {
                NONE
            } else {
                left[m as usize * n + s]
            };
        }
    }
    // Where (sx)t is no member, x t may still be a shorter one, which has x as its shift.
    for i in 0..count {
        for t in 0..n {
            let m = right[i * n + t];
            if m != NONE && (m as usize) < i {
                right[m as usize * n + t] = i as u32;
            }
        }
    }
    let t_right = t.elapsed();
    let t = Instant::now();
    let mut sums = vec![0i128; count * st];
    let mut columns: Vec<Vec<i64>> = (0..=lw).map(|_| vec![]).collect();
    columns[0] = {
        let mut v = vec![0i64; st];
        v[0] = 1;
        v
    };
    let mut cur: Word = vec![];
    let mut order: Vec<usize> = (0..count).collect();
    order.sort_by(|a, b| words[*a].cmp(&words[*b]));
    for y in order {
        let w = &words[y];
        let common = cur.iter().zip(w.iter()).take_while(|(a, b)| a == b).count();
        // `at` is the number of the prefix of d letters.
        let mut at = 0usize;
        for d in 0..w.len() {
            let t = w[d] as usize - 1;
            let next = right[at * n + t] as usize;
            if d >= common {
                let (low, high) = columns.split_at_mut(d + 1);
                let old = &low[d];
                let new = &mut high[0];
                new.clear();
                new.resize((next + 1) * st, 0);
                for x in 0..=next {
                    let xt = right[x * n + t];
                    let st2 = len[next] - len[x] + 1;
                    let o = &mut new[x * st..(x + 1) * st];
                    if xt != NONE && (xt as usize) < x {
                        let xt = xt as usize;
                        if xt <= at {
                            o[..st2].copy_from_slice(&old[xt * st..xt * st + st2]);
                        }
                    } else {
                        if x <= at {
                            let f = &old[x * st..(x + 1) * st];
                            let mut b = 0;
                            for k in 0..st2 {
                                o[k] = b - f[k];
                                b = f[k];
                            }
                        }
                        if xt != NONE && xt as usize <= at {
                            let xt = xt as usize;
                            let f = &old[xt * st..(xt + 1) * st];
                            for k in 1..st2 {
                                o[k] += f[k - 1];
                            }
                        }
                    }
                }
            }
            at = next;
        }
        assert_eq!(at, y);
        cur = w.clone();
        let p = &ps[y];
        let col = &columns[w.len()];
        for x in 0..=y {
            let f = &col[x * st..(x + 1) * st];
            let o = &mut sums[x * st..(x + 1) * st];
            let d = len[y] - len[x];
            for (j, u) in p.iter().enumerate() {
                let u = *u as i64;
                if u != 0 {
                    for k in 0..=d {
                        o[k + j] += f[k] as i128 * u as i128;
                    }
                }
            }
        }
    }
    println!(
        "right shifts {t_right:?}, columns {:?}, the first wrong one {:?}",
        t.elapsed(),
        first_wrong(&sums)
    );
}

//! Answers scripts of scattered Kazhdan-Lusztig questions: a measure for `bench/sessions.py`, plain
//! Rust with std alone.
//!
//!     rustc --edition 2024 -O -o questions questions.rs && ./questions < script
//!
//! A script has lines `type X n` or `matrix n labels..`, as for `coxeter`, with labels 2, 3, 4, 6
//! and 0, and lines `pol x w`. Each of these is answered by P(x,w), or by 0 where x is not below w.
//! What is kept from question to question is a context (a list of elements with all that are below
//! them in Bruhat order, with tables of shifts), and rows over it (P(x,w) at the extremal x). Where
//! w is no member, the elements below it that are none are appended. They get numbers behind those
//! that are there, so nothing that is kept changes.
//!
//! It is not verified, keeps to one thread, and panics where a script is wrong, or a coefficient or
//! a height leaves 64 bits.
use std::collections::HashMap;
use std::io::{Read, Write};

const NONE: u32 = u32::MAX;

/// A Coxeter group: labels m(s,t) (0 for infinity) and an integer matrix a(s,t); letters from 0.
struct Group {
    n: usize,
    label: Vec<Vec<usize>>,
    a: Vec<Vec<i64>>,
}

impl Group {
    fn of_type(letter: &str, n: usize) -> Group {
        let chain = |from: usize, to: usize| (from..to).map(|i| (i, i + 1, 3)).collect::<Vec<_>>();
        let (rank, bonds) = match letter {
            "A" => (n, chain(1, n)),
            "B" => (n, [chain(1, n - 1), vec![(n - 1, n, 4)]].concat()),
            "D" => (n, [chain(1, n - 1), vec![(n - 2, n, 3)]].concat()),
            "E" => (n, [vec![(1, 3, 3), (2, 4, 3)], chain(3, n)].concat()),
            "F" => (4, vec![(1, 2, 3), (2, 3, 4), (3, 4, 3)]),
            "G" => (2, vec![(1, 2, 6)]),
            "a" if n == 1 => (2, vec![(1, 2, 0)]),
            "a" => (n + 1, [chain(1, n + 1), vec![(n + 1, 1, 3)]].concat()),
            _ => panic!("no such type"),
        };
        let mut label = vec![vec![2; rank]; rank];
        bonds
            .iter()
            .for_each(|&(s, t, m)| (label[s - 1][t - 1], label[t - 1][s - 1]) = (m, m));
        Group::of_labels(label)
    }

    fn of_triangle(n: usize, labels: &[usize]) -> Group {
        let mut label = vec![vec![2; n]; n];
        let places = (0..n).flat_map(|s| (s + 1..n).map(move |t| (s, t)));
        places
            .zip(labels)
            .for_each(|((s, t), m)| (label[s][t], label[t][s]) = (*m, *m));
        Group::of_labels(label)
    }

    fn of_labels(label: Vec<Vec<usize>>) -> Group {
        let n = label.len();
        let mut a = vec![vec![0i64; n]; n];
        for s in 0..n {
            a[s][s] = 2;
            for t in s + 1..n {
                (a[s][t], a[t][s]) = match label[s][t] {
                    2 => (0, 0),
                    3 => (-1, -1),
                    4 => (-1, -2),
                    6 => (-1, -3),
                    0 => (-2, -2),
                    _ => panic!("no such label"),
                };
            }
        }
        Group { n, label, a }
    }

    /// The ShortLex normal form: an element u is known by the heights of the roots u^-1 e(t), which
    /// its letters change one by one.
    fn normal_form(&self, word: &[u8]) -> Vec<u8> {
        let mut heights = vec![1i64; self.n];
        let act = |heights: &mut [i64], s: usize| {
            let own = heights[s];
            for t in 0..self.n {
                let change = self.a[s][t].checked_mul(own).expect("64 bits");
                heights[t] = heights[t].checked_sub(change).expect("64 bits");
            }
        };
        word.iter()
            .rev()
            .for_each(|s| act(&mut heights, *s as usize));
        let mut form = vec![];
        while let Some(s) = heights.iter().position(|h| *h < 0) {
            form.push(s as u8);
            act(&mut heights, s);
        }
        form
    }
}

/// Elements, closed downwards in Bruhat order; their numbers rise in Bruhat order. An element is
/// shifted by the letters 0 to n-1 from the left, and by n to 2n-1 from the right; a shift that is
/// no member is NONE.
struct Context {
    n: usize,
    length: Vec<u16>,
    shift: Vec<u32>,
    down: Vec<u32>, // the letters that shorten each member: s as bit s, and from the right n + s
    inverse: Vec<u32>,
    under: Vec<(u32, u32)>, // where the coatoms of each member stand among `coatoms`
    coatoms: Vec<u32>,
}

impl Context {
    fn new(n: usize) -> Context {
        Context {
            n,
            length: vec![0],
            shift: vec![NONE; 2 * n],
            down: vec![0],
            inverse: vec![0],
            under: vec![(0, 0)],
            coatoms: vec![],
        }
    }

    fn len(&self) -> usize {
        self.length.len()
    }

    #[inline]
    fn shifted(&self, letter: usize, x: u32) -> u32 {
        self.shift[x as usize * 2 * self.n + letter]
    }

    #[inline]
    fn shortens(&self, letter: usize, x: u32) -> bool {
        self.down[x as usize] >> letter & 1 == 1
    }

    fn coatoms_of(&self, y: u32) -> &[u32] {
        let (from, to) = self.under[y as usize];
        &self.coatoms[from as usize..to as usize]
    }

    /// The least left descent of y.
    fn first(&self, y: u32) -> usize {
        self.down[y as usize].trailing_zeros() as usize
    }

    /// y without its first letter.
    fn rest(&self, y: u32) -> u32 {
        self.shifted(self.first(y), y)
    }

    /// The member t y, if t shortens y = s x, where all elements below y are members and y is not:
    /// by s and t alternately down from x, and up again. Else NONE.
    #[inline]
    fn walk(&self, g: &Group, s: usize, t: usize, x: u32) -> u32 {
        if s == t {
            return x;
        }
        let (m, mut at, mut letter, mut other) = (g.label[s][t], x, t, s);
        if m == 0 {
            return NONE;
        }
        for k in 0..2 * (m - 1) {
            if k < m - 1 && !self.shortens(letter, at) {
                return NONE;
            }
            at = self.shifted(letter, at);
            if at == NONE {
                return NONE;
            }
            (letter, other) = (other, letter);
        }
        at
    }

    /// Notes that the letter takes y to the shorter member k, and k to y.
    fn join(&mut self, letter: usize, y: u32, k: u32) {
        self.shift[y as usize * 2 * self.n + letter] = k;
        self.shift[k as usize * 2 * self.n + letter] = y;
    }

    /// Appends y = s x, where all elements below y are members and y is not. Its shifts are read
    /// off those of members: those on the right from R(y), which is the union of the R(uy) over the
    /// left descents u of y, but for y = s.
    fn push(&mut self, g: &Group, s: usize, x: u32) -> u32 {
        let (n, y) = (self.n, self.len() as u32);
        self.shift.resize(self.shift.len() + 2 * n, NONE);
        let mut down = 0u32;
        for t in 0..n {
            let k = self.walk(g, s, t, x);
            if k != NONE {
                down |= 1 << t;
                self.join(t, y, k);
            }
        }
        let mut from = if x == 0 { 0 } else { down };
        if x == 0 {
            down |= 1 << (n + s);
            self.join(n + s, y, 0);
        }
        while from != 0 {
            let u = from.trailing_zeros() as usize;
            from &= from - 1;
            let z = self.shifted(u, y);
            let mut more = self.down[z as usize] & !down & u32::MAX << n;
            down |= more;
            while more != 0 {
                let t = more.trailing_zeros() as usize;
                more &= more - 1;
                self.join(t, y, self.shifted(u, self.shifted(t, z)));
            }
        }
        self.length.push(self.length[x as usize] + 1);
        self.down.push(down);
        let other = self.inverse[x as usize];
        let inverse = if other == NONE {
            NONE
        } else {
            self.shifted(n + s, other)
        };
        self.inverse.push(inverse);
        if inverse != NONE {
            self.inverse[inverse as usize] = y;
        }
        let start = self.coatoms.len() as u32;
        self.coatoms.push(x);
        let (from, to) = self.under[x as usize];
        for k in from..to {
            let z = self.coatoms[k as usize];
            if !self.shortens(s, z) {
                self.coatoms.push(self.shifted(s, z));
            }
        }
        self.under.push((start, self.coatoms.len() as u32));
        y
    }

    /// The member y = s x, where s lengthens x. The elements below y that are no members are
    /// appended first: the coatoms of y are x, and s z for each coatom z of x that s lengthens. So
    /// no member that was there before is looked at, but for coatoms of new ones.
    fn add_child(&mut self, g: &Group, s: usize, x: u32) -> u32 {
        let known = self.shifted(s, x);
        if known != NONE {
            return known;
        }
        let (from, to) = self.under[x as usize];
        for k in from..to {
            let z = self.coatoms[k as usize];
            if !self.shortens(s, z) {
                self.add_child(g, s, z);
            }
        }
        self.push(g, s, x)
    }

    /// Appends what is not there of the elements below w, a reduced word; tells the number of w.
    fn add(&mut self, g: &Group, w: &[u8]) -> u32 {
        w.iter()
            .rev()
            .fold(0, |v, s| self.add_child(g, *s as usize, v))
    }

    /// The number of the element of a word: by right shifts, and by left shifts along its normal
    /// form where one of these is no member.
    fn number(&self, g: &Group, word: &[u8]) -> Option<u32> {
        let step = |at: Option<u32>, letter: usize| {
            at.map(|at| self.shifted(letter, at))
                .filter(|at| *at != NONE)
        };
        let by_right = word
            .iter()
            .fold(Some(0), |at, s| step(at, self.n + *s as usize));
        by_right.or_else(|| {
            g.normal_form(word)
                .iter()
                .rev()
                .fold(Some(0), |at, s| step(at, *s as usize))
        })
    }
}

/// Distinct polynomials; 0 is the zero polynomial, 1 the constant 1.
struct Pool {
    coefs: Vec<i64>,
    start: Vec<u32>,
    table: Vec<u32>,
}

impl Pool {
    fn new() -> Pool {
        let mut pool = Pool {
            coefs: vec![],
            start: vec![0],
            table: vec![NONE; 1 << 10],
        };
        pool.put(&[]);
        pool.put(&[1]);
        pool
    }

    fn at(&self, k: u32) -> &[i64] {
        &self.coefs[self.start[k as usize] as usize..self.start[k as usize + 1] as usize]
    }

    fn place(&self, p: &[i64]) -> usize {
        let hash = p.iter().fold(0u64, |h, c| {
            (h.rotate_left(5) ^ *c as u64).wrapping_mul(0x9e37_79b9_7f4a_7c15)
        });
        let mask = self.table.len() - 1;
        let mut k = (hash >> 32) as usize & mask;
        while self.table[k] != NONE && self.at(self.table[k]) != p {
            k = (k + 1) & mask;
        }
        k
    }

    fn put(&mut self, p: &[i64]) -> u32 {
        let k = self.place(p);
        if self.table[k] != NONE {
            return self.table[k];
        }
        let number = self.start.len() as u32 - 1;
        self.coefs.extend_from_slice(p);
        self.start.push(self.coefs.len() as u32);
        self.table[k] = number;
        if 2 * self.start.len() > self.table.len() {
            self.table = vec![NONE; 4 * self.table.len()];
            for j in 0..=number {
                let k = self.place(self.at(j));
                self.table[k] = j;
            }
        }
        number
    }
}

/// The row of w. Its extremal x <= w, rising, and their polynomials stand in lists of all rows, and
/// so do the u with mu(u,w) not 0, rising. A row that is turned has no polynomials of its own: they
/// are looked up in the row of the inverse of w.
#[derive(Clone, Copy)]
struct Row {
    start: u32,
    end: u32,
    mu_start: u32,
    mu_end: u32,
    turned: bool,
}

/// A way to make the row of w: a letter that shortens w, the shorter element v, and the sum of the
/// numbers of the corrections.
struct Step {
    letter: usize,
    v: u32,
    cost: u64,
}

/// The row of u, times m and a power of q.
#[derive(Clone, Copy)]
struct Correction {
    u: u32,
    m: i64,
    shift: usize,
}

/// A context, and the rows that were made of its members.
struct Rows {
    c: Context,
    at: Vec<u32>, // for each member the place of its row among `rows`
    rows: Vec<Row>,
    extremal: Vec<u32>,
    polynomial: Vec<u32>,
    mu: Vec<(u32, i32)>,
    /// The members before a number that are shortened by all of these letters, rising.
    lists: HashMap<u32, (u32, Vec<u32>)>,
    index: Vec<u32>, // scratch: the polynomials of the shorter element, by number
    seen: Vec<u32>,  // scratch: the last walk that came to each member
    walks: u32,
    sum: Vec<i64>, // scratch: the polynomial that is made
}

impl Rows {
    fn new(n: usize) -> Rows {
        let first = Row {
            start: 0,
            end: 1,
            mu_start: 0,
            mu_end: 0,
            turned: false,
        };
        let (c, at, rows, extremal, polynomial) =
            (Context::new(n), vec![0], vec![first], vec![0], vec![1]);
        let (mu, lists, index, seen, sum) = (vec![], HashMap::new(), vec![], vec![], vec![0; 256]);
        Rows {
            c,
            at,
            rows,
            extremal,
            polynomial,
            mu,
            lists,
            index,
            seen,
            walks: 0,
            sum,
        }
    }

    fn has(&self, w: u32) -> bool {
        self.at.get(w as usize).is_some_and(|k| *k != NONE)
    }

    fn row(&self, w: u32) -> Row {
        self.rows[self.at[w as usize] as usize]
    }

    /// The u with mu(u,w) not 0, for a row that is there.
    fn mus(&self, w: u32) -> &[(u32, i32)] {
        let row = self.row(w);
        &self.mu[row.mu_start as usize..row.mu_end as usize]
    }

    fn put_row(&mut self, w: u32, row: Row) {
        if self.at.len() < self.c.len() {
            self.at.resize(self.c.len(), NONE);
        }
        self.at[w as usize] = self.rows.len() as u32;
        self.rows.push(row);
    }

    /// x raised by the descents of v, which leaves P(x,v) as it is; NONE where x <= v fails, if
    /// that shows.
    #[inline(always)]
    fn raise(&self, v: u32, mut x: u32) -> u32 {
        let down = self.c.down[v as usize];
        while x <= v {
            let up = down & !self.c.down[x as usize];
            if up == 0 {
                return x;
            }
            x = self.c.shifted(up.trailing_zeros() as usize, x);
        }
        NONE
    }

    /// The pool number of P(x,v), for a row that is there.
    #[inline]
    fn get(&self, mut v: u32, mut x: u32) -> u32 {
        let mut row = self.row(v);
        if row.turned {
            if x > v {
                return 0;
            }
            x = self.c.inverse[x as usize];
            v = self.c.inverse[v as usize];
            row = self.row(v);
        }
        x = self.raise(v, x);
        let (start, end) = (row.start as usize, row.end as usize);
        self.extremal[start..end]
            .binary_search(&x)
            .map_or(0, |k| self.polynomial[start + k])
    }

    /// Of the steps to w by a descent whose rows are all there the one with the cheapest
    /// corrections. Else, as Err, the one to go by: with the fewest rows missing among those whose
    /// shorter element has one, or by the first letter.
    fn step(&self, w: u32) -> Result<Step, Step> {
        let c = &self.c;
        let mut best: Option<Step> = None;
        let mut other = (
            u64::MAX,
            Step {
                letter: c.first(w),
                v: c.rest(w),
                cost: 0,
            },
        );
        for letter in (0..2 * c.n).filter(|s| c.shortens(*s, w)) {
            let v = c.shifted(letter, w);
            if !self.has(v) {
                continue;
            }
            let (mut cost, mut missing) = (0, 0);
            for &(u, _) in self.mus(v) {
                if c.shortens(letter, u) {
                    cost += u as u64 + 1;
                    missing += !self.has(u) as u64;
                }
            }
            let step = Step { letter, v, cost };
            if missing > 0 {
                if missing < other.0 {
                    other = (missing, step);
                }
            } else if best.as_ref().is_none_or(|b| cost < b.cost) {
                best = Some(step);
            }
        }
        best.ok_or(other.1)
    }

    /// The rows that the step takes away, times mu.
    fn corrections(&self, w: u32, step: &Step) -> Vec<Correction> {
        let c = &self.c;
        let long = c.length[w as usize];
        (self.mus(step.v).iter())
            .filter(|(u, _)| c.shortens(step.letter, *u))
            .map(|&(u, m)| Correction {
                u,
                m: m as i64,
                shift: (long - c.length[u as usize]) as usize / 2,
            })
            .collect()
    }

    /// The step by which the row of w is made, whose rows are made first.
    fn ready(&mut self, w: u32, pool: &mut Pool) -> Step {
        match self.step(w) {
            Ok(step) => step,
            Err(step) => {
                self.ensure(step.v, pool);
                for correction in self.corrections(w, &step) {
                    self.ensure(correction.u, pool);
                }
                self.step(w).ok().expect("the rows of a step are there")
            }
        }
    }

    /// Makes the row of w, and the rows that it is made from, as far as they are not there.
    fn ensure(&mut self, w: u32, pool: &mut Pool) {
        if self.has(w) || self.mirror(w) {
            return;
        }
        let step = self.ready(w, pool);
        self.make(w, &step, pool);
    }

    /// The row of w from that of its inverse, if that is there: P(x,w) = P(x^-1,w^-1).
    fn mirror(&mut self, w: u32) -> bool {
        let o = self.c.inverse[w as usize];
        if o == NONE || !self.has(o) {
            return false;
        }
        let row = self.row(o);
        let start = self.mu.len();
        for k in row.mu_start..row.mu_end {
            let (u, m) = self.mu[k as usize];
            self.mu.push((self.c.inverse[u as usize], m));
        }
        self.mu[start..].sort_unstable();
        self.put_row(
            w,
            Row {
                start: 0,
                end: 0,
                mu_start: start as u32,
                mu_end: self.mu.len() as u32,
                turned: true,
            },
        );
        true
    }

    /// The sum of the recursion at one extremal x, into `sum`; false where x <= w fails. Where
    /// `indexed` is set, `index` has the row of the shorter element.
    #[inline]
    fn sum_at(
        &mut self,
        w: u32,
        step: &Step,
        corrections: &[Correction],
        x: u32,
        pool: &Pool,
        indexed: bool,
    ) -> bool {
        let mut sum = std::mem::take(&mut self.sum);
        let c = &self.c;
        let look = |x: u32| match self.raise(step.v, x) {
            _ if !indexed => self.get(step.v, x),
            NONE => 0,
            top => self.index[top as usize],
        };
        let below = look(c.shifted(step.letter, x));
        if below != 0 {
            let terms = (c.length[w as usize] - c.length[x as usize]) as usize / 2 + 1;
            sum[..terms].fill(0);
            let mut add = |p: u32, factor: i64, shift: usize| {
                for (k, c) in pool.at(p).iter().enumerate() {
                    let product = c.checked_mul(factor).expect("64 bits");
                    sum[k + shift] = sum[k + shift].checked_add(product).expect("64 bits");
                }
            };
            add(below, 1, 0);
            add(look(x), 1, 1);
            for it in corrections.iter().rev().take_while(|it| it.u >= x) {
                add(self.get(it.u, x), -it.m, it.shift);
            }
        }
        self.sum = sum;
        below != 0
    }

    /// The degree of the sum, which is P(x,w).
    fn degree(&self, w: u32, x: u32) -> usize {
        let d = (self.c.length[w as usize] - self.c.length[x as usize]) as usize;
        let degree = (0..=d / 2)
            .rev()
            .find(|k| self.sum[*k] != 0)
            .expect("P(x,w) is not 0 for x <= w");
        assert!(2 * degree < d, "degree bound");
        degree
    }

    /// The members x < w that are shortened by all letters that shorten w, rising; some that are
    /// not below w may be among them. The elements below w with all descents of w on one side can
    /// be reached from it by coatoms that have these too; so they are found by a walk down, where
    /// that is short, and else in the list of all members with these descents.
    fn candidates(&mut self, w: u32) -> Vec<u32> {
        let (c, down) = (&self.c, self.c.down[w as usize]);
        let (left, right) = (down & !(u32::MAX << c.n), down & u32::MAX << c.n);
        let side = if left.count_ones() >= right.count_ones() {
            left
        } else {
            right
        };
        let mut budget = self
            .lists
            .get(&side)
            .map_or(w as usize, |(_, list)| list.len())
            / 4;
        self.seen.resize(c.len().max(self.seen.len()), 0);
        self.walks += 1;
        let (mut found, mut stack) = (vec![], vec![w]);
        while let Some(y) = stack.pop() {
            let coatoms = c.coatoms_of(y);
            if coatoms.len() > budget {
                budget = 0;
                break;
            }
            budget -= coatoms.len();
            for &x in coatoms {
                let is_new = side & !c.down[x as usize] == 0 && self.seen[x as usize] != self.walks;
                if is_new {
                    self.seen[x as usize] = self.walks;
                    stack.push(x);
                    if down & !c.down[x as usize] == 0 {
                        found.push(x);
                    }
                }
            }
        }
        if budget > 0 {
            found.sort_unstable();
            return found;
        }
        let (done, list) = self.lists.entry(side).or_default();
        list.extend((*done..c.len() as u32).filter(|x| side & !c.down[*x as usize] == 0));
        *done = c.len() as u32;
        list[..list.partition_point(|x| *x < w)]
            .iter()
            .copied()
            .filter(|x| down & !c.down[*x as usize] == 0)
            .collect()
    }

    /// Lays the polynomials of v into `index`, or takes them out again.
    fn lay_index(&mut self, v: u32, clear: bool) {
        let row = self.row(v);
        let own = if row.turned {
            self.row(self.c.inverse[v as usize])
        } else {
            row
        };
        self.index.resize(self.c.len().max(self.index.len()), 0);
        for k in own.start as usize..own.end as usize {
            let x = if row.turned {
                self.c.inverse[self.extremal[k] as usize]
            } else {
                self.extremal[k]
            };
            self.index[x as usize] = if clear { 0 } else { self.polynomial[k] };
        }
    }

    /// Makes the row of w by a step whose rows are there.
    fn make(&mut self, w: u32, step: &Step, pool: &mut Pool) {
        let corrections = self.corrections(w, step);
        let candidates = self.candidates(w);
        self.lay_index(step.v, false);
        let (start, mu_start) = (self.extremal.len(), self.mu.len());
        for x in candidates {
            if !self.sum_at(w, step, &corrections, x, pool, true) {
                continue;
            }
            let degree = self.degree(w, x);
            if 2 * degree + 1 == (self.c.length[w as usize] - self.c.length[x as usize]) as usize {
                self.mu
                    .push((x, i32::try_from(self.sum[degree]).expect("32 bits")));
            }
            self.extremal.push(x);
            let p = pool.put(&self.sum[..=degree]);
            self.polynomial.push(p);
        }
        self.lay_index(step.v, true);
        self.extremal.push(w);
        self.polynomial.push(1);
        for letter in (0..2 * self.c.n).filter(|s| self.c.shortens(*s, w)) {
            let u = (self.c.shifted(letter, w), 1);
            if !self.mu[mu_start..].contains(&u) {
                self.mu.push(u);
            }
        }
        self.mu[mu_start..].sort_unstable();
        let row = Row {
            start: start as u32,
            end: self.extremal.len() as u32,
            mu_start: mu_start as u32,
            mu_end: self.mu.len() as u32,
            turned: false,
        };
        self.put_row(w, row);
    }

    /// P(x,w), by its row where that is there, else by itself.
    fn polynomial(&mut self, w: u32, x: u32, pool: &mut Pool) -> u32 {
        if self.has(w) {
            return self.get(w, x);
        }
        let (x, o) = (self.raise(w, x), self.c.inverse[w as usize]);
        if x == NONE || x == w {
            return (x == w) as u32;
        }
        if o != NONE && self.has(o) {
            return self.get(o, self.c.inverse[x as usize]);
        }
        let step = self.ready(w, pool);
        let corrections = self.corrections(w, &step);
        if !self.sum_at(w, &step, &corrections, x, pool, false) {
            return 0;
        }
        let degree = self.degree(w, x);
        pool.put(&self.sum[..=degree])
    }
}

/// A group, and what is kept of it.
struct Session {
    group: Group,
    kept: Rows,
    pool: Pool,
}

impl Session {
    fn new(group: Group) -> Session {
        Session {
            kept: Rows::new(group.n),
            pool: Pool::new(),
            group,
        }
    }

    /// P(x,w), as its number in the pool. The context grows where w is no member.
    fn polynomial(&mut self, x: &[u8], w: &[u8]) -> u32 {
        let number = match self.kept.c.number(&self.group, w) {
            Some(number) => number,
            None => self.kept.c.add(&self.group, &self.group.normal_form(w)),
        };
        match self.kept.c.number(&self.group, x) {
            Some(x) => self.kept.polynomial(number, x, &mut self.pool),
            None => 0,
        }
    }
}

/// Appends a polynomial and a line feed, as `1+2q-q^2`.
fn text(p: &[i64], out: &mut Vec<u8>) {
    if p.is_empty() {
        out.push(b'0');
    }
    let mut some = false;
    for (k, c) in p.iter().enumerate().filter(|(_, c)| **c != 0) {
        if some && *c > 0 {
            out.push(b'+');
        }
        some = true;
        match (c, k) {
            (1, 1..) => {}
            (-1, 1..) => out.push(b'-'),
            _ => write!(out, "{c}").unwrap(),
        }
        match k {
            0 => {}
            1 => out.push(b'q'),
            _ => write!(out, "q^{k}").unwrap(),
        }
    }
    out.push(b'\n');
}

/// The letters of a word, from 0.
fn word(text: &str) -> Vec<u8> {
    if text == "e" {
        return vec![];
    }
    text.bytes().map(|b| b - b'1').collect()
}

fn main() {
    let mut script = String::new();
    std::io::stdin().read_to_string(&mut script).unwrap();
    let mut session: Option<Session> = None;
    let mut out = vec![];
    for line in script.lines() {
        let words: Vec<&str> = line.split_whitespace().collect();
        let numbers = |from: usize| -> Vec<usize> {
            words[from..].iter().map(|w| w.parse().unwrap()).collect()
        };
        match words[0] {
            "type" => session = Some(Session::new(Group::of_type(words[1], numbers(2)[0]))),
            "matrix" => {
                session = Some(Session::new(Group::of_triangle(numbers(1)[0], &numbers(2))))
            }
            "pol" => {
                let session = session.as_mut().expect("a group is set");
                let p = session.polynomial(&word(words[1]), &word(words[2]));
                text(session.pool.at(p), &mut out);
            }
            _ => panic!("no such command"),
        }
    }
    std::io::stdout().write_all(&out).unwrap();
    std::process::exit(0); // what is kept is not given back piece by piece
}

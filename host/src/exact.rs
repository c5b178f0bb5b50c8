//! Exact values of lists, in fractions of whole numbers of any size.

use crate::rules::Line;
use std::cmp::Ordering;
use std::fmt;

/// Values with more limbs than this are given up, to keep the time bounded.
const MOST_LIMBS: usize = 300;

// ---- Whole numbers ----

/// A whole number: its sign and its size, in limbs with the least one first.
/// The last limb is not zero; zero has no limbs and is not negative.
#[derive(Clone, PartialEq, Eq)]
pub struct Whole {
    negative: bool,
    limbs: Vec<u32>,
}

impl Whole {
    fn new(negative: bool, mut limbs: Vec<u32>) -> Whole {
        while limbs.last() == Some(&0) {
            limbs.pop();
        }
        Whole {
            negative: negative && !limbs.is_empty(),
            limbs,
        }
    }

    fn from(n: i64) -> Whole {
        let size = n.unsigned_abs();
        Whole::new(n < 0, vec![size as u32, (size >> 32) as u32])
    }

    fn is_zero(&self) -> bool {
        self.limbs.is_empty()
    }

    fn neg(&self) -> Whole {
        Whole::new(!self.negative, self.limbs.clone())
    }

    fn add(&self, other: &Whole) -> Whole {
        if self.negative == other.negative {
            return Whole::new(self.negative, add_sizes(&self.limbs, &other.limbs));
        }
        match cmp_sizes(&self.limbs, &other.limbs) {
            Ordering::Less => Whole::new(other.negative, sub_sizes(&other.limbs, &self.limbs)),
            _ => Whole::new(self.negative, sub_sizes(&self.limbs, &other.limbs)),
        }
    }

    fn mul(&self, other: &Whole) -> Whole {
        Whole::new(
            self.negative != other.negative,
            mul_sizes(&self.limbs, &other.limbs),
        )
    }

    fn cmp(&self, other: &Whole) -> Ordering {
        match (self.negative, other.negative) {
            (false, true) => Ordering::Greater,
            (true, false) => Ordering::Less,
            (false, false) => cmp_sizes(&self.limbs, &other.limbs),
            (true, true) => cmp_sizes(&other.limbs, &self.limbs),
        }
    }
}

/// Shown in hexadecimal digits.
impl fmt::Debug for Whole {
    fn fmt(&self, f: &mut fmt::Formatter) -> fmt::Result {
        write!(f, "{}0x", if self.negative { "-" } else { "" })?;
        let Some((first, rest)) = self.limbs.split_last() else {
            return write!(f, "0");
        };
        write!(f, "{first:x}")?;
        rest.iter()
            .rev()
            .try_for_each(|limb| write!(f, "{limb:08x}"))
    }
}

fn cmp_sizes(a: &[u32], b: &[u32]) -> Ordering {
    a.len()
        .cmp(&b.len())
        .then_with(|| a.iter().rev().cmp(b.iter().rev()))
}

fn add_sizes(a: &[u32], b: &[u32]) -> Vec<u32> {
    let (long, short) = if a.len() >= b.len() { (a, b) } else { (b, a) };
    let mut sum = Vec::with_capacity(long.len() + 1);
    let mut carry = 0u64;
    for (k, &limb) in long.iter().enumerate() {
        carry += u64::from(limb) + u64::from(short.get(k).copied().unwrap_or(0));
        sum.push(carry as u32);
        carry >>= 32;
    }
    sum.push(carry as u32);
    sum
}

/// The difference of two sizes, where the first is not less than the second.
fn sub_sizes(a: &[u32], b: &[u32]) -> Vec<u32> {
    let mut rest = Vec::with_capacity(a.len());
    let mut borrow = false;
    for (k, &limb) in a.iter().enumerate() {
        let (once, under) = limb.overflowing_sub(b.get(k).copied().unwrap_or(0));
        let (twice, again) = once.overflowing_sub(u32::from(borrow));
        rest.push(twice);
        borrow = under || again;
    }
    rest
}

fn mul_sizes(a: &[u32], b: &[u32]) -> Vec<u32> {
    let mut product = vec![0u32; a.len() + b.len()];
    for (i, &x) in a.iter().enumerate() {
        let mut carry = 0u64;
        for (j, &y) in b.iter().enumerate() {
            carry += u64::from(x) * u64::from(y) + u64::from(product[i + j]);
            product[i + j] = carry as u32;
            carry >>= 32;
        }
        product[i + b.len()] = carry as u32;
    }
    product
}

// ---- Fractions ----

/// A fraction; the lower number is above zero. It need not be reduced.
#[derive(Clone)]
pub struct Fraction {
    over: Whole,
    under: Whole,
}

impl Fraction {
    /// The fraction of two numbers; the lower one must be above zero.
    pub fn new(over: i64, under: i64) -> Fraction {
        assert!(under > 0);
        Fraction {
            over: Whole::from(over),
            under: Whole::from(under),
        }
    }

    fn is_negative(&self) -> bool {
        self.over.negative
    }

    fn neg(&self) -> Fraction {
        Fraction {
            over: self.over.neg(),
            under: self.under.clone(),
        }
    }

    fn add(&self, other: &Fraction) -> Fraction {
        if self.under == other.under {
            return Fraction {
                over: self.over.add(&other.over),
                under: self.under.clone(),
            };
        }
        let over = self
            .over
            .mul(&other.under)
            .add(&other.over.mul(&self.under));
        Fraction {
            over,
            under: self.under.mul(&other.under),
        }
    }

    fn mul(&self, other: &Fraction) -> Fraction {
        Fraction {
            over: self.over.mul(&other.over),
            under: self.under.mul(&other.under),
        }
    }

    /// The quotient, or nothing when the other fraction is exactly zero.
    fn div(&self, other: &Fraction) -> Option<Fraction> {
        if other.over.is_zero() {
            return None;
        }
        let (over, under) = (self.over.mul(&other.under), self.under.mul(&other.over));
        let flip = under.negative;
        Some(Fraction {
            over: if flip { over.neg() } else { over },
            under: if flip { under.neg() } else { under },
        })
    }

    fn cmp(&self, other: &Fraction) -> Ordering {
        self.over
            .mul(&other.under)
            .cmp(&other.over.mul(&self.under))
    }

    /// Whether the value, turned from units into counts, lies between two ends.
    pub fn lies_between(&self, (lo, hi): (i64, i64)) -> bool {
        let counts = self.mul(&Fraction::new(1000, 1));
        let (lo, hi) = (Fraction::new(lo, 1), Fraction::new(hi, 1));
        lo.cmp(&counts) != Ordering::Greater && counts.cmp(&hi) != Ordering::Greater
    }
}

impl fmt::Debug for Fraction {
    fn fmt(&self, f: &mut fmt::Formatter) -> fmt::Result {
        write!(f, "{:?}/{:?}", self.over, self.under)
    }
}

// ---- Values of lists ----

/// Why there is no fraction for a line.
#[derive(Clone, Copy, Debug, PartialEq, Eq)]
pub enum Lack {
    NoValue,
    TooLarge,
}

type Value = Result<Fraction, Lack>;

/// A point: x and the eight true temperatures, all in counts.
#[derive(Clone, Debug)]
pub struct Point {
    pub x: Fraction,
    pub t: [Fraction; 8],
}

/// The value of the last line at a point, in units.
pub fn value(list: &[Line], point: &Point) -> Value {
    let mut known = vec![None; list.len()];
    line_value(list, point, &mut known, list.len() - 1)
}

/// The value of line `n`; `known` keeps what was found before. Only the lines
/// that are really read are looked at.
fn line_value(list: &[Line], point: &Point, known: &mut [Option<Value>], n: usize) -> Value {
    if let Some(found) = &known[n] {
        return found.clone();
    }
    let found = new_value(list, point, known, n).and_then(|f| {
        let limbs = f.over.limbs.len() + f.under.limbs.len();
        if limbs > MOST_LIMBS {
            Err(Lack::TooLarge)
        } else {
            Ok(f)
        }
    });
    known[n] = Some(found.clone());
    found
}

fn new_value(list: &[Line], point: &Point, known: &mut [Option<Value>], n: usize) -> Value {
    let mut get = |k: usize| line_value(list, point, known, k);
    let units = |counts: &Fraction| counts.mul(&Fraction::new(1, 1000));
    Ok(match list[n] {
        Line::X => units(&point.x),
        Line::C(v) => Fraction::new(v, 1000),
        Line::R(k) => units(&point.t[k]),
        Line::Neg(a) => get(a)?.neg(),
        Line::Abs(a) => {
            let p = get(a)?;
            if p.is_negative() { p.neg() } else { p }
        }
        Line::Add(a, b) => get(a)?.add(&get(b)?),
        Line::Sub(a, b) => get(a)?.add(&get(b)?.neg()),
        Line::Mul(a, b) => get(a)?.mul(&get(b)?),
        Line::Div(a, b) => get(a)?.div(&get(b)?).ok_or(Lack::NoValue)?,
        Line::Max(a, b) => {
            let (p, q) = (get(a)?, get(b)?);
            if p.cmp(&q) == Ordering::Less { q } else { p }
        }
        Line::Chi(s, q, r) => {
            let chosen = if get(s)?.is_negative() { q } else { r };
            get(chosen)?
        }
    })
}

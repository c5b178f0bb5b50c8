//! The rules of the enclosures, written independently of the library.
//! All numbers are whole counts; a count is a thousandth of a unit.

/// No end of an enclosure lies beyond this number of counts, up or down.
pub const BOUND: i64 = 2_000_000_000;
/// No end of a cell lies beyond this number of counts, up or down.
pub const CELL_BOUND: i64 = 1_000_000;
/// A list has at most this many lines.
pub const MOST_LINES: usize = 64;

/// The two ends of an enclosure, or nothing where there are no bounds.
pub type Ends = Option<(i64, i64)>;
pub type Readings = [Ends; 8];

#[derive(Clone, Copy, Debug, PartialEq, Eq)]
pub enum Line {
    X,
    C(i64),
    R(usize),
    Neg(usize),
    Abs(usize),
    Add(usize, usize),
    Sub(usize, usize),
    Mul(usize, usize),
    Div(usize, usize),
    Max(usize, usize),
    Chi(usize, usize, usize),
}

use Line::*;

// ---- Reading the bytes ----

/// Reads a list and its readings, or gives the code of the refusal.
pub fn decode(lines: &[u8], readings: &[u8], out_len: usize) -> Result<(Vec<Line>, Readings), i64> {
    if lines.is_empty() || !lines.len().is_multiple_of(8) || readings.len() != 72 || out_len < 18 {
        return Err(1);
    }
    let mut told = [None; 8];
    for (place, record) in told.iter_mut().zip(readings.chunks_exact(9)) {
        *place = decode_reading(record)?;
    }
    let mut list = Vec::new();
    for bytes in lines.chunks_exact(8) {
        let line = decode_line(bytes)?;
        check_line(line, list.len())?;
        list.push(line);
    }
    Ok((list, told))
}

fn whole(bytes: &[u8]) -> i64 {
    i64::from(i32::from_be_bytes([bytes[0], bytes[1], bytes[2], bytes[3]]))
}

fn decode_reading(record: &[u8]) -> Result<Ends, i64> {
    let (lo, hi) = (whole(&record[1..5]), whole(&record[5..9]));
    match record[0] {
        0 => Ok(None),
        1 if lo > hi || lo < -BOUND || hi > BOUND => Err(2),
        1 => Ok(Some((lo, hi))),
        _ => Err(1),
    }
}

fn decode_line(bytes: &[u8]) -> Result<Line, i64> {
    let (a, b, c) = (bytes[1] as usize, bytes[2] as usize, bytes[3] as usize);
    match bytes[0] {
        0x01 => Ok(X),
        0x02 => Ok(C(whole(&bytes[4..8]))),
        0x03 => Ok(R(a)),
        0x10 => Ok(Neg(a)),
        0x11 => Ok(Abs(a)),
        0x12 => Ok(Add(a, b)),
        0x13 => Ok(Sub(a, b)),
        0x14 => Ok(Mul(a, b)),
        0x15 => Ok(Div(a, b)),
        0x16 => Ok(Max(a, b)),
        0x18 => Ok(Chi(a, b, c)),
        _ => Err(1),
    }
}

/// Checks a line that is to become number `place` of its list.
fn check_line(line: Line, place: usize) -> Result<(), i64> {
    let reads_well = match line {
        X | C(_) => true,
        R(n) => n < 8,
        Neg(a) | Abs(a) => a < place,
        Add(a, b) | Sub(a, b) | Mul(a, b) | Div(a, b) | Max(a, b) => a.max(b) < place,
        Chi(a, b, c) => a.max(b).max(c) < place,
    };
    if !reads_well {
        return Err(24);
    }
    if matches!(line, C(v) if v.abs() > BOUND) {
        return Err(25);
    }
    if place >= MOST_LINES {
        return Err(26);
    }
    Ok(())
}

// ---- Rules on enclosures ----

/// The enclosure with these ends, unless one of them is too far out.
fn within(lo: i64, hi: i64) -> Ends {
    (lo >= -BOUND && hi <= BOUND).then_some((lo, hi))
}

fn floor(over: i64, under: i64) -> i64 {
    let cut = over / under;
    let below = over % under != 0 && (over < 0) != (under < 0);
    if below { cut - 1 } else { cut }
}

fn ceiling(over: i64, under: i64) -> i64 {
    -floor(-over, under)
}

fn neg(p: Ends) -> Ends {
    let (a, b) = p?;
    within(-b, -a)
}

fn abs(p: Ends) -> Ends {
    let (a, b) = p?;
    let (near, far) = (a.abs().min(b.abs()), a.abs().max(b.abs()));
    if a <= 0 && 0 <= b {
        within(0, far)
    } else {
        within(near, far)
    }
}

fn add(p: Ends, q: Ends) -> Ends {
    let ((a, b), (d, e)) = (p?, q?);
    within(a + d, b + e)
}

fn sub(p: Ends, q: Ends) -> Ends {
    let ((a, b), (d, e)) = (p?, q?);
    within(a - e, b - d)
}

fn mul(p: Ends, q: Ends) -> Ends {
    let ((a, b), (d, e)) = (p?, q?);
    let mut products = [a * d, a * e, b * d, b * e];
    products.sort();
    within(floor(products[0], 1000), ceiling(products[3], 1000))
}

fn div(p: Ends, q: Ends) -> Ends {
    let ((a, b), (d, e)) = (p?, q?);
    if d <= 0 && 0 <= e {
        return None;
    }
    let pairs = [(a, d), (a, e), (b, d), (b, e)];
    let lo = pairs.iter().map(|&(n, m)| floor(1000 * n, m)).min()?;
    let hi = pairs.iter().map(|&(n, m)| ceiling(1000 * n, m)).max()?;
    within(lo, hi)
}

fn max(p: Ends, q: Ends) -> Ends {
    let ((a, b), (d, e)) = (p?, q?);
    within(a.max(d), b.max(e))
}

fn hull(p: Ends, q: Ends) -> Ends {
    let ((a, b), (d, e)) = (p?, q?);
    within(a.min(d), b.max(e))
}

fn chi(s: Ends, q: Ends, r: Ends) -> Ends {
    match s? {
        (_, top) if top < 0 => q,
        (bottom, _) if bottom > 0 => r,
        _ => hull(q, r),
    }
}

/// The enclosures of all lines by the plain rules, where X has the ends `x`.
fn column(list: &[Line], told: &Readings, x: (i64, i64)) -> Vec<Ends> {
    let mut col: Vec<Ends> = Vec::with_capacity(list.len());
    for &line in list {
        let ends = match line {
            X => Some(x),
            C(v) => Some((v, v)),
            R(n) => told[n],
            Neg(a) => neg(col[a]),
            Abs(a) => abs(col[a]),
            Add(a, b) => add(col[a], col[b]),
            Sub(a, b) => sub(col[a], col[b]),
            Mul(a, b) => mul(col[a], col[b]),
            Div(a, b) => div(col[a], col[b]),
            Max(a, b) => max(col[a], col[b]),
            Chi(s, q, r) => chi(col[s], col[q], col[r]),
        };
        col.push(ends);
    }
    col
}

// ---- Rules on slopes ----

fn slope_of_abs(v: Ends, s: Ends) -> Ends {
    match v? {
        (bottom, _) if bottom >= 0 => s,
        (_, top) if top <= 0 => neg(s),
        _ => hull(s, neg(s)),
    }
}

fn slope_of_max(v: (Ends, Ends), s: (Ends, Ends)) -> Ends {
    let ((a, b), (d, e)) = (v.0?, v.1?);
    if a > e {
        s.0
    } else if d > b {
        s.1
    } else {
        hull(s.0, s.1)
    }
}

fn slope_of_chi(v: Ends, below: Ends, above: Ends) -> Ends {
    match v? {
        (_, top) if top < 0 => below,
        (bottom, _) if bottom > 0 => above,
        _ => None,
    }
}

/// The slopes of all lines, from their enclosures over the cell (`v`) and at
/// its centre (`u`).
fn slope_column(list: &[Line], v: &[Ends], u: &[Ends]) -> Vec<Ends> {
    let mut s: Vec<Ends> = Vec::with_capacity(list.len());
    for (n, &line) in list.iter().enumerate() {
        let slope = match line {
            X => Some((1000, 1000)),
            C(_) | R(_) => Some((0, 0)),
            Neg(a) => neg(s[a]),
            Abs(a) => slope_of_abs(v[a], s[a]),
            Add(a, b) => add(s[a], s[b]),
            Sub(a, b) => sub(s[a], s[b]),
            Mul(a, b) => add(mul(v[a], s[b]), mul(s[a], u[b])),
            Div(a, b) => div(sub(s[a], mul(u[n], s[b])), v[b]),
            Max(a, b) => slope_of_max((v[a], v[b]), (s[a], s[b])),
            Chi(t, q, r) => slope_of_chi(v[t], s[q], s[r]),
        };
        s.push(slope);
    }
    s
}

// ---- The two methods ----

fn is_cell(lo: i64, hi: i64) -> bool {
    lo <= hi && lo >= -CELL_BOUND && hi <= CELL_BOUND
}

/// The plain enclosure of the last line over the cell.
pub fn plain(list: &[Line], told: &Readings, lo: i64, hi: i64) -> Ends {
    if !is_cell(lo, hi) {
        return None;
    }
    *column(list, told, (lo, hi)).last()?
}

/// The slope enclosure of the last line over the cell.
pub fn slopes(list: &[Line], told: &Readings, lo: i64, hi: i64) -> Ends {
    if !is_cell(lo, hi) {
        return None;
    }
    let centre = floor(lo + hi, 2);
    let v = column(list, told, (lo, hi));
    let u = column(list, told, (centre, centre));
    let s = slope_column(list, &v, &u);
    let (bottom, top) = (*v.last()?)?;
    let reach = Some((lo - centre, hi - centre));
    match add(*u.last()?, mul(*s.last()?, reach)) {
        None => Some((bottom, top)),
        Some((low, high)) => Some((bottom.max(low), top.min(high))),
    }
}

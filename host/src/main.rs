//! Compares the library with rules of its own and with exact values, on fixed
//! and on random lists and cells. The seed can be given as first argument.

mod call;
mod exact;
mod rules;

use exact::{Fraction, Lack, Point};
use rules::{BOUND, CELL_BOUND, Ends, Line, MOST_LINES, Readings};
use std::process::ExitCode;

const CASES: usize = 100_000;
const POINTS: usize = 6;
/// Longer lists are compared with the rules only.
const MOST_EXACT_LINES: usize = 16;
const SEED: u64 = 20_240_229;
/// The bytes of an answer, and of the larger buffer that it is written to.
const ANSWER: usize = 18;
const BUFFER: usize = 32;

// ---- Random numbers ----

/// A small generator of random numbers (splitmix).
struct Random(u64);

impl Random {
    fn next(&mut self) -> u64 {
        self.0 = self.0.wrapping_add(0x9e37_79b9_7f4a_7c15);
        let mut z = self.0;
        z = (z ^ (z >> 30)).wrapping_mul(0xbf58_476d_1ce4_e5b9);
        z = (z ^ (z >> 27)).wrapping_mul(0x94d0_49bb_1331_11eb);
        z ^ (z >> 31)
    }

    /// A whole number from `lo` to `hi`, both included.
    fn between(&mut self, lo: i64, hi: i64) -> i64 {
        let count = (hi - lo) as u64 + 1;
        lo + (self.next() % count) as i64
    }

    fn below(&mut self, count: usize) -> usize {
        (self.next() % count as u64) as usize
    }

    /// True in this many cases of a hundred.
    fn percent(&mut self, share: u64) -> bool {
        self.next() % 100 < share
    }

    fn pick<T: Copy>(&mut self, from: &[T]) -> T {
        from[self.below(from.len())]
    }
}

// ---- Random lists, readings and cells ----

/// What is handed to the library in one call.
struct Case {
    lines: Vec<u8>,
    readings: Vec<u8>,
    lo: i32,
    hi: i32,
    out_len: usize,
}

/// The cell and the readings that a list is drawn for.
struct Setting {
    lo: i64,
    hi: i64,
    readings: Readings,
}

fn draw_case(random: &mut Random) -> Case {
    let (lo, hi) = draw_cell(random);
    let readings = draw_readings(random);
    let setting = Setting { lo, hi, readings };
    let length = match random.below(100) {
        0..=86 => 1 + random.below(MOST_EXACT_LINES),
        87..=97 => 1 + random.below(MOST_LINES),
        _ => MOST_LINES,
    };
    let mut lines = Vec::with_capacity(8 * length);
    for place in 0..length {
        // The last line is mostly one that reads others.
        let ends_with_work = place > 0 && place + 1 == length && random.percent(95);
        let line = draw_line(random, place, &setting, ends_with_work);
        lines.extend(encode_line(line, random));
    }
    let readings = readings
        .iter()
        .flat_map(|&told| encode_reading(told, random))
        .collect();
    let out_len = random.between(ANSWER as i64, BUFFER as i64) as usize;
    let mut case = Case {
        lines,
        readings,
        lo: lo as i32,
        hi: hi as i32,
        out_len,
    };
    if random.percent(5) {
        damage(&mut case, random);
        if random.percent(30) {
            damage(&mut case, random);
        }
    }
    case
}

fn draw_constant(random: &mut Random) -> i64 {
    match random.below(100) {
        0..=54 => random.between(-5000, 5000),
        55..=74 => 1000 * random.between(-5, 5),
        75..=86 => random.between(-1, 1),
        87..=90 => random.pick(&[BOUND, BOUND - 1, 1 - BOUND, -BOUND]),
        91..=93 => random.between(-BOUND, BOUND),
        _ => random.between(-CELL_BOUND, CELL_BOUND),
    }
}

/// A constant of a list: sometimes one that meets an end of the cell or of a
/// reading, so that enclosures touch each other or zero.
fn draw_listed_constant(random: &mut Random, setting: &Setting) -> i64 {
    let mut meeting = vec![
        setting.lo,
        setting.hi,
        (setting.lo + setting.hi).div_euclid(2),
    ];
    for (lo, hi) in setting.readings.into_iter().flatten() {
        meeting.extend([lo, hi]);
    }
    if random.percent(70) {
        return draw_constant(random);
    }
    let end = if random.percent(60) {
        meeting[random.below(3)]
    } else {
        random.pick(&meeting)
    };
    let signed = if random.percent(25) { -end } else { end };
    signed.clamp(-BOUND, BOUND)
}

fn draw_readings(random: &mut Random) -> Readings {
    let mut readings = [None; 8];
    for told in &mut readings {
        let lo = draw_constant(random);
        let width = match random.below(100) {
            0..=34 => continue,
            35..=49 => 0,
            50..=79 => random.between(1, 50),
            80..=94 => random.between(1, 5000),
            _ => random.between(1, 2 * BOUND),
        };
        *told = Some((lo, (lo + width).min(BOUND)));
    }
    readings
}

fn draw_cell(random: &mut Random) -> (i64, i64) {
    let edge = CELL_BOUND;
    if random.percent(4) {
        // Cells that do not exist, and the widest one.
        let far = i64::from(i32::MAX);
        let ends = [
            (1, 0),
            (5, -5),
            (0, edge + 1),
            (-edge - 1, 0),
            (-far - 1, far),
            (far, far),
            (-edge, edge),
        ];
        return random.pick(&ends);
    }
    let lo = if random.percent(90) {
        random.between(-5000, 5000)
    } else {
        random.between(-edge, edge)
    };
    let width = match random.below(100) {
        0..=14 => 0,
        15..=39 => random.between(1, 10),
        40..=69 => random.between(1, 300),
        70..=91 => random.between(1, 5000),
        _ => random.between(1, 2 * edge),
    };
    match random.below(100) {
        // Cells that begin or end at zero.
        0..=7 => (0, width.min(edge)),
        8..=15 => (-width.min(edge), 0),
        _ => (lo, (lo + width).min(edge)),
    }
}

/// The number of an earlier line, mostly a recent one.
fn draw_operand(random: &mut Random, place: usize) -> usize {
    let recent = if random.percent(65) {
        place.min(3)
    } else {
        place
    };
    place - 1 - random.below(recent)
}

/// The number of a reading, mostly one that is present.
fn draw_reading_number(random: &mut Random, readings: &Readings) -> usize {
    let first = random.below(8);
    if readings[first].is_none() && random.percent(85) {
        return (0..8).find(|&n| readings[n].is_some()).unwrap_or(first);
    }
    first
}

/// Line number `place` of a list; with `work` it is one that reads others.
fn draw_line(random: &mut Random, place: usize, setting: &Setting, work: bool) -> Line {
    let kind = match (place, work) {
        (0, _) => random.below(30),
        (_, true) => 30 + random.below(70),
        (_, false) => random.below(100),
    };
    if kind < 30 {
        return match kind {
            0..=12 => Line::X,
            13..=21 => Line::C(draw_listed_constant(random, setting)),
            _ => Line::R(draw_reading_number(random, &setting.readings)),
        };
    }
    let a = draw_operand(random, place);
    let b = draw_operand(random, place);
    let c = draw_operand(random, place);
    match kind {
        30..=35 => Line::Neg(a),
        36..=43 => Line::Abs(a),
        44..=53 => Line::Add(a, b),
        54..=64 => Line::Sub(a, b),
        65..=74 => Line::Mul(a, b),
        75..=82 => Line::Div(a, b),
        83..=90 => Line::Max(a, b),
        _ => Line::Chi(a, b, c),
    }
}

// ---- Writing the bytes ----

/// The bytes of a line; those that its kind does not use are random.
fn encode_line(line: Line, random: &mut Random) -> [u8; 8] {
    let mut bytes = random.next().to_be_bytes();
    let (op, read) = match line {
        Line::X => (0x01, vec![]),
        Line::C(_) => (0x02, vec![]),
        Line::R(a) => (0x03, vec![a]),
        Line::Neg(a) => (0x10, vec![a]),
        Line::Abs(a) => (0x11, vec![a]),
        Line::Add(a, b) => (0x12, vec![a, b]),
        Line::Sub(a, b) => (0x13, vec![a, b]),
        Line::Mul(a, b) => (0x14, vec![a, b]),
        Line::Div(a, b) => (0x15, vec![a, b]),
        Line::Max(a, b) => (0x16, vec![a, b]),
        Line::Chi(s, q, r) => (0x18, vec![s, q, r]),
    };
    bytes[0] = op;
    for (byte, number) in bytes[1..4].iter_mut().zip(read) {
        *byte = number as u8;
    }
    if let Line::C(v) = line {
        bytes[4..8].copy_from_slice(&(v as i32).to_be_bytes());
    }
    bytes
}

/// The bytes of a reading; those of an absent one are random.
fn encode_reading(told: Ends, random: &mut Random) -> [u8; 9] {
    let mut bytes = [0; 9];
    bytes[1..9].copy_from_slice(&random.next().to_be_bytes());
    if let Some((lo, hi)) = told {
        bytes[0] = 1;
        bytes[1..5].copy_from_slice(&(lo as i32).to_be_bytes());
        bytes[5..9].copy_from_slice(&(hi as i32).to_be_bytes());
    }
    bytes
}

/// Changes a case in one place so that it is mostly refused.
fn damage(case: &mut Case, random: &mut Random) {
    match random.below(12) {
        0 => case.lines.truncate(random.below(case.lines.len() + 1)),
        1 => case.lines.clear(),
        2 => case.readings.truncate(random.below(72)),
        3 => case.readings.extend([0; 9]),
        4 => case.out_len = random.below(ANSWER),
        5..=7 => damage_reading(case, random),
        8 => lengthen(case, random),
        _ => {
            let place = random.below(case.lines.len() / 8 + 1);
            damage_line(case, place, random);
        }
    }
}

/// Makes the list too long; the first line too many may have another fault.
fn lengthen(case: &mut Case, random: &mut Random) {
    let length = MOST_LINES + 1 + random.below(3);
    while case.lines.len() / 8 < length {
        case.lines.extend(encode_line(Line::X, random));
    }
    if random.percent(50) {
        damage_line(case, MOST_LINES, random);
    }
}

fn damage_reading(case: &mut Case, random: &mut Random) {
    let start = 9 * random.below(8);
    let Some(record) = case.readings.get_mut(start..start + 9) else {
        return;
    };
    let limit = BOUND as i32;
    let any = random.next() as u8;
    let (present, lo, hi) = random.pick(&[
        (2, 0, 0),
        (any, 0, 0),
        (1, 1, 0),
        (1, 0, limit + 1),
        (1, -limit - 1, 0),
        (1, i32::MIN, i32::MAX),
        (1, -limit, limit),
        (0, 1, 0),
    ]);
    record[0] = present;
    record[1..5].copy_from_slice(&i32::to_be_bytes(lo));
    record[5..9].copy_from_slice(&i32::to_be_bytes(hi));
}

fn damage_line(case: &mut Case, place: usize, random: &mut Random) {
    let Some(line) = case.lines.get_mut(8 * place..8 * place + 8) else {
        return;
    };
    match random.below(5) {
        0 => line[0] = random.pick(&[0x00, 0x04, 0x0f, 0x17, 0x19, 0xff]),
        1 => line[0] = random.next() as u8,
        2 => line[..2].copy_from_slice(&[0x03, random.pick(&[7, 8, 9, 255])]),
        3 => {
            let far = BOUND as i32 + 1;
            let v = random.pick(&[far, -far, i32::MAX, i32::MIN]);
            line[0] = 0x02;
            line[4..8].copy_from_slice(&v.to_be_bytes());
        }
        _ => read_later(line, place, random),
    }
}

/// Lets a line read itself or a later line in one of its operands.
fn read_later(line: &mut [u8], place: usize, random: &mut Random) {
    for byte in &mut line[1..4] {
        *byte = random.below(place.max(1)) as u8;
    }
    let operand = random.below(3);
    line[0] = match operand {
        0 => random.pick(&[0x10, 0x11, 0x12, 0x13, 0x14, 0x15, 0x16, 0x18]),
        1 => random.pick(&[0x12, 0x13, 0x14, 0x15, 0x16, 0x18]),
        _ => 0x18,
    };
    let ahead = if random.percent(50) {
        0
    } else {
        random.below(190)
    };
    line[1 + operand] = (place + ahead).min(255) as u8;
}

// ---- Random points ----

/// A fraction between two whole numbers: an end, the middle, or any.
fn draw_between(random: &mut Random, lo: i64, hi: i64) -> Fraction {
    match random.below(6) {
        0 => Fraction::new(lo, 1),
        1 => Fraction::new(hi, 1),
        2 => Fraction::new(lo + hi, 2),
        3 => Fraction::new(random.between(lo, hi), 1),
        _ => {
            let under = random.between(2, 1000);
            Fraction::new(random.between(lo * under, hi * under), under)
        }
    }
}

/// Point number `k` of a cell, with temperatures that the readings allow.
/// The first three are the ends and the middle of the cell.
fn draw_point(random: &mut Random, k: usize, told: &Readings, lo: i64, hi: i64) -> Point {
    let x = match k {
        0 => Fraction::new(lo, 1),
        1 => Fraction::new(hi, 1),
        2 => Fraction::new(lo + hi, 2),
        _ => draw_between(random, lo, hi),
    };
    let t = told.map(|reading| {
        let (lo, hi) = reading.unwrap_or((-2 * BOUND, 2 * BOUND));
        draw_between(random, lo, hi)
    });
    Point { x, t }
}

// ---- Comparison ----

/// What was seen over all cases.
#[derive(Default)]
struct Seen {
    refused: usize,
    plain: usize,
    slopes: usize,
    narrower: usize,
    points: usize,
    too_large: usize,
}

fn encode_ends(ends: Ends) -> [u8; 9] {
    let mut bytes = [0; 9];
    if let Some((lo, hi)) = ends {
        bytes[0] = 1;
        bytes[1..5].copy_from_slice(&(lo as i32).to_be_bytes());
        bytes[5..9].copy_from_slice(&(hi as i32).to_be_bytes());
    }
    bytes
}

/// Calls the library and compares code and buffer with what is expected.
fn compare_call(
    case: &Case,
    fill: u8,
    code: i64,
    answer: Option<(Ends, Ends)>,
) -> Result<(), String> {
    let mut expected = [fill; BUFFER];
    if let Some((plain, slopes)) = answer {
        expected[..9].copy_from_slice(&encode_ends(plain));
        expected[9..ANSWER].copy_from_slice(&encode_ends(slopes));
    }
    let mut out = [fill; BUFFER];
    let got = call::enclosures(
        &case.lines,
        &case.readings,
        case.lo,
        case.hi,
        &mut out[..case.out_len],
    );
    if got == code && out == expected {
        return Ok(());
    }
    Err(format!(
        "the library differs from the rules\n  rules:   code {code}, answer {answer:?}\n           \
         bytes {expected:02x?}\n  library: code {got}\n           bytes {out:02x?}"
    ))
}

/// Compares one case with the rules, and then with exact values.
fn compare(case: &Case, random: &mut Random, seen: &mut Seen) -> Result<(), String> {
    let fill = random.next() as u8;
    let (list, told) = match rules::decode(&case.lines, &case.readings, case.out_len) {
        Ok(decoded) => decoded,
        Err(code) => {
            seen.refused += 1;
            return compare_call(case, fill, code, None);
        }
    };
    let (lo, hi) = (i64::from(case.lo), i64::from(case.hi));
    let plain = rules::plain(&list, &told, lo, hi);
    let slopes = rules::slopes(&list, &told, lo, hi);
    compare_call(case, fill, 0, Some((plain, slopes)))?;
    seen.plain += usize::from(plain.is_some());
    seen.slopes += usize::from(slopes.is_some());
    seen.narrower += usize::from(plain != slopes);
    if list.len() > MOST_EXACT_LINES || (plain.is_none() && slopes.is_none()) {
        return Ok(());
    }
    for k in 0..POINTS {
        let point = draw_point(random, k, &told, lo, hi);
        check_point(&list, &point, [plain, slopes], seen)?;
    }
    Ok(())
}

/// Checks that the value at a point exists and lies within the enclosures.
fn check_point(
    list: &[Line],
    point: &Point,
    answers: [Ends; 2],
    seen: &mut Seen,
) -> Result<(), String> {
    match exact::value(list, point) {
        Err(Lack::TooLarge) => {
            seen.too_large += 1;
            return Ok(());
        }
        Err(Lack::NoValue) => return Err(format!("bounds {answers:?}, but no value at {point:?}")),
        Ok(value) => {
            if let Some(ends) = answers
                .into_iter()
                .flatten()
                .find(|&ends| !value.lies_between(ends))
            {
                return Err(format!(
                    "the value {value:?} lies outside {ends:?} at {point:?}"
                ));
            }
        }
    }
    seen.points += 1;
    Ok(())
}

// ---- Fixed cases ----

type Fixed = (&'static [Line], Ends, (i32, i32), Ends, Option<Ends>);

/// Lists with the reading of number 0, the cell, and the known enclosures
/// (the one by slopes only where it is given).
const FIXED: [Fixed; 3] = {
    use Line::*;
    [
        (
            &[X, Mul(0, 0), C(4000), Sub(1, 2)],
            None,
            (1000, 2000),
            Some((-3000, 0)),
            None,
        ),
        (
            &[X, C(2000), Sub(0, 1), Add(0, 1), Mul(2, 3)],
            None,
            (1000, 2000),
            Some((-4000, 0)),
            Some(Some((-3500, 0))),
        ),
        (
            &[X, R(0), Sub(0, 1)],
            Some((30, 33)),
            (0, 100),
            Some((-33, 70)),
            None,
        ),
    ]
};

fn compare_fixed(fixed: &Fixed, random: &mut Random) -> Result<(), (Case, String)> {
    let &(list, reading, (lo, hi), plain, slopes) = fixed;
    let mut told = [None; 8];
    told[0] = reading;
    let case = Case {
        lines: list
            .iter()
            .flat_map(|&line| encode_line(line, random))
            .collect(),
        readings: told
            .iter()
            .flat_map(|&ends| encode_reading(ends, random))
            .collect(),
        lo,
        hi,
        out_len: ANSWER,
    };
    let own = rules::slopes(list, &told, lo.into(), hi.into());
    let expected = (plain, slopes.unwrap_or(own));
    let result = compare_call(&case, 0xa5, 0, Some(expected))
        .and_then(|()| compare(&case, random, &mut Seen::default()));
    result.map_err(|text| (case, text))
}

// ---- Report ----

fn report_difference(case: &Case, text: &str) -> ExitCode {
    println!("host: {text}");
    println!(
        "cell: [{}, {}], length of out: {}",
        case.lo, case.hi, case.out_len
    );
    match rules::decode(&case.lines, &case.readings, case.out_len) {
        Ok((list, told)) => {
            println!("readings: {told:?}");
            for (n, line) in list.iter().enumerate() {
                println!("{n:3}: {line:?}");
            }
        }
        Err(code) => {
            println!("refused by the rules with code {code}");
            println!("readings: {:02x?}", case.readings);
            for (n, line) in case.lines.chunks(8).enumerate() {
                println!("{n:3}: {line:02x?}");
            }
        }
    }
    ExitCode::FAILURE
}

fn report_success(seen: &Seen) -> ExitCode {
    println!(
        "host: {CASES} lists and cells: equal to the rules, and sound at {} points",
        seen.points
    );
    println!(
        "host: {} refused, {} with plain bounds, {} with slope bounds ({} of them narrower), \
         {} points left out as too large",
        seen.refused, seen.plain, seen.slopes, seen.narrower, seen.too_large
    );
    ExitCode::SUCCESS
}

fn main() -> ExitCode {
    let seed = match std::env::args().nth(1).map(|text| text.parse()) {
        None => SEED,
        Some(Ok(seed)) => seed,
        Some(Err(_)) => {
            eprintln!("host: the seed must be a whole number that is not negative");
            return ExitCode::from(2);
        }
    };
    let mut random = Random(seed);
    for fixed in &FIXED {
        if let Err((case, text)) = compare_fixed(fixed, &mut random) {
            return report_difference(&case, &text);
        }
    }
    let mut seen = Seen::default();
    for _ in 0..CASES {
        let case = draw_case(&mut random);
        if let Err(text) = compare(&case, &mut random, &mut seen) {
            return report_difference(&case, &text);
        }
    }
    // A run that checks hardly any point would say nothing.
    if seen.points < CASES {
        println!("host: only {} points could be checked", seen.points);
        return ExitCode::FAILURE;
    }
    report_success(&seen)
}

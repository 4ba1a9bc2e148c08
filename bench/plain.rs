//! The yardstick: the same console by the same method in plain Rust, with nothing proved. With the argument `count` the indices are
//! worked out by a plain count over single faults instead.
use std::fs;
use std::io::{self, Read, Write};

#[derive(Clone, Copy)]
struct Section {
    parent: Option<u16>,
    rate: u32,
    repair: u16,
    customers: u16,
    load: u16,
    #[allow(dead_code)]
    name: (usize, u8),
    switch: bool,
}

struct Feeder {
    sections: Vec<Section>,
    s: u16,
}

type Outage = Option<(u16, u16)>;

fn number(a: &[u8], p: usize, width: usize) -> Result<u64, (u8, usize)> {
    let part = a.get(p..p + width).ok_or((1, p))?;
    Ok(part.iter().fold(0, |n, b| n << 8 | u64::from(*b)))
}

fn load(a: &[u8]) -> Result<Feeder, (u8, usize)> {
    let n = number(a, 0, 2)? as usize;
    if n < 1 || n > 1024 {
        return Err((2, 0));
    }
    let s = number(a, 2, 2)? as u16;
    if s < 1 || s > 1440 {
        return Err((2, 2));
    }
    let mut at = 4;
    let mut sections = Vec::with_capacity(n);
    for k in 0..n {
        let (section, next) = record(a, at, k)?;
        sections.push(section);
        at = next;
    }
    if at < a.len() {
        return Err((7, at));
    }
    Ok(Feeder { sections, s })
}

fn record(a: &[u8], at: usize, k: usize) -> Result<(Section, usize), (u8, usize)> {
    let map = number(a, at, 1)? as u8;
    let wrong = if k == 0 { 0xa1 } else { 0x80 };
    if map & wrong != 0 {
        return Err((3, at));
    }
    let mut p = at + 1;
    let mut x = Section { parent: if k == 0 { None } else { Some(k as u16 - 1) }, rate: 0, repair: 120, customers: 0, load: 0, name: (0, 0), switch: map & 32 != 0 };
    if map & 1 != 0 {
        let v = number(a, p, 2)?;
        if v >= k as u64 {
            return Err((4, p));
        }
        x.parent = Some(v as u16);
        p += 2;
    }
    if map & 2 != 0 {
        let v = number(a, p, 4)?;
        if v > 100_000 {
            return Err((5, p));
        }
        x.rate = v as u32;
        p += 4;
    }
    if map & 4 != 0 {
        let quarters = f64::from_bits(number(a, p, 8)?) * 4.0;
        if !(1.0..=672.0).contains(&quarters) || quarters.trunc() != quarters {
            return Err((5, p));
        }
        x.repair = quarters as u16 * 15;
        p += 8;
    }
    if map & 8 != 0 {
        let v = number(a, p, 2)?;
        if v > 4000 {
            return Err((5, p));
        }
        x.customers = v as u16;
        p += 2;
    }
    if map & 16 != 0 {
        let v = number(a, p, 2)?;
        if v > 4000 {
            return Err((5, p));
        }
        x.load = v as u16;
        p += 2;
    }
    if map & 64 != 0 {
        let len = number(a, p, 1)? as usize;
        if len < 1 || len > 32 {
            return Err((6, p));
        }
        let text = a.get(p + 1..p + 1 + len).ok_or((1, p))?;
        if let Some(i) = text.iter().position(|b| *b < 32 || *b > 126) {
            return Err((6, p + 1 + i));
        }
        x.name = (p + 1, len as u8);
        p += 1 + len;
    }
    Ok((x, p))
}

trait Measure {
    type Value: Copy;
    fn nothing() -> Self::Value;
    fn join(a: Self::Value, b: Self::Value) -> Self::Value;
    fn effect(k: u16, x: &Section, time: u16) -> Self::Value;
    fn extra(k: u16, x: &Section, s: u16) -> Self::Value;
}

struct Minutes;
struct Count;
struct Longest;

impl Measure for Minutes {
    type Value = u64;
    fn nothing() -> u64 {
        0
    }
    fn join(a: u64, b: u64) -> u64 {
        a.saturating_add(b)
    }
    fn effect(_: u16, x: &Section, time: u16) -> u64 {
        u64::from(x.rate) * u64::from(time)
    }
    fn extra(_: u16, x: &Section, s: u16) -> u64 {
        u64::from(x.rate) * u64::from(x.repair - x.repair.min(s))
    }
}

impl Measure for Count {
    type Value = u64;
    fn nothing() -> u64 {
        0
    }
    fn join(a: u64, b: u64) -> u64 {
        a.saturating_add(b)
    }
    fn effect(_: u16, x: &Section, _: u16) -> u64 {
        u64::from(x.rate)
    }
    fn extra(_: u16, _: &Section, _: u16) -> u64 {
        0
    }
}

impl Measure for Longest {
    type Value = Outage;
    fn nothing() -> Outage {
        None
    }
    fn join(a: Outage, b: Outage) -> Outage {
        match (a, b) {
            (None, b) => b,
            (a, None) => a,
            (Some(x), Some(y)) => Some(if y.0 < x.0 || (x.0 == y.0 && x.1 <= y.1) { x } else { y }),
        }
    }
    fn effect(k: u16, x: &Section, time: u16) -> Outage {
        if x.rate == 0 { None } else { Some((time, k)) }
    }
    fn extra(k: u16, x: &Section, s: u16) -> Outage {
        if s < x.repair { Self::effect(k, x, x.repair) } else { None }
    }
}

impl Feeder {
    fn held<M: Measure>(&self, out: &mut [M::Value]) {
        for (k, x) in self.sections.iter().enumerate() {
            out[k] = M::extra(k as u16, x, self.s);
        }
        for j in (1..self.sections.len()).rev() {
            if !self.sections[j].switch {
                let p = self.sections[j].parent.unwrap() as usize;
                out[p] = M::join(out[p], out[j]);
            }
        }
    }

    fn totals<M: Measure>(&self, out: &mut [M::Value]) {
        self.held::<M>(out);
        let far = self.sections.iter().enumerate().fold(M::nothing(), |sum, (k, x)| M::join(sum, M::effect(k as u16, x, x.repair.min(self.s))));
        out[0] = M::join(far, out[0]);
        for j in 1..self.sections.len() {
            let above = out[self.sections[j].parent.unwrap() as usize];
            out[j] = if self.sections[j].switch { M::join(above, out[j]) } else { above };
        }
    }

    fn total<M: Measure>(&self, node: u32) -> Result<M::Value, u8> {
        let at = node as usize;
        if at >= self.sections.len() {
            return Err(20);
        }
        let mut out = [M::nothing(); 1024];
        self.totals::<M>(&mut out);
        Ok(out[at])
    }

    fn weighted<M: Measure<Value = u64>>(&self, weight: impl Fn(&Section) -> u16) -> u64 {
        let mut out = [0; 1024];
        self.totals::<M>(&mut out);
        self.sections.iter().zip(out).map(|(x, t)| u64::from(weight(x)) * t).sum()
    }

    // A plain count: every fault at every node.
    fn counted<M: Measure<Value = u64>>(&self, weight: impl Fn(&Section) -> u16) -> u64 {
        let mut sum = 0;
        for m in 0..self.sections.len() {
            let mut total = 0;
            for (k, x) in self.sections.iter().enumerate() {
                let near = self.below(m, self.head(k));
                total += M::effect(k as u16, x, if near { x.repair } else { x.repair.min(self.s) });
            }
            sum += u64::from(weight(&self.sections[m])) * total;
        }
        sum
    }

    fn head(&self, k: usize) -> usize {
        let mut h = k;
        while !self.sections[h].switch {
            match self.sections[h].parent {
                Some(p) => h = p as usize,
                None => break,
            }
        }
        h
    }

    fn below(&self, m: usize, j: usize) -> bool {
        let mut at = m;
        while at != j {
            match self.sections[at].parent {
                Some(p) => at = p as usize,
                None => return false,
            }
        }
        true
    }

    fn load_below(&self, j: usize) -> u64 {
        let mut known = [false; 1024];
        let mut sum = 0;
        for (k, x) in self.sections.iter().enumerate() {
            known[k] = k == j || x.parent.is_some_and(|p| known[p as usize]);
            if known[k] {
                sum += u64::from(x.load);
            }
        }
        sum
    }

    fn bare(&self, k: u32) -> Result<usize, u8> {
        let at = k as usize;
        if at >= self.sections.len() {
            return Err(20);
        }
        if at == 0 {
            return Err(23);
        }
        if self.sections[at].switch { Err(21) } else { Ok(at) }
    }

    fn answer(&mut self, text: &[u8], count: bool, out: &mut Vec<u8>) -> Result<(), u8> {
        let (letter, n) = parse(text).ok_or(8)?;
        match letter {
            b'F' => {
                let at = self.bare(n[0])?;
                self.sections[at].switch = true;
                out.extend_from_slice(b"ok");
            }
            b'U' => {
                let at = n[0] as usize;
                if at >= self.sections.len() {
                    return Err(20);
                }
                if at == 0 {
                    return Err(23);
                }
                if !self.sections[at].switch {
                    return Err(22);
                }
                self.sections[at].switch = false;
                out.extend_from_slice(b"ok");
            }
            b'S' => {
                if n[1] > 100_000 || n[2] < 1 || n[2] > 672 || n[3] > 4000 || n[4] > 4000 {
                    return Err(5);
                }
                let x = self.sections.get_mut(n[0] as usize).ok_or(20)?;
                *x = Section { rate: n[1], repair: 15 * n[2] as u16, customers: n[3] as u16, load: n[4] as u16, ..*x };
                out.extend_from_slice(b"ok");
            }
            b'D' => decimal(out, self.total::<Minutes>(n[0])?),
            b'C' => decimal(out, self.total::<Count>(n[0])?),
            b'L' => match self.total::<Longest>(n[0])? {
                None => out.extend_from_slice(b"none"),
                Some((minutes, section)) => fields(out, &[u64::from(minutes), u64::from(section)]),
            },
            b'G' => {
                let at = self.bare(n[0])?;
                let mut held = [0; 1024];
                self.held::<Minutes>(&mut held);
                let load = self.load_below(self.head(at)) - self.load_below(at);
                fields(out, &[held[at], load, held[at] * load]);
            }
            _ => {
                let customers: u64 = self.sections.iter().map(|x| u64::from(x.customers)).sum();
                if customers == 0 {
                    return Err(25);
                }
                let sums = if count {
                    [self.counted::<Count>(|x| x.customers), self.counted::<Minutes>(|x| x.customers), self.counted::<Minutes>(|x| x.load)]
                } else {
                    [self.weighted::<Count>(|x| x.customers), self.weighted::<Minutes>(|x| x.customers), self.weighted::<Minutes>(|x| x.load)]
                };
                fields(out, &[sums[0] / customers, sums[1] / customers, sums[2] / 60_000]);
            }
        }
        Ok(())
    }
}

fn decimal(out: &mut Vec<u8>, n: u64) {
    if n >= 10 {
        decimal(out, n / 10);
    }
    out.push(b'0' + (n % 10) as u8);
}

fn fields(out: &mut Vec<u8>, numbers: &[u64]) {
    for (i, n) in numbers.iter().enumerate() {
        if i > 0 {
            out.push(b' ');
        }
        decimal(out, *n);
    }
}

fn parse(text: &[u8]) -> Option<(u8, [u32; 5])> {
    let (letter, mut rest) = text.split_first()?;
    let wanted = match letter {
        b'F' | b'U' | b'D' | b'C' | b'L' | b'G' => 1,
        b'S' => 5,
        b'X' => 0,
        _ => return None,
    };
    let mut all = [0; 5];
    for place in all.iter_mut().take(wanted) {
        let digits = rest.strip_prefix(b" ")?;
        let len = digits.iter().take_while(|b| b.is_ascii_digit()).count();
        if len == 0 || (len > 1 && digits[0] == b'0') {
            return None;
        }
        let mut n = 0u64;
        for b in &digits[..len] {
            n = n * 10 + u64::from(b - b'0');
            if n > u64::from(u32::MAX) {
                return None;
            }
        }
        *place = n as u32;
        rest = &digits[len..];
    }
    rest.is_empty().then_some((*letter, all))
}

fn main() -> io::Result<()> {
    let count = std::env::args().nth(1).as_deref() == Some("count");
    let archive = fs::read("feeder.arc").unwrap_or_default();
    let mut stdout = io::stdout().lock();
    let mut feeder = match load(&archive) {
        Ok(f) => f,
        Err((number, place)) => return writeln!(stdout, "E {number} {place}"),
    };
    let mut stdin = io::stdin().lock();
    let mut part = Vec::new();
    let mut block = [0; 16384];
    let mut out = Vec::with_capacity(32768);
    loop {
        let n = stdin.read(&mut block)?;
        if n == 0 {
            break;
        }
        for b in &block[..n] {
            if *b == b'\n' {
                reply(&mut feeder, &part, count, &mut out);
                part.clear();
            } else if part.len() < 65 {
                part.push(*b);
            }
        }
        stdout.write_all(&out)?;
        stdout.flush()?;
        out.clear();
    }
    if !part.is_empty() {
        reply(&mut feeder, &part, count, &mut out);
        stdout.write_all(&out)?;
    }
    Ok(())
}

fn reply(feeder: &mut Feeder, text: &[u8], count: bool, out: &mut Vec<u8>) {
    let start = out.len();
    if let Err(n) = feeder.answer(text, count, out) {
        out.truncate(start);
        out.extend_from_slice(b"E ");
        decimal(out, u64::from(n));
    }
    out.push(b'\n');
}

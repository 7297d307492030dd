//! A reader of NDEF messages by hand that is as strict as the crate: it accepts the same messages, nested ones, limits and chunks too, and says
//! where and why others are refused, but not within nested messages.
pub type Bad = (usize, u8);
fn utf8(p: &[u8], at: usize) -> Result<(), Bad> {
    match std::str::from_utf8(p) {
        Ok(_) => Ok(()),
        Err(e) => Err((at + e.valid_up_to(), 17)),
    }
}
fn utf16(s: &[u8], at: usize) -> Result<(), Bad> {
    let (mut i, mut little, mut high) = (0, 0, false);
    if s.len() >= 2 && s[0] == 0xFF && s[1] == 0xFE {
        little = 1;
        i = 2
    } else if s.len() >= 2 && s[0] == 0xFE && s[1] == 0xFF {
        i = 2
    }
    for u in s[i..].chunks_exact(2) {
        let t = u[little] & 0xFC;
        if (t == 0xDC) != high {
            return Err((at + i + little, 18));
        }
        high = t == 0xD8;
        i += 2
    }
    if high {
        Err((at + s.len() - 2 + little, 23))
    } else {
        Ok(())
    }
}
fn text(p: &[u8], at: usize) -> Result<(), Bad> {
    let Some((&s, rest)) = p.split_first() else { return Err((at, 23)) };
    let l = (s & 63) as usize;
    if s & 64 != 0 {
        return Err((at, 15));
    }
    if rest.len() < l || s & 128 != 0 && (rest.len() - l) % 2 == 1 {
        return Err((at, 23));
    }
    if s & 128 == 0 && rest.is_ascii() {
        return Ok(());
    }
    if let Some(i) = rest[..l].iter().position(|c| *c > 127) {
        return Err((at + 1 + i, 16));
    }
    if s & 128 != 0 {
        utf16(&rest[l..], at + 1 + l)
    } else {
        utf8(&rest[l..], at + 1 + l)
    }
}
fn uri(p: &[u8], at: usize) -> Result<(), Bad> {
    match p.split_first() {
        None => Err((at, 23)),
        Some((&c, _)) if c > 0x23 => Err((at, 19)),
        Some((_, r)) => utf8(r, at + 1),
    }
}
fn alt(p: &[u8]) -> bool {
    if p.len() < 3 {
        return false;
    }
    let mut at = 2 + p[1] as usize;
    let Some(&n) = p.get(at) else { return false };
    at += 1;
    for _ in 0..n {
        let Some(&l) = p.get(at) else { return false };
        at += 1 + l as usize;
        if at > p.len() {
            return false;
        }
    }
    true
}
fn err(p: &[u8]) -> bool {
    match p.first() {
        None => false,
        Some(1 | 3) => p.len() == 2,
        Some(2) => p.len() == 5,
        _ => true,
    }
}
#[derive(Clone, Copy, PartialEq)]
enum In {
    Poster,
    Request,
    Select,
}
fn nested(t: In, b: &[u8], records: u32) -> bool {
    let (mut at, mut n, mut uris) = (0, 0, 0);
    loop {
        let Some(h) = head(b, at) else { return false };
        if n == records || (h.h & 128 != 0) != (n == 0) || h.h & 32 != 0 || h.tnf() > 5 || !h.shape() {
            return false;
        }
        let Some((kind, p)) = h.parts(b) else { return false };
        let w = h.tnf() == 1;
        let ok = match t {
            In::Poster => {
                !w || match kind {
                    b"U" => {
                        uris += 1;
                        uris == 1 && uri(p, 0).is_ok()
                    }
                    b"T" => text(p, 0).is_ok(),
                    b"act" => p.len() == 1,
                    b"s" => p.len() == 4,
                    b"t" => std::str::from_utf8(p).is_ok(),
                    _ => true,
                }
            }
            In::Request => {
                if n == 0 {
                    w && kind == b"cr" && p.len() == 2
                } else {
                    !w || match kind {
                        b"cr" => p.len() == 2,
                        b"ac" => alt(p),
                        _ => true,
                    }
                }
            }
            In::Select => {
                !w || match kind {
                    b"ac" => alt(p),
                    b"err" => err(p),
                    _ => true,
                }
            }
        };
        if !ok {
            return false;
        }
        at = h.end;
        n += 1;
        if h.h & 64 != 0 {
            return at == b.len() && (t != In::Poster || uris == 1);
        }
    }
}
struct Head {
    h: u8,
    kl: usize,
    il: usize,
    len: usize,
    at: usize,
    end: usize,
}
impl Head {
    fn tnf(&self) -> u8 {
        self.h & 7
    }
    fn shape(&self) -> bool {
        match self.tnf() {
            0 => self.kl + self.il + self.len == 0,
            5 => self.kl == 0,
            6 => self.kl == 0 && self.h & 8 == 0,
            7 => false,
            _ => self.kl > 0,
        }
    }
    fn parts<'a>(&self, b: &'a [u8]) -> Option<(&'a [u8], &'a [u8])> {
        let r = b.get(self.at..self.end)?;
        Some((&r[..self.kl], &r[self.kl + self.il..]))
    }
}
#[inline(always)]
fn head(b: &[u8], from: usize) -> Option<Head> {
    let r = b.get(from..)?;
    let [h, kl, a, ..] = *r else { return None };
    let (mut at, len) =
        if h & 16 != 0 { (3, a as usize) } else { (6, u32::from_be_bytes(r.get(2..6)?.try_into().ok()?) as usize) };
    let il = if h & 8 != 0 {
        at += 1;
        *r.get(at - 1)? as usize
    } else {
        0
    };
    Some(Head { h, kl: kl as usize, il, len, at: from + at, end: from + at + kl as usize + il + len })
}
fn payload(kind: &[u8], p: &[u8], at: usize, records: u32) -> Result<(), Bad> {
    let ok = match kind {
        b"T" => return text(p, at),
        b"U" => return uri(p, at),
        b"Sp" => nested(In::Poster, p, records),
        b"Hr" => !p.is_empty() && p[0] >> 4 == 1 && nested(In::Request, &p[1..], records),
        b"Hs" => !p.is_empty() && p[0] >> 4 == 1 && (p.len() == 1 || nested(In::Select, &p[1..], records)),
        b"Hc" => p.len() >= 2 && 2 + p[1] as usize <= p.len(),
        _ => true,
    };
    if ok {
        Ok(())
    } else {
        Err((at, 99))
    }
}
/// The head at a place is wrong or cut: where and why.
#[cold]
fn why(b: &[u8], from: usize, first: bool, open: bool) -> Bad {
    let Some(&h) = b.get(from) else { return (b.len(), 24) };
    let t = h & 7;
    if t == 7 {
        return (from, 1);
    }
    if (h & 128 != 0) != first {
        return (from, if first { 2 } else { 3 });
    }
    if !open && t == 6 {
        return (from, 4);
    }
    if open && t != 6 {
        return (from, 5);
    }
    if open && h & 8 != 0 {
        return (from, 6);
    }
    if h & 96 == 96 {
        return (from, 7);
    }
    if h & 32 != 0 && t == 0 {
        return (from, 8);
    }
    let Some(&kl) = b.get(from + 1) else { return (b.len(), 24) };
    if t >= 5 && kl != 0 {
        return (from + 1, 11);
    }
    if (1..=4).contains(&t) && kl == 0 {
        return (from + 1, 12);
    }
    if t == 0 && kl != 0 {
        return (from + 1, 13);
    }
    if t == 0 {
        for i in 0..if h & 16 != 0 { 1 } else { 4 } + (h >> 3 & 1) as usize {
            match b.get(from + 2 + i) {
                None => return (b.len(), 24),
                Some(0) => {}
                _ => return (from + 2 + i, 13),
            }
        }
    }
    (b.len(), 24)
}
#[cold]
fn cut(kind: &[u8], have: &[u8], len: usize, at: usize, end: usize) -> Bad {
    // a text or a URI whose payload is cut may be wrong before
    let bad = match (kind, have.first()) {
        (b"T", Some(&s)) if s & 64 != 0 => Some((at, 15)),
        (b"T", Some(&s)) if len - 1 < (s & 63) as usize => Some((at, 23)),
        (b"T", Some(&s)) => {
            let l = (s & 63) as usize;
            have[1..].iter().take(l).position(|c| *c > 127).map(|i| (at + 1 + i, 16)).or_else(|| {
                if s & 128 == 0 && have.len() > 1 + l {
                    std::str::from_utf8(&have[1 + l..])
                        .err()
                        .filter(|e| e.error_len().is_some())
                        .map(|e| (at + 1 + l + e.valid_up_to(), 17))
                } else {
                    None
                }
            })
        }
        (b"U", Some(&c)) if c > 0x23 => Some((at, 19)),
        (b"U", Some(_)) => std::str::from_utf8(&have[1..])
            .err()
            .filter(|e| e.error_len().is_some())
            .map(|e| (at + 1 + e.valid_up_to(), 17)),
        _ => None,
    };
    bad.unwrap_or((end, 24))
}
pub struct Limits {
    pub payload: u32,
    pub records: u32,
    pub chunks: u32,
}
/// Those that the crate takes where none are given.
pub const USUAL: Limits = Limits { payload: 1 << 20, records: 1024, chunks: 4096 };
pub fn check(b: &[u8], l: &Limits) -> Result<(usize, u32), Bad> {
    let (mut at, mut n) = (0, 0u32);
    loop {
        let Some(h) = head(b, at) else { return Err(why(b, at, n == 0, false)) };
        if (h.h & 128 != 0) != (n == 0) || h.tnf() > 5 || !h.shape() || h.h & 96 == 96 {
            return Err(why(b, at, n == 0, false));
        }
        if h.len > l.payload as usize {
            return Err((at + 2, 14));
        }
        if h.h & 96 == 0 && n + 1 == l.records {
            return Err((at, 10));
        }
        let Some((kind, p)) = h.parts(b) else {
            let from = (h.at + h.kl + h.il).min(b.len());
            return Err(cut(
                if h.tnf() == 1 && h.at + h.kl <= b.len() { &b[h.at..h.at + h.kl] } else { b"" },
                &b[from..],
                h.len,
                from,
                b.len(),
            ));
        };
        let mut last = h.h & 64 != 0;
        if h.h & 32 != 0 {
            if h.tnf() == 0 {
                return Err((at, 8));
            }
            let (mut joined, mut m, mut k) = (p.to_vec(), h.end, 1);
            loop {
                let Some(c) = head(b, m) else { return Err(why(b, m, false, true)) };
                if c.h & 0x88 != 0 || c.tnf() != 6 || c.kl != 0 || c.h & 96 == 96 {
                    return Err(why(b, m, false, true));
                }
                let Some((_, q)) = c.parts(b) else { return Err((b.len(), 24)) };
                k += 1;
                if k > l.chunks || joined.len() + q.len() > l.payload as usize {
                    return Err((m, 14));
                }
                joined.extend_from_slice(q);
                m = c.end;
                if c.h & 32 == 0 {
                    last = c.h & 64 != 0;
                    break;
                }
            }
            if h.tnf() == 1 {
                payload(kind, &joined, 0, l.records)?
            }
            at = m;
        } else {
            if h.tnf() == 1 {
                payload(kind, p, h.end - h.len, l.records)?
            }
            at = h.end;
        }
        n += 1;
        if last {
            return Ok((at, n));
        }
    }
}
use std::borrow::Cow;
pub struct Record<'a> {
    pub tnf: u8,
    pub kind: &'a [u8],
    pub id: &'a [u8],
    pub payload: Cow<'a, [u8]>,
}
pub struct Records<'a> {
    b: &'a [u8],
    at: usize,
}
impl<'a> Iterator for Records<'a> {
    type Item = Record<'a>;
    #[inline]
    fn next(&mut self) -> Option<Record<'a>> {
        let b = self.b;
        if self.at >= b.len() {
            return None;
        }
        let h = head(b, self.at)?;
        let r = &b[h.at..h.end];
        self.at = h.end;
        let mut payload = Cow::Borrowed(&r[h.kl + h.il..]);
        if h.h & 32 != 0 {
            loop {
                let c = head(b, self.at)?;
                payload.to_mut().extend_from_slice(&b[c.at..c.end]);
                self.at = c.end;
                if c.h & 32 == 0 {
                    break;
                }
            }
        }
        Some(Record { tnf: h.tnf(), kind: &r[..h.kl], id: &r[h.kl..h.kl + h.il], payload })
    }
}
pub fn parse<'a>(b: &'a [u8], l: &Limits) -> Result<Records<'a>, Bad> {
    let (n, _) = check(b, l)?;
    Ok(Records { b: &b[..n], at: 0 })
}
pub const PRE: [&str; 36] = [
    "",
    "http://www.",
    "https://www.",
    "http://",
    "https://",
    "tel:",
    "mailto:",
    "ftp://anonymous:anonymous@",
    "ftp://ftp.",
    "ftps://",
    "sftp://",
    "smb://",
    "nfs://",
    "ftp://",
    "dav://",
    "news:",
    "telnet://",
    "imap:",
    "rtsp://",
    "urn:",
    "pop:",
    "sip:",
    "sips:",
    "tftp:",
    "btspp://",
    "btl2cap://",
    "btgoep://",
    "tcpobex://",
    "irdaobex://",
    "file://",
    "urn:epc:id:",
    "urn:epc:tag:",
    "urn:epc:pat:",
    "urn:epc:raw:",
    "urn:epc:",
    "urn:nfc:",
];
impl Record<'_> {
    pub fn text(&self) -> Option<Cow<'_, str>> {
        let s = *self.payload.first()?;
        let r = self.payload.get(1 + (s & 63) as usize..)?;
        if s & 128 != 0 {
            let u: Vec<u16> = r.chunks_exact(2).map(|c| u16::from_be_bytes([c[0], c[1]])).collect();
            return String::from_utf16(&u).ok().map(Cow::Owned);
        }
        std::str::from_utf8(r).ok().map(Cow::Borrowed)
    }
    pub fn uri(&self) -> Option<String> {
        Some([PRE.get(*self.payload.first()? as usize)?, std::str::from_utf8(&self.payload[1..]).ok()?].concat())
    }
}
/// The carriers of the first select or request: power and the payload of each record that it names.
pub fn links<'a>(b: &'a [u8]) -> Option<Vec<(u8, Option<Record<'a>>)>> {
    let all: Vec<Record> = Records { b, at: 0 }.collect();
    let hs = all.iter().position(|r| r.tnf == 1 && (r.kind == b"Hs" || r.kind == b"Hr"))?;
    let p = match &all[hs].payload {
        Cow::Borrowed(p) => *p,
        _ => return None,
    };
    let refs: Vec<(u8, &[u8])> = Records { b: &p[1..], at: 0 }
        .filter(|r| r.kind == b"ac")
        .map(|r| {
            let q = match r.payload {
                Cow::Borrowed(q) => q,
                _ => unreachable!(),
            };
            (q[0] & 3, &q[2..2 + q[1] as usize])
        })
        .collect();
    Some(
        refs.into_iter()
            .map(|(w, id)| {
                (
                    w,
                    if id.is_empty() {
                        None
                    } else {
                        all.iter().find(|r| r.id == id).map(|r| Record {
                            tnf: r.tnf,
                            kind: r.kind,
                            id: r.id,
                            payload: r.payload.clone(),
                        })
                    },
                )
            })
            .collect(),
    )
}

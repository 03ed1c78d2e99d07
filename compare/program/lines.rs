//! Lines for `step` at random: accepted frames, frames with one thing altered, damaged frames; places and lent outputs of all kinds.
use crate::bytes::{Bytes, FALSE, TRUE, node};
use crate::frame::{self, Body, FRAME_LIMIT, Place, row};
use crate::generate::Generator;
use crate::step::replaced;
use crate::text::to_hex;

pub fn line(place: u64, lent: usize, frame: &[u8]) -> String {
    format!("{place} {lent} {}", to_hex(frame))
}

fn spliced(bytes: &[u8], start: usize, end: usize, new: &[u8]) -> Bytes {
    [&bytes[..start], new, &bytes[end..]].concat()
}

/// The places of a node's operands.
pub fn operands(places: &[Place], of: usize) -> Vec<usize> {
    let mut list: Vec<usize> = Vec::new();
    for k in of + 1..places.len() {
        let from = list.last().map_or(places[of].start, |last| places[*last].end);
        if places[k].start >= places[of].end {
            break;
        }
        if places[k].start >= from {
            list.push(k);
        }
    }
    list
}

pub struct Lines {
    pub g: Generator,
}

impl Lines {
    pub fn new(seed: u64) -> Lines {
        Lines { g: Generator::new(seed) }
    }

    /// An accepted frame.
    pub fn frame(&mut self) -> Bytes {
        loop {
            self.g.wide = self.g.random.one_in(10);
            self.g.huge = self.g.random.one_in(100);
            let most = self.g.random.of(&[4, 8, 16, 16, 32, 32, 64, if self.g.wide { 600 } else { 100 }]);
            self.g.restart(if self.g.huge { 1 } else { most });
            let bytes = if self.g.huge { self.long() } else { self.g.pred() };
            self.g.huge = false;
            if frame::read(&bytes).is_ok() {
                return bytes;
            }
        }
    }

    /// A left side with many operands, whose right side is longer.
    fn long(&mut self) -> Bytes {
        let rule = self.g.random.of(&[6, 24, 39, 58, 85, 85, 86, 86]);
        self.g.left_side(rule)
    }

    fn same_row_tag(&mut self, tag: u16) -> u16 {
        let same: Vec<u16> = (1..902).filter(|t| row(*t) == row(tag)).collect();
        self.g.random.of(&same)
    }

    /// One thing altered in an accepted frame, at a place or below it; the new frame may be accepted or not.
    pub fn altered(&mut self, bytes: &[u8], below: usize) -> Bytes {
        let places = frame::read(bytes).unwrap_or_else(|n| panic!("an accepted frame, not {n}"));
        let inside = places[below..].iter().take_while(|p| p.start < places[below].end).count();
        // identifiers, bound or not, somewhat more often
        let names: Vec<usize> = (below..below + inside).filter(|k| matches!(bytes[places[*k].start..], [0, 1 | 3, ..])).collect();
        let by_name = !names.is_empty() && self.g.random.one_in(4);
        let at = if by_name { self.g.random.of(&names) } else { below + self.g.random.below(inside) };
        let Place { start, end, ref pred } = places[at];
        let tag = u16::from_be_bytes([bytes[start], bytes[start + 1]]);
        let kids = operands(&places, at);
        match self.g.random.below(8) {
            0 | 1 => spliced(bytes, start, start + 2, &self.same_row_tag(tag).to_be_bytes()),
            2 => {
                let same: Vec<&Place> = places.iter().filter(|p| p.pred.is_some() == pred.is_some()).collect();
                let other = same[self.g.random.below(same.len())];
                spliced(bytes, start, end, &bytes[other.start..other.end])
            }
            3 if kids.len() > 1 => {
                let (a, b) = (&places[kids[0]], &places[self.g.random.of(&kids[1..])]);
                let swapped = spliced(bytes, b.start, b.end, &bytes[a.start..a.end]);
                spliced(&swapped, a.start, a.end, &bytes[b.start..b.end])
            }
            4 if pred.is_some() => match self.g.random.below(3) {
                0 => spliced(bytes, start, start, &node(701, &[])),
                1 => spliced(bytes, start, end, &node(TRUE, &[])),
                _ => spliced(bytes, start, end, &node(FALSE, &[])),
            },
            5 if matches!(row(tag), Some((_, Body::Many(..)))) => {
                let kid = &places[self.g.random.of(&kids)];
                self.recounted(bytes, start, kid)
            }
            _ => self.other_byte(bytes, start, kids.first().map_or(end, |k| places[*k].start)),
        }
    }

    /// One operand doubled or dropped.
    fn recounted(&mut self, bytes: &[u8], start: usize, kid: &Place) -> Bytes {
        let twice = self.g.random.one_in(2);
        let new = if twice { bytes[kid.start..kid.end].repeat(2) } else { Vec::new() };
        let mut out = spliced(bytes, kid.start, kid.end, &new);
        out[start + 2] = if twice { out[start + 2].wrapping_add(1) } else { out[start + 2] - 1 };
        out
    }

    /// A byte between the node's tag and its first operand changed: of a number, a count or a type; else one of that operand's tag.
    fn other_byte(&mut self, bytes: &[u8], start: usize, first_operand: usize) -> Bytes {
        let mut out = bytes.to_vec();
        let at = start + 2 + self.g.random.below((first_operand - start - 2).max(1));
        if let Some(b) = out.get_mut(at) {
            let any = self.g.random.number() as u8;
            *b = self.g.random.of(&[b.wrapping_add(1), b.wrapping_sub(1), 0, 1, any % 6, any]);
        }
        out
    }

    /// Altered in some way that knows nothing of nodes.
    pub fn damaged(&mut self, bytes: &[u8]) -> Bytes {
        let mut out = bytes.to_vec();
        for _ in 0..self.g.random.of(&[1, 1, 1, 2, 3]) {
            let at = self.g.random.below(out.len().max(1));
            let any = self.g.random.number() as u8;
            match self.g.random.below(6) {
                0 => out.truncate(at),
                1 => out.insert(at.min(out.len()), any % 8),
                2 => out.extend([any; 3].iter().take(1 + at % 3)),
                3 if at < out.len() => drop(out.remove(at)),
                4 if at < out.len() => out[at] = any % 8,
                _ if at < out.len() => out[at] = any,
                _ => {}
            }
        }
        out
    }

    fn place(&mut self, bytes: &[u8], places: &[Place]) -> u64 {
        let preds: Vec<usize> = (0..places.len()).filter(|k| places[*k].pred.is_some()).collect();
        let changing: Vec<usize> = preds.iter().copied().filter(|k| replaced(bytes, &places[*k]).is_some()).collect();
        let n = places.len() as u64;
        let any = self.g.random.number();
        match self.g.random.below(16) {
            0 => any % n,
            1 => self.g.random.of(&[n, n + any % 9, 2048, (1 << 32) + any % n, u64::MAX, any]),
            2..=5 => self.g.random.of(&preds) as u64,
            _ if !changing.is_empty() => self.g.random.of(&changing) as u64,
            _ => self.g.random.of(&preds) as u64,
        }
    }

    /// Mostly enough; else about as long as the result.
    fn lent(&mut self, bytes: &[u8], places: &[Place], place: u64) -> usize {
        let result = places.get(place as usize).and_then(|p| replaced(bytes, p));
        let length = result.map_or(bytes.len(), |(_, new)| new.len()).min(FRAME_LIMIT);
        let any = self.g.random.below(8193);
        self.g.random.of(&[4096, 4096, 4096, 8192, 4095, length, length, length - 1, 0, any])
    }

    pub fn next(&mut self) -> String {
        let whole = self.frame();
        let bytes = match self.g.random.below(8) {
            0 => self.altered(&whole, 0),
            1 | 2 => self.damaged(&whole),
            _ => whole,
        };
        match frame::read(&bytes) {
            Ok(places) => {
                let place = self.place(&bytes, &places);
                line(place, self.lent(&bytes, &places, place), &bytes)
            }
            Err(_) => line(self.g.random.below(5) as u64, self.g.random.of(&[0, 4096]), &bytes),
        }
    }
}

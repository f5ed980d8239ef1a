//! Random bytes as a decoder meets them, and worse; the same for the same seed.

const START: [u8; 8] = [0x1b, 0x1b, 0x1b, 0x1b, 1, 1, 1, 1];
const SPECIAL: [u8; 4] = [0x1b, 0x1a, 0x01, 0x00];

/// SplitMix64.
pub struct Random {
    state: u64,
    /// How long payloads are: below one of these.
    pub sizes: [usize; 6],
}

impl Random {
    pub fn new(seed: u64) -> Self {
        Random { state: seed, sizes: [9; 6] }
    }

    fn next(&mut self) -> u64 {
        self.state = self.state.wrapping_add(0x9e37_79b9_7f4a_7c15);
        let x = (self.state ^ self.state >> 30).wrapping_mul(0xbf58_476d_1ce4_e5b9);
        let x = (x ^ x >> 27).wrapping_mul(0x94d0_49bb_1331_11eb);
        x ^ x >> 31
    }

    /// Below n; 0 if that is 0.
    pub fn below(&mut self, n: usize) -> usize {
        (self.next() % n.max(1) as u64) as usize
    }

    pub fn bytes(&mut self, n: usize) -> Vec<u8> {
        (0..n).map(|_| self.next() as u8).collect()
    }

    fn one_of<T: Copy>(&mut self, of: &[T]) -> T {
        of[self.below(of.len())]
    }

    fn special(&mut self, n: usize) -> Vec<u8> {
        (0..n).map(|_| self.one_of(&SPECIAL)).collect()
    }

    pub fn payload(&mut self) -> Vec<u8> {
        let most = self.one_of(&self.sizes.clone());
        let n = self.below(most);
        match self.below(5) {
            0 => self.bytes(n),
            1 => self.special(n),
            2 => (0..n).map(|_| if self.below(5) > 0 { 0x1b } else { self.next() as u8 }).collect(),
            3 => (0..n)
                .flat_map(|_| {
                    let run = self.below(13);
                    let more = self.below(4);
                    [vec![0x1b; run], self.bytes(more)].concat()
                })
                .take(n)
                .collect(),
            _ => vec![0; n],
        }
    }

    /// A frame up to its end, as its bytes go: the payload escaped, and pads.
    fn body(&mut self, payload: &[u8], pads: usize) -> Vec<u8> {
        let (mut out, mut run) = (START.to_vec(), 0);
        for b in payload {
            out.push(*b);
            run = if *b == 0x1b { run + 1 } else { 0 };
            if run == 4 {
                out.extend([0x1b; 4]);
                run = 0;
            }
        }
        let pad = self.one_of(&[0, 0, 0x1b, 0xff]);
        out.extend(vec![pad; pads]);
        out
    }

    fn closed(mut body: Vec<u8>, count: u8) -> Vec<u8> {
        body.extend([0x1b, 0x1b, 0x1b, 0x1b, 0x1a, count]);
        body.extend(crc(&body).to_le_bytes());
        body
    }

    pub fn frame(&mut self) -> Vec<u8> {
        let p = self.payload();
        let pads = (4 - p.len() % 4) % 4;
        Self::closed(self.body(&p, pads), pads as u8)
    }

    /// Some bytes other, missing or more.
    pub fn mutated(&mut self, bytes: &[u8]) -> Vec<u8> {
        let mut out = bytes.to_vec();
        for _ in 0..self.one_of(&[1, 1, 1, 2, 5]) {
            let at = self.below(out.len());
            match self.below(6) {
                0 if !out.is_empty() => out[at] ^= 1 << self.below(8),
                1 if !out.is_empty() => out[at] = self.one_of(&[0x1b, 0x1a, 0, 1, 2, 0x42, 0x52, 0x62, 0x63, 0x65, 0x72, 0x80, 0x83]),
                2 if !out.is_empty() => drop(out.remove(at)),
                3 => out.insert(at, self.next() as u8),
                4 => out.truncate(at),
                _ => {
                    let n = self.below(9);
                    out.splice(at..at, self.special(n));
                }
            }
        }
        out
    }

    /// Bytes of a decoder's input: whole frames, damaged ones, wrong ends with the right CRC, escapes, noise, what is cut.
    pub fn piece(&mut self) -> Vec<u8> {
        match self.below(11) {
            0..=3 => self.frame(),
            4..=5 => {
                let f = self.frame();
                self.mutated(&f)
            }
            6 => {
                let (p, pads) = (self.payload(), self.below(4));
                let count = self.one_of(&[0, 1, 2, 3, 3, 4, 5, 0x1b, 0xff]);
                Self::closed(self.body(&p, pads), count)
            }
            7 => {
                let (p, n) = (self.payload(), self.below(6));
                let tail = self.one_of(&[
                    [1, 1, 1, 1],
                    [2, 0, 0, 0],
                    [0x1b, 0x1b, 0x1b, 0x1a],
                    [0x1b, 0x1b, 0x1a, 0],
                    [0x1b, 0x1a, 1, 2],
                    [0x1b; 4],
                ]);
                [self.body(&p, 0), vec![0x1b; 4], tail.to_vec(), self.special(n)].concat()
            }
            8 => {
                let n = self.below(24);
                self.special(n)
            }
            9 => {
                let n = self.below(200);
                self.bytes(n)
            }
            _ => {
                let f = self.frame();
                f[..self.below(f.len())].to_vec()
            }
        }
    }
}

/// CRC X25, bit by bit.
fn crc(bytes: &[u8]) -> u16 {
    !bytes.iter().fold(0xffff_u16, |reg, b| (0..8).fold(reg ^ u16::from(*b), |r, _| if r & 1 == 1 { r >> 1 ^ 0x8408 } else { r >> 1 }))
}

//! Text that is put into a room, and numbers as text by tables.

use std::mem;

/// The glyphs of digits.
const GLYPHS: &[u8; 16] = b"0123456789abcdef";

/// Two digits of each number below `N` in a radix.
const fn pairs<const N: usize>(radix: usize) -> [[u8; 2]; N] {
    let mut pairs = [[0; 2]; N];
    let mut n = 0;
    while n < N {
        pairs[n] = [GLYPHS[n / radix], GLYPHS[n % radix]];
        n += 1;
    }
    pairs
}

/// Each byte in hexadecimal, and each number below 100 in decimal.
static HEX: [[u8; 2]; 256] = pairs(16);
static DECIMAL: [[u8; 2]; 100] = pairs(10);

/// How many of the eight digits of a number in hexadecimal are zeros in front of the others.
#[inline]
fn zeros(n: u32) -> u32 {
    (n | 1).leading_zeros() / 4
}

/// A short text that is put as a whole: its bytes, of which the first `len` count.
pub struct Short<const N: usize> {
    bytes: [u8; N],
    len: usize,
}

/// The room that is left behind a text.
pub struct Text<'a> {
    room: &'a mut [u8],
}

impl<'a> Text<'a> {
    /// A text at the front of a room.
    #[inline]
    pub fn new(room: &'a mut [u8]) -> Text<'a> {
        Text { room }
    }

    /// How many bytes are left.
    #[inline]
    pub fn left(&self) -> usize {
        self.room.len()
    }

    /// Puts the first `len` of these bytes. All of them need room.
    #[inline]
    fn put_first<const N: usize>(&mut self, bytes: &[u8; N], len: usize) {
        let room = mem::take(&mut self.room);
        room[..N].copy_from_slice(bytes);
        self.room = &mut room[len..];
    }

    /// Puts a text.
    #[inline]
    pub fn put<const N: usize>(&mut self, text: &[u8; N]) {
        self.put_first(text, N);
    }

    /// Puts a short text.
    #[inline]
    pub fn short<const N: usize>(&mut self, text: &Short<N>) {
        self.put_first(&text.bytes, text.len);
    }

    /// Puts a number in hexadecimal without leading zeros.
    #[inline(always)]
    pub fn hex(&mut self, n: u64) {
        let (high, low) = ((n >> 32) as u32, n as u32);
        if high == 0 {
            return self.hex_from(low, zeros(low));
        }
        self.hex_from(high, zeros(high));
        self.hex_from(low, 0);
    }

    /// Puts the eight digits of a number in hexadecimal but for the first of them.
    #[inline]
    fn hex_from(&mut self, n: u32, first: u32) {
        let room = mem::take(&mut self.room);
        for (pair, byte) in room[..8].chunks_exact_mut(2).zip((n << (4 * first)).to_be_bytes()) {
            pair.copy_from_slice(&HEX[byte as usize]);
        }
        self.room = &mut room[8 - first as usize..];
    }

    /// Puts two digits of a byte in hexadecimal.
    pub fn hex_byte(&mut self, byte: u8) {
        self.put(&HEX[byte as usize]);
    }

    /// Puts one digit.
    #[inline]
    pub fn digit(&mut self, n: u8) {
        self.put(&[b'0' + n]);
    }

    /// Puts a number in decimal.
    pub fn decimal(&mut self, n: u32) {
        let mut rest = n as usize;
        let mut digits = [0; 10];
        let mut start = digits.len();
        while rest >= 10 {
            start -= 2;
            digits[start..start + 2].copy_from_slice(&DECIMAL[rest % 100]);
            rest /= 100;
        }
        if rest > 0 || n == 0 {
            start -= 1;
            digits[start] = GLYPHS[rest];
        }
        let (head, room) = mem::take(&mut self.room).split_at_mut(digits.len() - start);
        head.copy_from_slice(&digits[start..]);
        self.room = room;
    }
}

impl<const N: usize> Short<N> {
    /// The short text that a function puts.
    pub fn of(put: impl FnOnce(&mut Text)) -> Short<N> {
        let mut bytes = [0; N];
        let mut text = Text::new(&mut bytes);
        put(&mut text);
        let len = N - text.left();
        Short { bytes, len }
    }
}

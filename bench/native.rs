//! One step over an input, as a native program does it: `native STEP [NEEDLE] INPUT` writes what nursery reports of the job
//! `main` with that one step. `STEP` is `find`, `need`, `head` or `pace`.

use std::io::Write;

/// Lines of the input, as slices of it.
struct Lines<'a> {
    buffer: &'a [u8],
}

impl<'a> Lines<'a> {
    fn end_of(&self, at: usize) -> usize {
        find_byte(b'\n', &self.buffer[at..]).map_or(self.buffer.len(), |n| at + n)
    }

    fn all(&self, mut keep: impl FnMut(&'a [u8])) {
        let mut at = 0;
        while at < self.buffer.len() {
            let end = self.end_of(at);
            keep(&self.buffer[at..end]);
            at = end + 1;
        }
    }

    /// Each line that holds the needle, which has no newline.
    fn holding(&self, needle: &[u8], mut keep: impl FnMut(&'a [u8]) -> bool) {
        let mut at = 0;
        while let Some(n) = find(needle, &self.buffer[at..]) {
            let begin = self.buffer[..at + n].iter().rposition(|&b| b == b'\n').map_or(0, |n| n + 1);
            let end = self.end_of(at + n);
            if !keep(&self.buffer[begin..end]) || end >= self.buffer.len() {
                return;
            }
            at = end + 1;
        }
    }
}

fn find_byte(byte: u8, text: &[u8]) -> Option<usize> {
    extern "C" {
        fn memchr(text: *const u8, byte: i32, length: usize) -> *const u8;
    }
    // SAFETY: the pointer and the length are those of one slice.
    let found = unsafe { memchr(text.as_ptr(), byte as i32, text.len()) };
    (!found.is_null()).then(|| found as usize - text.as_ptr() as usize)
}

#[cfg(target_arch = "x86_64")]
#[target_feature(enable = "avx2")]
unsafe fn find_by_pairs(needle: &[u8], text: &[u8]) -> Option<usize> {
    use std::arch::x86_64::*;
    let last = needle.len() - 1;
    let (front, back) = (_mm256_set1_epi8(needle[0] as i8), _mm256_set1_epi8(needle[last] as i8));
    let mut at = 0;
    while at + last + 32 <= text.len() {
        let fronts = _mm256_cmpeq_epi8(front, _mm256_loadu_si256(text.as_ptr().add(at).cast()));
        let backs = _mm256_cmpeq_epi8(back, _mm256_loadu_si256(text.as_ptr().add(at + last).cast()));
        let mut mask = _mm256_movemask_epi8(_mm256_and_si256(fronts, backs)) as u32;
        while mask != 0 {
            let place = at + mask.trailing_zeros() as usize;
            if &text[place..place + needle.len()] == needle {
                return Some(place);
            }
            mask &= mask - 1;
        }
        at += 32;
    }
    text[at..].windows(needle.len()).position(|window| window == needle).map(|n| at + n)
}

fn find(needle: &[u8], text: &[u8]) -> Option<usize> {
    #[cfg(target_arch = "x86_64")]
    if is_x86_feature_detected!("avx2") {
        // SAFETY: the processor has AVX2, and every load is inside the slice.
        return unsafe { find_by_pairs(needle, text) };
    }
    text.windows(needle.len()).position(|window| window == needle)
}

fn push_number(out: &mut Vec<u8>, mut number: usize) {
    let mut digits = [0; 20];
    let mut place = digits.len();
    loop {
        place -= 1;
        digits[place] = b'0' + (number % 10) as u8;
        number /= 10;
        if number == 0 {
            return out.extend_from_slice(&digits[place..]);
        }
    }
}

fn push_shown(out: &mut Vec<u8>, line: &[u8]) {
    let mut rest = line;
    while let Some(n) = rest.iter().position(|&b| !(32..=126).contains(&b) || b == b'\\') {
        out.extend_from_slice(&rest[..n]);
        match rest[n] {
            b'\\' => out.extend_from_slice(b"\\\\"),
            byte => write!(out, "\\x{byte:02x}").unwrap(),
        }
        rest = &rest[n + 1..];
    }
    out.extend_from_slice(rest);
}

fn main() {
    let words: Vec<String> = std::env::args().collect();
    let step = words[1].as_str();
    let needle = words[2].as_bytes();
    let buffer = std::fs::read(words.last().unwrap()).unwrap();
    let lines = Lines { buffer: &buffer };
    let mut shown: Vec<&[u8]> = Vec::new();
    let mut end = 0;
    match step {
        "find" => lines.holding(needle, |line| {
            shown.push(line);
            true
        }),
        "need" => lines.holding(needle, |line| {
            shown.push(line);
            false
        }),
        "head" => lines.all(|line| shown.push(line)),
        "pace" => {
            let mut count = 0usize;
            lines.all(|_| count += 1);
            end = count.div_ceil(1_000_000);
        }
        _ => panic!("no step: {step}"),
    }
    let mut out = Vec::with_capacity(64 + shown.iter().map(|line| line.len() + 16).sum::<usize>());
    write!(out, "job main {end}\ntask main 0 {end} done\n").unwrap();
    for line in &shown {
        out.extend_from_slice(b"  line ");
        push_number(&mut out, line.as_ptr() as usize - buffer.as_ptr() as usize);
        out.push(b'+');
        push_number(&mut out, line.len());
        out.push(b' ');
        push_shown(&mut out, line);
        out.push(b'\n');
    }
    std::io::stdout().write_all(&out).unwrap();
}

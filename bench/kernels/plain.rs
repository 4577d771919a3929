//! The kernels in plain Rust, each by the steps of the crate's scalar code, and written anew.
use std::mem::MaybeUninit;

pub const NULL: usize = usize::MAX;

/// A mask with all that a kernel may be handed: its bits as bytes and as words, and its lists.
pub struct Mask {
    pub len: usize,
    pub count: usize,
    pub bytes: Vec<u8>,
    pub words: Vec<u64>,
    pub indices: Vec<usize>,
    pub slices: Vec<(usize, usize)>,
}

impl Mask {
    pub fn new(len: usize, bytes: Vec<u8>) -> Mask {
        let word = |chunk: &[u8]| chunk.iter().rev().fold(0, |word, b| word << 8 | u64::from(*b));
        let words: Vec<u64> = bytes.chunks(8).map(word).collect();
        let indices: Vec<usize> = SetBits::new(&words).collect();
        let runs = indices.chunk_by(|a, b| a + 1 == *b);
        let slices = runs.map(|run| (run[0], run[run.len() - 1] + 1)).collect();
        Mask { len, count: indices.len(), bytes, words, indices, slices }
    }

    fn density(&self) -> f64 {
        self.count as f64 / self.len as f64
    }
}

/// The set positions of words, ascending.
pub struct SetBits<'a> {
    words: std::slice::Iter<'a, u64>,
    word: u64,
    base: usize,
}

impl SetBits<'_> {
    pub fn new(words: &[u64]) -> SetBits<'_> {
        SetBits { words: words.iter(), word: 0, base: 0usize.wrapping_sub(64) }
    }
}

impl Iterator for SetBits<'_> {
    type Item = usize;

    #[inline]
    fn next(&mut self) -> Option<usize> {
        while self.word == 0 {
            self.word = *self.words.next()?;
            self.base = self.base.wrapping_add(64);
        }
        let place = self.base + self.word.trailing_zeros() as usize;
        self.word &= self.word - 1;
        Some(place)
    }
}

/// The maximal runs of set bits of words.
pub fn set_runs(words: &[u64]) -> Vec<(usize, usize)> {
    let mut runs: Vec<(usize, usize)> = Vec::new();
    for (w, word) in words.iter().enumerate() {
        let mut left = *word;
        while left != 0 {
            let low = left.trailing_zeros() as usize;
            let count = (left >> low).trailing_ones() as usize;
            let start = 64 * w + low;
            match runs.last_mut() {
                Some(last) if last.1 == start => last.1 += count,
                _ => runs.push((start, start + count)),
            }
            left &= left.wrapping_add(1 << low);
        }
    }
    runs
}

/// Whether each of the `len` positions of a word is set.
fn is_full(word: u64, len: usize) -> bool {
    word == u64::MAX >> (64 - len)
}

/// A list with room for `count` items, which `fill` puts there and counts.
fn with_room<T: Copy>(count: usize, fill: impl FnOnce(&mut [MaybeUninit<T>]) -> usize) -> Vec<T> {
    let mut kept = Vec::with_capacity(count);
    let len = fill(kept.spare_capacity_mut());
    // SAFETY: so many items were put there.
    unsafe { kept.set_len(len) };
    kept
}

fn copy_to<T: Copy>(dst: &mut [MaybeUninit<T>], src: &[T]) {
    dst.write_copy_of_slice(src);
}

/// Copies the items that the words pick: full words whole, and else one item after another.
#[inline]
pub fn compact_by_bits<T: Copy>(src: &[T], words: &[u64], dst: &mut [MaybeUninit<T>]) -> usize {
    let mut kept = 0;
    for (w, word) in words.iter().enumerate() {
        let base = 64 * w;
        let len = (src.len() - base).min(64);
        if is_full(*word, len) {
            copy_to(&mut dst[kept..][..len], &src[base..][..len]);
            kept += len;
            continue;
        }
        let mut left = *word;
        while left != 0 {
            let place = base + left.trailing_zeros() as usize;
            // SAFETY: the bits are of places in `src`, and there is room for each that is set.
            unsafe { dst.get_unchecked_mut(kept).write(*src.get_unchecked(place)) };
            kept += 1;
            left &= left - 1;
        }
    }
    kept
}

/// Copies the items that the words pick, run after run.
#[inline(never)]
pub fn compact_by_runs<T: Copy>(src: &[T], words: &[u64], dst: &mut [MaybeUninit<T>]) -> usize {
    let mut kept = 0;
    for (w, word) in words.iter().enumerate() {
        let mut left = *word;
        while left != 0 {
            let low = left.trailing_zeros() as usize;
            let count = (left >> low).trailing_ones() as usize;
            copy_to(&mut dst[kept..][..count], &src[64 * w + low..][..count]);
            kept += count;
            left &= left.wrapping_add(1 << low);
        }
    }
    kept
}

/// The set positions of each byte, and how many they are.
static PLACES: [([u8; 8], u8); 256] = {
    let mut table = [([0; 8], 0); 256];
    let mut byte = 0;
    while byte < 256 {
        let mut count = 0;
        let mut bit = 0;
        while bit < 8 {
            if byte >> bit & 1 == 1 {
                table[byte].0[count] = bit;
                count += 1;
            }
            bit += 1;
        }
        table[byte].1 = count as u8;
        byte += 1;
    }
    table
};

#[inline]
fn compress_byte<T: Copy>(items: &[T], byte: u8, dst: &mut [MaybeUninit<T>]) -> usize {
    if byte == 0 {
        return 0;
    }
    if items.len() == 8 && byte == 0xff {
        copy_to(&mut dst[..8], items);
        return 8;
    }
    let (places, count) = &PLACES[byte as usize];
    let count = *count as usize;
    for k in 0..count {
        // SAFETY: the places are below the items' number, and there is room for each.
        unsafe {
            let place = *places.get_unchecked(k) as usize;
            dst.get_unchecked_mut(k).write(*items.get_unchecked(place));
        }
    }
    count
}

/// Copies the items that the bytes pick, by a table of the positions of each byte.
pub fn compact_by_bytes<T: Copy>(src: &[T], bytes: &[u8], dst: &mut [MaybeUninit<T>]) -> usize {
    let mut kept = 0;
    let (eights, rest) = src.as_chunks::<8>();
    for (items, byte) in eights.iter().zip(bytes) {
        if *byte != 0 {
            // SAFETY: there is room for each that is set.
            kept += compress_byte(items, *byte, unsafe { dst.get_unchecked_mut(kept..) });
        }
    }
    if !rest.is_empty() {
        kept += compress_byte(rest, bytes[eights.len()], &mut dst[kept..]);
    }
    kept
}

#[inline(never)]
pub fn by_bits<T: Copy>(src: &[T], mask: &Mask) -> Vec<T> {
    with_room(mask.count, |dst| compact_by_bits(src, &mask.words, dst))
}

#[inline(never)]
pub fn by_bytes<T: Copy>(src: &[T], mask: &Mask) -> Vec<T> {
    with_room(mask.count, |dst| compact_by_bytes(src, &mask.bytes, dst))
}

#[inline(never)]
pub fn by_indices<T: Copy>(src: &[T], indices: &[usize]) -> Vec<T> {
    with_room(indices.len(), |dst| {
        for (to, index) in dst.iter_mut().zip(indices) {
            // SAFETY: a mask's indices are below its length.
            to.write(unsafe { *src.get_unchecked(*index) });
        }
        indices.len()
    })
}

#[inline(never)]
pub fn by_slices<T: Copy>(src: &[T], slices: &[(usize, usize)], count: usize) -> Vec<T> {
    let mut kept = Vec::with_capacity(count);
    for (start, end) in slices {
        kept.extend_from_slice(&src[*start..*end]);
    }
    kept
}

/// From which density on items of this width are compressed by bytes.
fn dense_from<T>() -> f64 {
    match size_of::<T>() {
        1 => 0.0,
        2 | 4 => 0.5,
        8 => 0.75,
        _ => 0.875,
    }
}

/// The choice for a mask that keeps no list.
pub fn by_choice<T: Copy>(src: &[T], mask: &Mask) -> Vec<T> {
    if mask.density() >= dense_from::<T>() { by_bytes(src, mask) } else { by_bits(src, mask) }
}

#[inline(never)]
pub fn in_place_by_bits<T: Copy>(items: &mut [T], mask: &Mask) -> usize {
    let mut kept = 0;
    for (w, word) in mask.words.iter().enumerate() {
        let base = 64 * w;
        let len = (items.len() - base).min(64);
        if is_full(*word, len) {
            if kept != base {
                items.copy_within(base..base + len, kept);
            }
            kept += len;
            continue;
        }
        let mut left = *word;
        while left != 0 {
            let place = base + left.trailing_zeros() as usize;
            // SAFETY: the bits are of places among the items, and `kept` is at most the place.
            unsafe { *items.get_unchecked_mut(kept) = *items.get_unchecked(place) };
            kept += 1;
            left &= left - 1;
        }
    }
    kept
}

#[inline(never)]
pub fn in_place_by_indices<T: Copy>(items: &mut [T], indices: &[usize]) -> usize {
    for (kept, index) in indices.iter().enumerate() {
        // SAFETY: a mask's indices are below its length, and `kept` is at most the index.
        unsafe { *items.get_unchecked_mut(kept) = *items.get_unchecked(*index) };
    }
    indices.len()
}

#[inline(never)]
pub fn in_place_by_slices<T: Copy>(items: &mut [T], slices: &[(usize, usize)]) -> usize {
    let mut kept = 0;
    for (start, end) in slices {
        if kept != *start {
            items.copy_within(*start..*end, kept);
        }
        kept += end - start;
    }
    kept
}

pub fn bit(bytes: &[u8], i: usize) -> bool {
    bytes[i / 8] >> (i % 8) & 1 == 1
}

/// A bit that is known to be there.
#[inline]
pub fn bit_there(bytes: &[u8], i: usize) -> bool {
    // SAFETY: the caller knows that it is there.
    unsafe { *bytes.get_unchecked(i / 8) >> (i % 8) & 1 == 1 }
}

/// The words of `len` bits, 64 at a time.
#[inline]
pub fn packed(len: usize, mut bit: impl FnMut(usize) -> bool) -> Vec<u64> {
    let mut out = Vec::with_capacity(len.div_ceil(64));
    for start in (0..len).step_by(64) {
        let count = (len - start).min(64);
        out.push((0..count).fold(0, |word, k| word | u64::from(bit(start + k)) << k));
    }
    out
}

/// What each byte packs of each byte, by the mask's byte.
static PACKS: [[u8; 256]; 256] = {
    let mut table = [[0; 256]; 256];
    let mut mask = 1;
    while mask < 256 {
        let mut src = 0;
        while src < 256 {
            let upper = table[mask / 2][src / 2];
            table[mask][src] = if mask % 2 == 1 { 2 * upper + src as u8 % 2 } else { upper };
            src += 1;
        }
        mask += 1;
    }
    table
};

/// The bits of a word at the set positions of another, packed, byte by byte.
#[inline(always)]
fn pext(src: u64, mask: u64) -> u64 {
    let mut packed = 0;
    let mut held = 0;
    for (s, m) in src.to_le_bytes().into_iter().zip(mask.to_le_bytes()) {
        if m != 0 {
            packed |= u64::from(PACKS[m as usize][s as usize]) << held;
            held += m.count_ones();
        }
    }
    packed
}

/// A word of the bits from bit `offset` on, which has all its bits there.
#[inline]
fn word_at(bytes: &[u8], offset: usize, i: usize) -> u64 {
    // SAFETY: the caller knows that the word's bytes are there.
    let word = unsafe { (bytes.as_ptr().add(8 * i) as *const u64).read_unaligned() };
    if offset == 0 {
        return word;
    }
    word >> offset | u64::from(bytes[8 * i + 8]) << (64 - offset)
}

/// Bits by words, joined in 128 bits.
#[inline(never)]
pub fn filter_bits(src: &[u8], offset: usize, mask: &Mask) -> Vec<u64> {
    with_room(mask.count.div_ceil(64) + 1, |dst| {
        let (mut kept, mut all, mut held) = (0, 0u128, 0);
        let mut put = |bits: u64, count: u32| {
            all |= u128::from(bits) << held;
            held += count;
            if held >= 64 {
                // SAFETY: there is room for one word more than the bits have.
                unsafe { dst.get_unchecked_mut(kept).write(all as u64) };
                kept += 1;
                all >>= 64;
                held -= 64;
            }
        };
        for i in 0..mask.len / 64 {
            let (word, picks) = (word_at(src, offset, i), word_at(&mask.bytes, 0, i));
            if picks == u64::MAX {
                put(word, 64);
            } else if picks != 0 {
                put(pext(word, picks), picks.count_ones());
            }
        }
        let start = mask.len / 64 * 64;
        let rest = (start..mask.len).rev();
        let rest = rest.fold(0, |word, k| word << 1 | u64::from(bit(src, offset + k)));
        let picks = if start < mask.len { mask.words[start / 64] } else { 0 };
        put(pext(rest, picks), picks.count_ones());
        if held > 0 {
            dst[kept].write(all as u64);
            kept += 1;
        }
        kept
    })
}

/// Few bits, one by one.
#[inline(never)]
pub fn filter_few_bits(src: &[u8], offset: usize, mask: &Mask) -> Vec<u64> {
    let mut set = SetBits::new(&mask.words);
    packed(mask.count, |_| bit_there(src, offset + set.next().expect("a set position")))
}

/// Few bits, by the set positions that are listed.
#[inline(never)]
pub fn filter_listed_bits(src: &[u8], offset: usize, indices: &[usize]) -> Vec<u64> {
    packed(indices.len(), |k| bit_there(src, offset + indices[k]))
}

/// How many chunks' values are decoded one by one.
pub fn sparse_limit<T>() -> usize {
    match size_of::<T>() {
        1 => 16,
        2 => 32,
        4 => 64,
        _ => 160,
    }
}

/// Values that are decoded by chunks of 1024, here by copying them.
pub struct Chunks<'a, T> {
    values: &'a [T],
    scratch: Box<[T; 1024]>,
}

impl<'a, T: Copy + Default> Chunks<'a, T> {
    pub fn new(values: &'a [T]) -> Chunks<'a, T> {
        Chunks { values, scratch: Box::new([T::default(); 1024]) }
    }

    #[inline(never)]
    fn whole(&self, chunk: usize, dst: &mut [MaybeUninit<T>]) {
        copy_to(&mut dst[..1024], &self.values[1024 * chunk..][..1024]);
    }

    #[inline(never)]
    fn only(&self, chunk: usize, places: &[usize], dst: &mut [MaybeUninit<T>]) {
        let values = &self.values[1024 * chunk..][..1024];
        for (to, place) in dst.iter_mut().zip(places) {
            to.write(values[*place]);
        }
    }

    #[inline(never)]
    fn decode(&mut self, chunk: usize) {
        self.scratch.copy_from_slice(&self.values[1024 * chunk..][..1024]);
    }
}

/// Whether the runs of the words have 96 bytes of items on average.
#[inline(never)]
fn has_long_runs<T>(words: &[u64], count: usize) -> bool {
    let most = count * size_of::<T>() / 96;
    let mut runs = 0;
    64 * size_of::<T>() >= 96
        && words.iter().all(|word| {
            runs += (word & !(word << 1)).count_ones() as usize;
            runs <= most
        })
}

fn compact<T: Copy>(
    src: &[T],
    bytes: &[u8],
    words: &[u64],
    count: usize,
    dst: &mut [MaybeUninit<T>],
) {
    if has_long_runs::<T>(words, count) {
        compact_by_runs(src, words, dst);
    } else if count as f64 / src.len() as f64 >= dense_from::<T>() {
        compact_by_bytes(src, bytes, dst);
    } else {
        compact_by_bits(src, words, dst);
    }
}

#[inline(never)]
pub fn chunks_by_bits<T: Copy + Default>(chunks: &mut Chunks<T>, mask: &Mask) -> Vec<T> {
    with_room(mask.count, |dst| {
        let mut kept = 0;
        let mut places = [0; 160];
        let parts = mask.words.chunks(16).zip(mask.bytes.chunks(128));
        for (chunk, (words, bytes)) in parts.enumerate() {
            let count = words.iter().map(|w| w.count_ones() as usize).sum::<usize>();
            if count == 1024 {
                chunks.whole(chunk, &mut dst[kept..]);
            } else if count > sparse_limit::<T>() {
                chunks.decode(chunk);
                let len = (mask.len - 1024 * chunk).min(1024);
                compact(&chunks.scratch[..len], bytes, words, count, &mut dst[kept..]);
            } else if count > 0 {
                for (to, place) in places.iter_mut().zip(SetBits::new(words)) {
                    *to = place;
                }
                chunks.only(chunk, &places[..count], &mut dst[kept..][..count]);
            }
            kept += count;
        }
        kept
    })
}

#[inline(never)]
pub fn chunks_by_indices<T: Copy + Default>(chunks: &mut Chunks<T>, indices: &[usize]) -> Vec<T> {
    with_room(indices.len(), |dst| {
        let (mut kept, mut rest) = (0, indices);
        let mut places = [0; 160];
        while let Some(first) = rest.first() {
            let chunk = first / 1024;
            let (here, more) = rest.split_at(rest.partition_point(|i| *i < 1024 * (chunk + 1)));
            let of_chunk = here.iter().map(|i| i - 1024 * chunk);
            if here.len() == 1024 {
                chunks.whole(chunk, &mut dst[kept..]);
            } else if here.len() > sparse_limit::<T>() {
                chunks.decode(chunk);
                for (to, place) in dst[kept..][..here.len()].iter_mut().zip(of_chunk) {
                    to.write(chunks.scratch[place]);
                }
            } else {
                for (to, place) in places.iter_mut().zip(of_chunk) {
                    *to = place;
                }
                chunks.only(chunk, &places[..here.len()], &mut dst[kept..][..here.len()]);
            }
            kept += here.len();
            rest = more;
        }
        kept
    })
}

#[inline(never)]
pub fn chunks_by_slices<T: Copy + Default>(
    chunks: &mut Chunks<T>,
    slices: &[(usize, usize)],
    count: usize,
) -> Vec<T> {
    with_room(count, |dst| {
        let (mut kept, mut next, mut from) = (0, 0, 0);
        let mut places = [0; 160];
        while let Some((first, _)) = slices.get(next) {
            let chunk = (*first).max(from) / 1024;
            let (start, end) = (1024 * chunk, 1024 * (chunk + 1));
            let here = slices[next..].iter().take_while(|run| run.0 < end);
            let runs = here.map(|run| (run.0.max(start) - start, run.1.min(end) - start));
            let count = runs.clone().map(|run| run.1 - run.0).sum::<usize>();
            if count == 1024 {
                chunks.whole(chunk, &mut dst[kept..]);
            } else if count > sparse_limit::<T>() {
                chunks.decode(chunk);
                let mut at = kept;
                for (a, b) in runs {
                    copy_to(&mut dst[at..][..b - a], &chunks.scratch[a..b]);
                    at += b - a;
                }
            } else {
                for (to, place) in places.iter_mut().zip(runs.flat_map(|run| run.0..run.1)) {
                    *to = place;
                }
                chunks.only(chunk, &places[..count], &mut dst[kept..][..count]);
            }
            kept += count;
            next += slices[next..].iter().take_while(|run| run.1 <= end).count();
            from = end;
        }
        kept
    })
}

#[inline(never)]
pub fn gather<T: Copy>(src: &[T], picks: &[usize], fill: T) -> Vec<T> {
    with_room(picks.len(), |dst| {
        for (to, pick) in dst.iter_mut().zip(picks) {
            to.write(if *pick == NULL { fill } else { src[*pick] });
        }
        picks.len()
    })
}

#[inline(never)]
pub fn bits_at(src: &[u8], picks: &[usize]) -> Vec<u64> {
    packed(picks.len(), |k| picks[k] != NULL && bit(src, picks[k]))
}

#[inline(never)]
pub fn are_there(picks: &[usize]) -> Vec<u64> {
    packed(picks.len(), |k| picks[k] != NULL)
}

/// The ranks of picks in the mask of the positions that they need.
#[inline(never)]
pub fn ranks(picks: &[usize], bound: usize) -> Vec<usize> {
    let mut mask = vec![0u64; bound.div_ceil(64)];
    for p in picks.iter().filter(|p| **p != NULL) {
        mask[p / 64] |= 1 << (p % 64);
    }
    let mut before = Vec::with_capacity(mask.len());
    let mut count = 0;
    for word in &mask {
        before.push(count);
        count += word.count_ones() as usize;
    }
    let below = |p: usize| (mask[p / 64] & ((1 << (p % 64)) - 1)).count_ones() as usize;
    let rank = |p: usize| if p == NULL { NULL } else { before[p / 64] + below(p) };
    picks.iter().map(|p| rank(*p)).collect()
}

/// The set positions that ranks name, by a list of them that is made first.
#[inline(never)]
pub fn positions(mask: &Mask, ranks: &[usize]) -> Vec<usize> {
    let mut set = Vec::with_capacity(mask.count);
    set.extend(SetBits::new(&mask.words));
    ranks.iter().map(|k| if *k == NULL { NULL } else { set[*k] }).collect()
}

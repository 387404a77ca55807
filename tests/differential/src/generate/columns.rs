//! Columns to decode: pages anywhere in a part of a file, and columns of which
//! one page, or a few, are wrong.

use super::random::Random;
use super::Generator;
use crate::reference::columns::{PAGES, ROW_WORDS};
use crate::reference::crc::crc32;
use crate::reference::pages::{stored_bits, ELEMENTS};

const SWITCH: u32 = 3;
const BIT: u32 = 6;

pub struct ColumnCase {
    pub column_type: u32,
    /// The lent table, words left over behind its last row among them.
    pub pages: Vec<u64>,
    pub file: Vec<u8>,
    /// Lent words.
    pub words: usize,
    pub result: usize,
}

#[derive(Clone, Copy, Default)]
struct Page {
    offset: u64,
    size: u64,
    elements: u64,
    checksum: u64,
}

impl Page {
    fn row(&self) -> [u64; ROW_WORDS] {
        [self.offset, self.size, self.elements, self.checksum]
    }

    fn check_bytes(&self) -> u64 {
        if self.checksum != 0 {
            4
        } else {
            0
        }
    }

    /// Its bytes in the file, as long as they are all there, check bytes aside.
    fn content<'a>(&self, file: &'a mut [u8]) -> Option<&'a mut [u8]> {
        let end = self.offset.checked_add(self.size)?;
        file.get_mut(self.offset as usize..usize::try_from(end).ok()?)
    }

    /// Another offset or size, for a file of this length; `what` is below 12.
    fn spoil_range(&mut self, random: &mut Random, what: u64, length: u64) {
        let whole = self.size.wrapping_add(self.check_bytes());
        let size_to = |end: u64| end.wrapping_sub(self.offset).wrapping_sub(self.check_bytes());
        match what {
            // The end of the file: right there, and a little further.
            0 | 1 => self.offset = length.wrapping_sub(whole).wrapping_add(1 + random.below(4)),
            2 => self.offset = length.wrapping_sub(whole),
            3 => self.offset = length + random.below(2),
            4 => self.size = size_to(length + 1 + random.below(4)),
            5 => self.size = size_to(length),
            // Sums that are inside again when they wrap at 64 bits.
            6 => self.offset = random.up_to(length).wrapping_sub(whole),
            7 => self.size = size_to(random.up_to(length)),
            8 => self.offset = u64::MAX - random.below(12),
            9 => self.size = u64::MAX - random.below(12),
            // The check bytes alone wrap.
            10 => self.offset = (u64::MAX - random.below(4)).wrapping_sub(self.size),
            // Right in the low 32 bits.
            _ => self.offset = self.offset.wrapping_add(1 << (32 + random.below(32))),
        }
    }

    /// Puts its check bytes right, where it has any and they are in the file.
    fn seal(&self, file: &mut [u8]) {
        let Some(sum) = self.content(file).map(|content| crc32(content)) else {
            return;
        };
        let end = (self.offset + self.size) as usize;
        if let Some(stored) = file.get_mut(end..end + self.check_bytes() as usize) {
            stored.copy_from_slice(&sum.to_le_bytes()[..stored.len()]);
        }
    }
}

/// A column while it is made.
struct Draft {
    column_type: u32,
    pages: Vec<Page>,
    file: Vec<u8>,
}

/// A type that has pages.
fn known_type(random: &mut Random) -> u32 {
    match random.below(34) {
        0..=5 => BIT,
        place if place as u32 - 5 == SWITCH => BIT,
        place => place as u32 - 5,
    }
}

/// A type that has none: unknown, Switch, or too wide, some of these a known
/// one in their low 16 bits.
fn other_type(random: &mut Random, known: u32) -> u32 {
    match random.below(6) {
        0 => SWITCH,
        1 => random.pick(&[0, 29, 30, 0xFF, 0x0100 + known, 0xFFFF]),
        2..=3 => known + (1 << (16 + random.below(16))),
        4 => known + 0x1_0000,
        _ => random.pick(&[0x1_0000 + SWITCH, 0x1_0000, 0x8000_0000, u32::MAX]),
    }
}

fn page_count(random: &mut Random) -> usize {
    match random.below(256) {
        0 => PAGES - 1,
        1..=2 => PAGES,
        3..=8 => random.index(PAGES),
        9..=40 => random.index(24),
        41..=52 => 0,
        53..=90 => 1,
        _ => 2 + random.index(5),
    }
}

fn elements(random: &mut Random, pages: usize) -> u64 {
    let rare = if pages > 24 { 4_096 } else { 64 };
    match random.below(rare) {
        0 => random.below(2_000),
        1..=3 => (1 << random.below(9)) + random.below(3) - 1,
        4..=10 => 0,
        11..=14 => random.below(100),
        _ => random.below(18),
    }
}

/// Any number other than 0 says that a checksum follows.
fn checksum(random: &mut Random) -> u64 {
    match random.below(16) {
        0..=4 => 1,
        5 => random.pick(&[2, 4, 256, 1 << 31]),
        6 => random.pick(&[1 << 32, 1 << 33, 1 << 63]),
        7 => u64::MAX,
        _ => 0,
    }
}

impl Draft {
    fn new(column_type: u32) -> Self {
        Draft {
            column_type,
            pages: Vec::new(),
            file: Vec::new(),
        }
    }

    /// The bits of an element as it is stored; those of a byte where there are none.
    fn bits(&self) -> u64 {
        u64::from(stored_bits(self.column_type).unwrap_or(8))
    }

    fn size(&self, elements: u64) -> u64 {
        (elements * self.bits()).div_ceil(8)
    }

    /// A page behind what is in the file.
    fn append(&mut self, random: &mut Random, elements: u64, checksum: u64) {
        let page = Page {
            offset: self.file.len() as u64,
            size: self.size(elements),
            elements,
            checksum,
        };
        let mut content = random.bytes(page.size as usize);
        // Small numbers too, so that deltas and signs are not all wild.
        if random.one_in(8) {
            content.iter_mut().for_each(|byte| *byte &= 1);
        }
        if self.column_type == BIT && !elements.is_multiple_of(8) {
            if let Some(last) = content.last_mut() {
                *last &= (1 << (elements % 8)) - 1;
            }
        }
        self.file.extend(content);
        self.file.resize(self.file.len() + page.check_bytes() as usize, 0);
        page.seal(&mut self.file);
        self.pages.push(page);
    }

    /// A page whose bytes are already there, those of other pages or of any two.
    fn overlap(&mut self, random: &mut Random) {
        let offset = random.index(self.file.len() + 1);
        let left = 8 * (self.file.len() - offset) as u64 / self.bits();
        let mut elements = random.up_to(left.min(24));
        if self.column_type == BIT {
            elements -= elements % 8;
        }
        self.pages.push(Page {
            offset: offset as u64,
            size: self.size(elements),
            elements,
            checksum: 0,
        });
    }

    /// So many right pages, in any order.
    fn fill(&mut self, random: &mut Random, count: usize) {
        let (gaps, shared) = (random.one_in(3), random.one_in(3));
        while self.pages.len() < count {
            if gaps && random.one_in(2) {
                let gap = random.index(9);
                self.file.extend(random.bytes(gap));
            }
            match random.below(8) {
                0 if shared && !self.pages.is_empty() => {
                    let page = random.pick(&self.pages);
                    self.pages.push(page);
                }
                1 | 2 if shared => self.overlap(random),
                _ => {
                    let (elements, checksum) = (elements(random, count), checksum(random));
                    self.append(random, elements, checksum);
                }
            }
        }
        match random.below(4) {
            0 => self.pages.reverse(),
            1 => {
                for last in (1..self.pages.len()).rev() {
                    self.pages.swap(last, random.index(last + 1));
                }
            }
            _ => {}
        }
        if random.one_in(2) {
            let slack = random.index(12);
            self.file.extend(random.bytes(slack));
        }
    }

    /// So many pages that are small or empty, the first ones again and again.
    fn repeat(&mut self, random: &mut Random, count: usize) {
        while self.pages.len() < count {
            if self.pages.len() < 8 {
                let (elements, checksum) = (random.below(4), checksum(random));
                self.append(random, elements, checksum);
            } else {
                let page = self.pages[self.pages.len() - 8];
                self.pages.push(page);
            }
        }
    }

    /// One thing is wrong with one page, or looks as if it were.
    fn spoil(&mut self, random: &mut Random, index: usize) {
        let length = self.file.len() as u64;
        let page = &mut self.pages[index];
        match random.below(24) {
            what @ 0..=11 => page.spoil_range(random, what, length),
            // Right in the low 32 bits, or less.
            12 => page.size = page.size.wrapping_add(1 << (32 + random.below(32))),
            13 => page.elements = page.elements.wrapping_add(1 << (17 + random.below(47))),
            14 => page.elements = ELEMENTS + 1 + random.below(3),
            15 => page.elements = random.pick(&[ELEMENTS, ELEMENTS - 1, 1 << 61, u64::MAX, u64::MAX - 7]),
            16 => page.size = page.size.wrapping_add(1),
            17 => page.size = page.size.wrapping_sub(1),
            18 => page.elements = page.elements.wrapping_add(random.pick(&[1, u64::MAX, 8])),
            19 => page.checksum = if page.checksum == 0 { checksum(random).max(1) } else { 0 },
            20 => {
                page.checksum = page.checksum.max(1);
                page.seal(&mut self.file);
                let at = page.offset.saturating_add(page.size).saturating_add(random.below(4));
                if let Some(byte) = self.file.get_mut(at as usize) {
                    *byte ^= 1 << random.below(8);
                }
            }
            21 => {
                if let Some([first, ..]) = page.content(&mut self.file) {
                    *first ^= 1 << random.below(8);
                }
            }
            _ => self.set_unused(random, index),
        }
    }

    /// Sets an unused bit of a Bit page; its check bytes are right.
    fn set_unused(&mut self, random: &mut Random, index: usize) {
        let page = self.pages[index];
        let used = page.elements % 8;
        if self.column_type != BIT || used == 0 {
            return;
        }
        if let Some([.., last]) = page.content(&mut self.file) {
            *last |= 1 << (used + random.below(8 - used));
            page.seal(&mut self.file);
        }
    }
}

/// Large columns and ends of what there may be; the first cases of a period.
fn edge(random: &mut Random, place: u64) -> Option<Draft> {
    let mut draft = Draft::new(known_type(random));
    match place {
        // Each type at the ceiling of elements, behind another page.
        0..=27 => {
            draft.column_type = if place as u32 + 1 == SWITCH {
                BIT
            } else {
                place as u32 + 1
            };
            let (elements, checksum) = (random.below(4), checksum(random));
            draft.append(random, elements, checksum);
            draft.append(random, ELEMENTS, checksum);
        }
        // More elements together than one page may have.
        28 | 29 => {
            draft.append(random, ELEMENTS, place - 28);
            draft.pages.push(draft.pages[0]);
            draft.append(random, 1, 0);
        }
        30..=33 => {
            for _ in 0..PAGES {
                let elements = 500 + random.below(24);
                draft.append(random, elements, place % 2);
            }
        }
        // One element too many, at the end of a column.
        34 | 35 => {
            draft.fill(random, 3);
            draft.append(random, ELEMENTS + place - 34, 0);
        }
        // So many pages that a count of them has no room in 8 or 16 bits.
        36..=47 => {
            let count = [254, 255, 256, 257, 258, 300, 511, 512, 513, 1_024, 65_536, 65_537][place as usize - 36];
            draft.repeat(random, count);
        }
        _ => return None,
    }
    Some(draft)
}

/// A column of any pages, as many as there may be or a little more at times.
fn any(random: &mut Random) -> Draft {
    let mut draft = Draft::new(known_type(random));
    let count = page_count(random);
    draft.fill(random, count);
    if random.one_in(96) {
        let count = PAGES + random.index(3);
        draft.repeat(random, count);
    }
    draft
}

impl Generator {
    pub fn column_case(&mut self) -> ColumnCase {
        let random = &mut self.random;
        let edge = edge(random, self.place);
        let faults = edge.is_none();
        let mut draft = edge.unwrap_or_else(|| any(random));
        // What a column without faults needs; a wrong page may ask for more.
        let needed = draft.pages.iter().take(PAGES + 1).map(|page| page.elements).sum();
        let wrong = random.pick(&[0, 0, 0, 1, 1, 1, 1, 2, 4]);
        if faults && !draft.pages.is_empty() {
            for _ in 0..wrong {
                let index = random.index(draft.pages.len());
                draft.spoil(random, index);
            }
        }
        let mut column_type = draft.column_type;
        if random.one_in(24) {
            column_type = other_type(random, column_type);
        }
        let mut pages: Vec<u64> = draft.pages.iter().flat_map(Page::row).collect();
        // Left over words, at times those of a row that would be right.
        if random.one_in(3) {
            let row = draft.pages.first().copied().unwrap_or_default().row();
            let left = 1 + random.index(ROW_WORDS - 1);
            pages.extend(&row[..left]);
        }
        ColumnCase {
            column_type,
            pages,
            words: column_room(random, &draft.pages, needed),
            file: draft.file,
            result: random.pick(&[0, 2, 2, 64, 1, 1, 1, 1, 1, 1, 1, 1, 1, 1, 1, 1]),
        }
    }
}

/// The lent words: mostly enough, at times not.
fn column_room(random: &mut Random, pages: &[Page], needed: u64) -> usize {
    let exact = needed.min(4 * ELEMENTS) as usize;
    match random.below(32) {
        0 | 1 => exact.saturating_sub(1),
        2 => 0,
        3 => random.index(exact + 1),
        // Room for all pages but the last, or for the largest alone.
        4 => exact.saturating_sub(pages.last().map_or(0, |page| page.elements.min(ELEMENTS) as usize)),
        5 => pages
            .iter()
            .map(|page| page.elements.min(ELEMENTS) as usize)
            .max()
            .unwrap_or(0),
        6..=18 => exact,
        19 => exact + 300,
        _ => exact + random.index(40),
    }
}

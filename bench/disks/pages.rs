//! The words of a disk by pages of 16 sectors, in slots that stand in the order of the pages' first writes, as `crates/model_disks/src/pages.rt` keeps
//! them: zeros are set only in pages that are written.

const SECTORS: usize = 16;
const WORDS: usize = 64 * SECTORS;

pub struct Pages {
    words: Vec<u64>,
    /// The slot of each page.
    slots: Vec<usize>,
    /// The page in each slot.
    owners: Vec<usize>,
}

impl Pages {
    /// Room for the pages of so many sectors, of which none has words.
    pub fn open(sectors: usize) -> Pages {
        let count = sectors.div_ceil(SECTORS);
        Pages { words: Vec::with_capacity(WORDS * count), slots: (0..count).collect(), owners: (0..count).collect() }
    }

    /// The slot of a page, which has words from now on.
    fn kept_slot(&mut self, page: usize) -> usize {
        let (slot, used) = (self.slots[page], self.words.len() / WORDS);
        if slot < used {
            return slot;
        }
        self.slots.swap(page, self.owners[used]);
        self.owners.swap(slot, used);
        self.words.resize(WORDS * (used + 1), 0);
        used
    }

    /// Writes words that count up from `word` to so many sectors.
    pub fn write(&mut self, start: usize, len: usize, word: u64) {
        let mut done = 0;
        while done < len {
            let at = start + done;
            let more = (SECTORS - at % SECTORS).min(len - done);
            let from = WORDS * self.kept_slot(at / SECTORS) + 64 * (at % SECTORS);
            let first = word.wrapping_add(64 * done as u64);
            for (i, place) in self.words[from..from + 64 * more].iter_mut().enumerate() {
                *place = first.wrapping_add(i as u64);
            }
            done += more;
        }
    }

    pub fn sector(&self, at: usize) -> &[u64] {
        let from = WORDS * self.slots[at / SECTORS] + 64 * (at % SECTORS);
        self.words.get(from..from + 64).unwrap_or(&[0; 64])
    }
}

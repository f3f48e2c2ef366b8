//! A buffer pool in plain Rust, over one device in memory: it finds its pages by a `HashMap`, and the victim by a contest of ranks.

use super::hist::Page;
use super::rank::Rank;
use std::collections::HashMap;
use std::hash::{BuildHasher, BuildHasherDefault, Hasher};
use std::ops::Range;

/// The rank of the page in each frame, and the frame of the least of those that may be evicted.
pub trait Contest {
    fn new(frames: usize) -> Self;
    fn rank(&self, frame: u32) -> Rank;
    /// Gives a frame another rank, which also says whether its page is pinned.
    fn set(&mut self, frame: u32, rank: Rank);
    /// Makes the page of a frame pinned, or evictable.
    fn hold(&mut self, frame: u32, stays: bool) {
        self.set(frame, self.rank(frame).staying(stays));
    }
    fn least(&self) -> Option<u32>;
    fn clear(&mut self);
}

/// A winner tree: node 1 is the root, node j is the parent of nodes 2j and 2j + 1, and the last nodes are the frames in order.
pub struct Winners {
    ranks: Vec<Rank>,
    nodes: Vec<u32>,
}

impl Winners {
    fn winner(&self, a: u32, b: u32) -> u32 {
        let (first, second) = (&self.ranks[a as usize], &self.ranks[b as usize]);
        let is_second = if first.stays == second.stays { second < first } else { first.stays };
        if is_second { b } else { a }
    }

    // Plays the matches above a frame, up to one whose winner is as before and is another frame.
    fn replay(&mut self, frame: u32) {
        let mut node = (self.ranks.len() + frame as usize) / 2;
        while node > 0 {
            let before = self.nodes[node];
            let now = self.winner(self.nodes[2 * node], self.nodes[2 * node + 1]);
            if now == before && now != frame {
                return;
            }
            self.nodes[node] = now;
            node /= 2;
        }
    }
}

impl Contest for Winners {
    fn new(frames: usize) -> Winners {
        let mut nodes = vec![0; 2 * frames];
        for frame in 0..frames {
            nodes[frames + frame] = frame as u32;
        }
        for node in (1..frames).rev() {
            nodes[node] = nodes[2 * node];
        }
        Winners { ranks: vec![Rank::EMPTY; frames], nodes }
    }

    fn rank(&self, frame: u32) -> Rank {
        self.ranks[frame as usize]
    }

    fn set(&mut self, frame: u32, rank: Rank) {
        self.ranks[frame as usize] = rank;
        self.replay(frame);
    }

    fn hold(&mut self, frame: u32, stays: bool) {
        self.ranks[frame as usize].stays = stays;
        self.replay(frame);
    }

    fn least(&self) -> Option<u32> {
        let first = self.nodes[1];
        (!self.ranks[first as usize].stays).then_some(first)
    }

    fn clear(&mut self) {
        self.ranks.fill(Rank::EMPTY);
        for node in (1..self.ranks.len()).rev() {
            self.nodes[node] = self.nodes[2 * node];
        }
    }
}

/// Multiplies the hashed number, and rotates it at the end, since a map uses the lower bits.
#[derive(Default)]
pub struct Mixed(u64);

impl Hasher for Mixed {
    fn finish(&self) -> u64 {
        self.0.rotate_left(26)
    }

    fn write(&mut self, bytes: &[u8]) {
        for byte in bytes {
            self.write_u64(u64::from(*byte));
        }
    }

    fn write_u16(&mut self, number: u16) {
        self.write_u64(u64::from(number));
    }

    fn write_u64(&mut self, number: u64) {
        self.0 = self.0.wrapping_add(number).wrapping_mul(0xF135_7AEA_2E62_A9C5);
    }
}

pub type MixedState = BuildHasherDefault<Mixed>;

#[derive(Clone, Copy)]
struct Frame {
    generation: u64,
    fixes: u32,
    is_dirty: bool,
}

/// A frame, and its generation: how many pages were loaded into it.
#[derive(Clone, Copy)]
pub struct Slot {
    pub index: u32,
    pub generation: u64,
}

/// Why something is refused, as it is printed.
pub type Refusal = &'static str;

pub struct Pool<S = MixedState, C = Winners> {
    page_size: usize,
    pages: u64,
    device: Vec<u8>,
    frames: Vec<Frame>,
    bytes: Vec<u8>,
    // The first frames, this many, hold pages: no frame is emptied separately.
    used: usize,
    index: HashMap<Page, u32, S>,
    contest: C,
}

impl Pool {
    pub fn new(frames: usize, pages: u64, page_size: usize) -> Pool {
        Pool::over(frames, page_size, vec![0; pages as usize * page_size])
    }
}

impl<S: BuildHasher + Default, C: Contest> Pool<S, C> {
    /// A pool over a device of these bytes.
    pub fn over(frames: usize, page_size: usize, device: Vec<u8>) -> Pool<S, C> {
        Pool {
            page_size,
            pages: (device.len() / page_size) as u64,
            device,
            frames: vec![Frame { generation: 0, fixes: 0, is_dirty: false }; frames],
            bytes: vec![0; frames * page_size],
            used: 0,
            index: HashMap::with_capacity_and_hasher(frames, S::default()),
            contest: C::new(frames),
        }
    }

    pub fn len(&self) -> usize {
        self.frames.len()
    }

    /// Whether the device has the page, and it is in no frame.
    pub fn is_loadable(&self, page: Page) -> bool {
        self.check(page).is_ok() && !self.index.contains_key(&page)
    }

    /// The rank of the next victim. `None` where a frame is free, or no page may be evicted.
    pub fn leaving(&self) -> Option<Rank> {
        if self.used < self.frames.len() {
            return None;
        }
        self.contest.least().map(|at| self.contest.rank(at))
    }

    pub fn victim(&self) -> Option<Page> {
        self.contest.least().map(|at| self.contest.rank(at).page())
    }

    fn check(&self, page: Page) -> Result<(), Refusal> {
        if page.dev != 0 {
            return Err("4 NoDevice");
        }
        if page.no >= self.pages {
            return Err("5 NoPage");
        }
        Ok(())
    }

    // The frame into which a page is loaded.
    fn place(&self) -> Result<u32, Refusal> {
        let at = if self.used < self.frames.len() { self.used as u32 } else { self.contest.least().ok_or("6 AllFixed")? };
        if self.frames[at as usize].generation == u64::MAX {
            return Err("9 FixesFull");
        }
        Ok(at)
    }

    fn within(&self, at: u32) -> Range<usize> {
        let from = at as usize * self.page_size;
        from..from + self.page_size
    }

    fn on_device(&self, no: u64) -> Range<usize> {
        let from = no as usize * self.page_size;
        from..from + self.page_size
    }

    fn write_back(&mut self, at: u32) {
        let frame = &mut self.frames[at as usize];
        if frame.is_dirty {
            frame.is_dirty = false;
            let to = self.on_device(self.contest.rank(at).no());
            let from = self.within(at);
            self.device[to].copy_from_slice(&self.bytes[from]);
        }
    }

    // Loads a page that the device has and that is in no frame, with this pin count.
    fn bring(&mut self, rank: Rank, fixes: u32) -> Result<Slot, Refusal> {
        let index = self.place()?;
        if (index as usize) < self.used {
            self.write_back(index);
            self.index.remove(&self.contest.rank(index).page());
        } else {
            self.used += 1;
        }
        let (from, to) = (self.on_device(rank.no()), self.within(index));
        self.bytes[to].copy_from_slice(&self.device[from]);
        self.index.insert(rank.page(), index);
        self.contest.set(index, rank.staying(fixes > 0));
        let frame = &mut self.frames[index as usize];
        frame.generation += 1;
        frame.fixes = fixes;
        Ok(Slot { index, generation: frame.generation })
    }

    /// Loads a page that is in no frame, without a pin.
    pub fn load(&mut self, rank: Rank) -> Result<Slot, Refusal> {
        self.check(rank.page())?;
        self.bring(rank, 0)
    }

    /// Pins a page. Its rank is requested where it is in no frame.
    pub fn pin(&mut self, page: Page, rank: impl FnOnce() -> Rank) -> Result<Slot, Refusal> {
        self.check(page)?;
        let Some(&index) = self.index.get(&page) else {
            return self.bring(rank(), 1);
        };
        let frame = &mut self.frames[index as usize];
        frame.fixes = frame.fixes.checked_add(1).ok_or("9 FixesFull")?;
        if frame.fixes == 1 {
            self.contest.hold(index, true);
        }
        Ok(Slot { index, generation: frame.generation })
    }

    /// Whether the slot's page is still there, and pinned.
    pub fn holds(&self, slot: Slot) -> bool {
        self.frames.get(slot.index as usize).is_some_and(|frame| frame.generation == slot.generation && frame.fixes > 0)
    }

    /// Requires a slot that holds its page.
    pub fn unpin(&mut self, slot: Slot) {
        let frame = &mut self.frames[slot.index as usize];
        frame.fixes -= 1;
        if frame.fixes == 0 {
            self.contest.hold(slot.index, false);
        }
    }

    fn part(&self, slot: Slot, at: usize, len: usize) -> Result<Range<usize>, Refusal> {
        if at > self.page_size || len > self.page_size - at {
            return Err("10 OutOfPage");
        }
        let from = slot.index as usize * self.page_size + at;
        Ok(from..from + len)
    }

    /// Requires a slot that holds its page.
    pub fn read(&self, slot: Slot, at: usize, len: usize) -> Result<&[u8], Refusal> {
        Ok(&self.bytes[self.part(slot, at, len)?])
    }

    /// Requires a slot that holds its page.
    pub fn write(&mut self, slot: Slot, at: usize, bytes: &[u8]) -> Result<(), Refusal> {
        let part = self.part(slot, at, bytes.len())?;
        self.bytes[part].copy_from_slice(bytes);
        self.frames[slot.index as usize].is_dirty = true;
        Ok(())
    }

    /// Updates the rank of a page in its frame.
    #[inline]
    pub fn refresh(&mut self, page: Page, rank: impl FnOnce() -> Rank) {
        if let Some(&at) = self.index.get(&page) {
            self.renew(at, rank());
        }
    }

    fn renew(&mut self, at: u32, rank: Rank) {
        let stays = self.frames[at as usize].fixes > 0;
        self.contest.set(at, rank.staying(stays));
    }

    /// All pages in frames are ranked again.
    pub fn refresh_all(&mut self, rank: impl Fn(Page) -> Rank) {
        for at in 0..self.used as u32 {
            self.renew(at, rank(self.contest.rank(at).page()));
        }
    }

    pub fn write_back_all(&mut self) {
        for at in 0..self.used as u32 {
            self.write_back(at);
        }
    }

    /// Writes back each dirty page, and evicts all pages.
    pub fn empty(&mut self) -> Result<(), Refusal> {
        if self.frames.iter().any(|frame| frame.fixes > 0) {
            return Err("11 Fixed");
        }
        self.write_back_all();
        self.used = 0;
        self.index.clear();
        self.contest.clear();
        Ok(())
    }
}

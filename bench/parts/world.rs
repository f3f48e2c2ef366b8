//! A world in plain Rust: replicas with the buffers of their workers, and the frames that they sent. All are numbered from 1.

use super::hist::{Entry, Page, Stamp};
use super::node::Node;
use super::pool::{Pool, Refusal};

pub const WORKERS: usize = 2;
const ROOM: usize = 64;

/// The settings of the setup file.
#[derive(Clone, Copy)]
pub struct Setup {
    pub replicas: usize,
    pub frames: usize,
    pub pages: u64,
    pub page_size: usize,
}

impl Setup {
    /// The settings of this many replicas, and otherwise the defaults.
    pub fn of(replicas: usize) -> Setup {
        Setup { replicas, frames: 4, pages: 256, page_size: 16 }
    }
}

pub struct Replica {
    number: u16,
    pub node: Node,
    buffers: [Vec<(Page, u64)>; WORKERS],
}

impl Replica {
    fn new(number: u16, setup: Setup) -> Replica {
        let node = Node::new(number, Pool::new(setup.frames, setup.pages, setup.page_size));
        Replica { number, node, buffers: std::array::from_fn(|_| Vec::with_capacity(ROOM)) }
    }

    /// A full buffer is flushed first.
    #[inline]
    pub fn refer(&mut self, worker: usize, page: Page, time: u64) -> Result<(), Refusal> {
        let buffer = self.buffers.get_mut(worker.wrapping_sub(1)).ok_or("15 NoSuchWorker")?;
        if buffer.len() == ROOM {
            flush(buffer, &mut self.node, self.number);
        }
        buffer.push((page, time));
        Ok(())
    }

    pub fn flush(&mut self, worker: usize) -> Result<(), Refusal> {
        let buffer = self.buffers.get_mut(worker.wrapping_sub(1)).ok_or("15 NoSuchWorker")?;
        flush(buffer, &mut self.node, self.number);
        Ok(())
    }
}

fn flush(buffer: &mut Vec<(Page, u64)>, node: &mut Node, replica: u16) {
    for (page, time) in buffer.drain(..) {
        node.see(page, Stamp { time, replica });
    }
}

pub struct World {
    replicas: Vec<Replica>,
    pub frames: Vec<Vec<u8>>,
    carried: Vec<Entry>,
}

impl World {
    pub fn new(setup: Setup) -> World {
        let replicas = (1..=setup.replicas as u16).map(|number| Replica::new(number, setup)).collect();
        World { replicas, frames: Vec::new(), carried: Vec::new() }
    }

    pub fn replica(&mut self, number: usize) -> Result<&mut Replica, Refusal> {
        self.replicas.get_mut(number.wrapping_sub(1)).ok_or("14 NoSuchReplica")
    }

    fn keep(&mut self, frame: Vec<u8>) -> u64 {
        self.frames.push(frame);
        self.frames.len() as u64
    }

    /// The number of the sent frame.
    pub fn send(&mut self, number: usize, bucket: usize, after: Option<Page>) -> Result<u64, Refusal> {
        let mut carried = std::mem::take(&mut self.carried);
        let frame = self.replica(number)?.node.send(bucket, after, &mut carried);
        self.carried = carried;
        Ok(self.keep(frame))
    }

    /// The number of the sent frame.
    pub fn offer(&mut self, number: usize) -> Result<u64, Refusal> {
        let frame = self.replica(number)?.node.offer();
        Ok(self.keep(frame))
    }

    /// The number of answering frames, and the number of the first where there is one.
    pub fn deliver(&mut self, number: usize, frame: u64) -> Result<(u64, u64), Refusal> {
        let World { replicas, frames, .. } = self;
        let replica = replicas.get_mut(number.wrapping_sub(1)).ok_or("14 NoSuchReplica")?;
        let bytes = frames.get((frame as usize).wrapping_sub(1)).ok_or("16 NoSuchFrame")?;
        let mut answers = replica.node.receive(bytes);
        let first = frames.len() as u64 + 1;
        let count = answers.len() as u64;
        frames.append(&mut answers);
        Ok((count, first))
    }

    /// Writes back all pages.
    pub fn finish(&mut self) {
        for replica in &mut self.replicas {
            replica.node.pool.write_back_all();
        }
    }
}

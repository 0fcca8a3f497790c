//! Temporary storage queues (document 01, "Queue rules").

use crate::bounds::{ITEMS, QUEUES};
use crate::conditions::Condition;
use crate::names::QueueName;
use crate::piece::Piece;

/// "A queue is a row of items, places from 1, and a pointer, 0 at first."
#[derive(Debug)]
struct Queue {
    name: QueueName,
    /// The slot of the item at each place; place 1 comes first.
    slots: Vec<u8>,
    pointer: usize,
}

/// All queues, and the slots that their items share.
#[derive(Debug)]
pub struct Queues {
    queues: Vec<Queue>,
    store: Store,
}

impl Queues {
    /// No queues, and every slot free.
    pub fn fresh() -> Self {
        Queues { queues: Vec::with_capacity(QUEUES), store: Store::fresh() }
    }

    /// Command 10: adds the item at the end and gives its place.
    /// "10 if blank, 4 length not 1..64, 1".
    pub fn append(&mut self, name: QueueName, item: &[u8]) -> Result<u32, Condition> {
        name.refuse_blank()?;
        let item = item_of(item)?;
        // "Where both hold, the first decides": with 16 queues an unknown name
        // is refused here, and no queue is made.
        let queue = match self.position(name) {
            Some(queue) => queue,
            None => self.make(name)?,
        };
        // "In the second case an unknown name is made an empty queue": it was
        // made above, and stays.
        let slot = self.store.take(item).ok_or(Condition::NoSpace)?;
        let slots = &mut self.queues[queue].slots;
        slots.push(slot);
        Ok(slots.len() as u32)
    }

    /// Command 11: gives the item behind the pointer. "10 if blank, 2, 3".
    pub fn read_next(&mut self, name: QueueName) -> Result<Piece, Condition> {
        let queue = self.find(name)?;
        let place = self.queues[queue].pointer + 1;
        self.read(queue, place)
    }

    /// Command 12: gives the item at the place. "10 if blank, 2, 3".
    pub fn read_at(&mut self, name: QueueName, place: u16) -> Result<Piece, Condition> {
        let queue = self.find(name)?;
        self.read(queue, usize::from(place))
    }

    /// Both reads set the pointer to the item given. The room is the caller's
    /// concern, so a cut read moves the pointer like any other.
    fn read(&mut self, queue: usize, place: usize) -> Result<Piece, Condition> {
        let slot = self.slot(queue, place)?;
        self.queues[queue].pointer = place;
        Ok(self.store.item(slot))
    }

    /// Command 13: puts another item at the place and keeps the pointer.
    /// "10 if blank, 4 length not 1..64, 2, 3".
    pub fn rewrite(&mut self, name: QueueName, place: u16, item: &[u8]) -> Result<(), Condition> {
        name.refuse_blank()?;
        let item = item_of(item)?;
        let queue = self.find(name)?;
        let slot = self.slot(queue, usize::from(place))?;
        self.store.replace(slot, item);
        Ok(())
    }

    /// Command 14: frees every place and gives the number of items freed.
    /// "10 if blank, 2".
    pub fn delete(&mut self, name: QueueName) -> Result<u32, Condition> {
        let queue = self.find(name)?;
        let removed = self.queues.swap_remove(queue);
        for &slot in &removed.slots {
            self.store.free(slot);
        }
        Ok(removed.slots.len() as u32)
    }

    /// The names of the queues there are.
    pub fn names(&self) -> impl Iterator<Item = QueueName> + '_ {
        self.queues.iter().map(|queue| queue.name)
    }

    /// How many queues there are.
    pub fn count(&self) -> usize {
        self.queues.len()
    }

    /// How many items a queue holds and where its pointer stands.
    pub fn state(&self, name: QueueName) -> Option<(usize, usize)> {
        let queue = &self.queues[self.position(name)?];
        Some((queue.slots.len(), queue.pointer))
    }

    /// How many of the 128 slots are in use.
    pub fn items_used(&self) -> usize {
        self.store.used()
    }

    fn position(&self, name: QueueName) -> Option<usize> {
        self.queues.iter().position(|queue| queue.name == name)
    }

    /// Where the named queue stands: "10 if blank, 2".
    fn find(&self, name: QueueName) -> Result<usize, Condition> {
        name.refuse_blank()?;
        self.position(name).ok_or(Condition::UnknownQueue)
    }

    /// The slot of the item at a place; 3 for place 0 and beyond the last.
    fn slot(&self, queue: usize, place: usize) -> Result<u8, Condition> {
        let slots = &self.queues[queue].slots;
        let before = place.checked_sub(1).ok_or(Condition::NoSuchItem)?;
        slots.get(before).copied().ok_or(Condition::NoSuchItem)
    }

    /// Makes an empty queue unless 16 exist.
    fn make(&mut self, name: QueueName) -> Result<usize, Condition> {
        if self.queues.len() == QUEUES {
            return Err(Condition::NoSpace);
        }
        self.queues.push(Queue { name, slots: Vec::new(), pointer: 0 });
        Ok(self.queues.len() - 1)
    }
}

/// The bytes as an item: "4 length not 1..64".
fn item_of(bytes: &[u8]) -> Result<Piece, Condition> {
    Piece::copy_of(bytes).filter(|item| !item.is_empty()).ok_or(Condition::Length)
}

/// The 128 slots. "The occupancy of the 128 slots is two 64-bit words; an item
/// takes the lowest free slot."
#[derive(Debug)]
struct Store {
    occupied: [u64; 2],
    items: Vec<Piece>,
}

impl Store {
    fn fresh() -> Self {
        Store { occupied: [0; 2], items: vec![Piece::EMPTY; ITEMS] }
    }

    fn take(&mut self, item: Piece) -> Option<u8> {
        let word = self.occupied.iter().position(|&word| word != u64::MAX)?;
        let bit = self.occupied[word].trailing_ones();
        self.occupied[word] |= 1 << bit;
        let slot = word * 64 + bit as usize;
        self.items[slot] = item;
        Some(slot as u8)
    }

    /// Room is counted by the bits set now, not by items ever written.
    fn free(&mut self, slot: u8) {
        self.occupied[usize::from(slot) / 64] &= !(1 << (slot % 64));
    }

    fn replace(&mut self, slot: u8, item: Piece) {
        self.items[usize::from(slot)] = item;
    }

    fn item(&self, slot: u8) -> Piece {
        self.items[usize::from(slot)]
    }

    fn used(&self) -> usize {
        let ones = self.occupied.map(u64::count_ones);
        (ones[0] + ones[1]) as usize
    }
}

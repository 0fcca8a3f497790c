//! A run of 0..64 bytes: an item, start data, or the bytes of an answer.

use crate::bounds::PIECE;

/// At most 64 bytes, held in place so that no item needs an allocation.
#[derive(Clone, Copy)]
pub struct Piece {
    length: u8,
    bytes: [u8; PIECE],
}

impl Piece {
    /// No bytes at all.
    pub const EMPTY: Piece = Piece { length: 0, bytes: [0; PIECE] };

    /// A copy of `bytes`, or nothing if they are more than 64.
    pub fn copy_of(bytes: &[u8]) -> Option<Piece> {
        let mut piece = Piece::EMPTY;
        piece.bytes.get_mut(..bytes.len())?.copy_from_slice(bytes);
        piece.length = bytes.len() as u8; // at most 64, as the line above found
        Some(piece)
    }

    /// The first `room` bytes, or all where there are no more than that.
    pub fn cut_to(&self, room: u8) -> Piece {
        Piece { length: self.length.min(room), bytes: self.bytes }
    }

    /// The bytes.
    pub fn bytes(&self) -> &[u8] {
        &self.bytes[..usize::from(self.length)]
    }

    /// How many bytes there are.
    pub fn length(&self) -> u8 {
        self.length
    }

    /// Whether there are no bytes.
    pub fn is_empty(&self) -> bool {
        self.length == 0
    }
}

/// Two pieces are equal when their bytes are, whatever lies behind a cut.
impl PartialEq for Piece {
    fn eq(&self, other: &Piece) -> bool {
        self.bytes() == other.bytes()
    }
}

impl Eq for Piece {}

impl std::fmt::Debug for Piece {
    fn fmt(&self, f: &mut std::fmt::Formatter) -> std::fmt::Result {
        write!(f, "{:02x?}", self.bytes())
    }
}

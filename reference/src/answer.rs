//! What a call gives back: an answer, or a refusal with the record at fault.

/// A number of the document's table.
pub type Number = u8;

/// The index of a result that no difference decided.
pub const NONE_DECIDED: u16 = 65_535;

/// An answer that is no refusal.
#[derive(Clone, Debug, PartialEq, Eq)]
pub struct Answer {
    pub number: Number,
    /// Pieces visited, or the ceiling.
    pub count: u32,
    /// The bytes written.
    pub bytes: Vec<u8>,
    /// The number of the difference, or of inclusion's piece, that decided; else `NONE_DECIDED`.
    pub index: u16,
}

/// A refusal. Parts that do not apply are 0.
#[derive(Clone, Copy, Debug, PartialEq, Eq)]
pub struct Refusal {
    pub number: Number,
    pub operand: u8,
    /// Where the record at fault starts; a place beyond the end of a file can be any number.
    pub offset: u64,
}

pub type Outcome = Result<Answer, Refusal>;

impl Answer {
    /// A yes or no that no difference decided.
    pub fn yes_or_no(yes: bool) -> Answer {
        let number = if yes { 1 } else { 2 };
        Answer { number, count: 0, bytes: Vec::new(), index: NONE_DECIDED }
    }

    /// Yes by the first difference that has the header, or no if none has.
    pub fn member(first: Option<usize>) -> Answer {
        match first {
            Some(difference) => Answer { index: index(difference), ..Answer::yes_or_no(true) },
            None => Answer::yes_or_no(false),
        }
    }

    pub fn ceiling(count: u32) -> Answer {
        Answer { number: 0, count, bytes: Vec::new(), index: NONE_DECIDED }
    }

    /// The bytes as written to a buffer with this room.
    pub fn written(bytes: Vec<u8>, room: usize) -> Outcome {
        needs_room(bytes.len(), room)?;
        Ok(Answer { number: 0, count: 0, bytes, index: NONE_DECIDED })
    }
}

/// A difference's or a piece's number as a result has it.
pub fn index(number: usize) -> u16 {
    u16::try_from(number).expect("an index has two bytes")
}

impl Refusal {
    /// A refusal that no record is at fault for.
    pub fn plain(number: Number) -> Refusal {
        Refusal { number, operand: 0, offset: 0 }
    }

    /// The refusal of a lent cube, or of the record at this offset, in this operand.
    pub fn at(number: Number, operand: u8, offset: usize) -> Refusal {
        Refusal { number, operand, offset: offset as u64 }
    }
}

pub fn needs_room(length: usize, room: usize) -> Result<(), Refusal> {
    if room < length {
        return Err(Refusal::plain(22));
    }
    Ok(())
}

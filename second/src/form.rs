//! The two forms of a round, which its head tells.

/// How wide entries and seats are, and how many institutes there may be.
#[derive(Clone, Copy, Debug, PartialEq, Eq, PartialOrd, Ord, Hash)]
pub enum Form {
    /// Under a head of kind 1: an institute has one byte.
    Narrow,
    /// Under a head of kind 5: an institute has two bytes.
    Wide,
}

/// The most entries of a row.
pub const MOST_ENTRIES: usize = 16;

impl Form {
    /// Both forms.
    pub const BOTH: [Form; 2] = [Form::Narrow, Form::Wide];

    /// The form that a head of this kind tells, if there is one.
    pub fn told(kind: usize) -> Option<Form> {
        Form::BOTH.into_iter().find(|form| form.head() == kind)
    }

    /// The kind of the head.
    pub fn head(self) -> usize {
        match self {
            Form::Narrow => 1,
            Form::Wide => 5,
        }
    }

    /// The kind of a candidate's record.
    pub fn candidate(self) -> usize {
        match self {
            Form::Narrow => 3,
            Form::Wide => 6,
        }
    }

    /// The most institutes of a round.
    pub fn most_institutes(self) -> usize {
        match self {
            Form::Narrow => 32,
            Form::Wide => 1000,
        }
    }

    /// The bytes of an institute's number.
    pub fn institute_bytes(self) -> usize {
        match self {
            Form::Narrow => 1,
            Form::Wide => 2,
        }
    }

    /// The bytes of an entry: institute and code.
    pub fn entry_bytes(self) -> usize {
        self.institute_bytes() + 1
    }

    /// The bytes of a seat: institute, step and, in the wide form, a zero byte.
    pub fn seat_bytes(self) -> usize {
        match self {
            Form::Narrow => 2,
            Form::Wide => 4,
        }
    }

    /// Whether a candidate's body may have this length: code, marks and 0 to 16 entries.
    pub fn allows(self, length: usize) -> bool {
        (0..=MOST_ENTRIES).any(|entries| length == 2 + entries * self.entry_bytes())
    }

    /// The institute's number that stands at the start of an entry or a seat.
    pub fn institute(self, bytes: &[u8]) -> usize {
        let number = bytes[..self.institute_bytes()].iter().rev();
        number.fold(0, |number, &byte| 256 * number + usize::from(byte))
    }

    /// The bytes of an institute's number.
    pub fn number(self, institute: usize) -> Vec<u8> {
        (institute as u16).to_le_bytes()[..self.institute_bytes()].to_vec()
    }
}

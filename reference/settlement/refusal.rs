//! Refusals: a layer, a row of the table in docs/REFUSALS.md, and a subject.

#[derive(Clone, Copy, Debug, PartialEq, Eq)]
pub struct Refusal {
    /// `S` splitting, `H` hour, `F` file.
    pub layer: char,
    pub row: u32,
    pub subject: u64,
}

impl Refusal {
    pub fn by_hour(row: u32, subject: u32) -> Refusal {
        Refusal { layer: 'H', row, subject: u64::from(subject) }
    }

    pub fn by_rule(row: u32) -> Refusal {
        Refusal { layer: 'S', row, subject: 0 }
    }

    /// Row 19: a line breaks at this place, or place 0 for an oversized file.
    pub fn ill_formed(place: usize) -> Refusal {
        Refusal { layer: 'F', row: 19, subject: place as u64 }
    }
}

/// One reason in the list of a call: refused if it fits. The first that fits counts.
pub fn refuse_if(fits: bool, refusal: Refusal) -> Result<(), Refusal> {
    if fits { Err(refusal) } else { Ok(()) }
}

//! Literals, sets of literals, and the width at which these and name masks are stored.

/// Literal 2e is entry e, literal 2e+1 its complement.
pub type Literal = u8;

/// The other literal of the same entry.
pub fn opposite(l: Literal) -> Literal {
    l ^ 1
}

/// How labels and name masks are stored. Only the number of entries in the table decides.
#[derive(Clone, Copy, PartialEq, Eq, Debug)]
pub enum Width {
    Narrow,
    Wide,
}

pub const WIDTHS: [Width; 2] = [Width::Narrow, Width::Wide];

impl Width {
    /// Above 32 entries the stored forms are the wide ones.
    pub fn of_table(entries: usize) -> Width {
        match entries > 32 {
            false => Width::Narrow,
            true => Width::Wide,
        }
    }

    /// The bytes of a label.
    pub fn label(self) -> usize {
        match self {
            Width::Narrow => 8,
            Width::Wide => 16,
        }
    }

    /// The bytes of a name mask.
    pub fn names(self) -> usize {
        match self {
            Width::Narrow => 4,
            Width::Wide => 8,
        }
    }

    pub fn other(self) -> Width {
        match self {
            Width::Narrow => Width::Wide,
            Width::Wide => Width::Narrow,
        }
    }
}

/// A set of literals; bit L stands for literal L.
#[derive(Clone, Copy, PartialEq, Eq, Debug, Default)]
pub struct Label(pub u128);

impl Label {
    /// A label of 8 or 16 bytes, high byte first.
    pub fn read(bytes: &[u8]) -> Label {
        Label(bytes.iter().fold(0, |bits, &b| bits << 8 | b as u128))
    }

    /// The stored bytes. A damaged label may have literals that the width cuts off.
    pub fn bytes(self, width: Width) -> Vec<u8> {
        self.0.to_be_bytes()[16 - width.label()..].to_vec()
    }

    pub fn of(literals: &[Literal]) -> Label {
        literals.iter().fold(Label(0), |label, &l| label.with(l))
    }

    pub fn has(self, l: Literal) -> bool {
        l < 128 && self.0 >> l & 1 == 1
    }

    /// The literals of the label, rising.
    pub fn literals(self) -> Vec<Literal> {
        (0..128).filter(|&l| self.has(l)).collect()
    }

    pub fn with(self, l: Literal) -> Label {
        Label(self.0 | 1 << l)
    }

    pub fn without(self, l: Literal) -> Label {
        Label(self.0 & !(1 << l))
    }

    pub fn join(self, other: Label) -> Label {
        Label(self.0 | other.0)
    }

    /// Every literal of this label is one of the other.
    pub fn within(self, other: Label) -> bool {
        self.0 & !other.0 == 0
    }

    /// All literals belong to a table of that many entries.
    pub fn in_table(self, entries: usize) -> bool {
        (0..128).all(|l| !self.has(l) || (l as usize) < 2 * entries)
    }

    /// Some entry stands in the label with its complement.
    pub fn clashes(self) -> bool {
        (0..64).any(|e| self.has(2 * e) && self.has(2 * e + 1))
    }
}

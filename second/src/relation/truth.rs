//! True, false, or neither.

#[derive(Debug, Clone, Copy, PartialEq, Eq)]
pub enum Truth {
    True,
    False,
    /// Something that it is about has no value, or values of two sorts are compared.
    Undefined,
}

impl From<bool> for Truth {
    fn from(holds: bool) -> Self {
        if holds {
            Truth::True
        } else {
            Truth::False
        }
    }
}

impl Truth {
    /// One false part is enough to make the whole false.
    pub fn and(self, other: Truth) -> Truth {
        match (self, other) {
            (Truth::False, _) | (_, Truth::False) => Truth::False,
            (Truth::True, Truth::True) => Truth::True,
            _ => Truth::Undefined,
        }
    }

    /// One true part is enough to make the whole true.
    pub fn or(self, other: Truth) -> Truth {
        match (self, other) {
            (Truth::True, _) | (_, Truth::True) => Truth::True,
            (Truth::False, Truth::False) => Truth::False,
            _ => Truth::Undefined,
        }
    }

    pub fn turned(self) -> Truth {
        match self {
            Truth::True => Truth::False,
            Truth::False => Truth::True,
            Truth::Undefined => Truth::Undefined,
        }
    }
}

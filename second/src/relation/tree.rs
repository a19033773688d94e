//! What a relation says, as a tree.

/// One assignment after the other, at least one.
#[derive(Debug, Clone, PartialEq, Eq)]
pub struct Relation {
    pub assignments: Vec<Assignment>,
}

/// A name that is granted, or granted if something is true.
#[derive(Debug, Clone, PartialEq, Eq)]
pub struct Assignment {
    /// Of its `$` in the text, from 1.
    pub place: u64,
    /// As it stands between the quotes: it may be none that a condition can have.
    pub name: Vec<u8>,
    pub condition: Option<Condition>,
}

#[derive(Debug, Clone, PartialEq, Eq)]
pub enum Condition {
    /// Joined by OR.
    Any(Vec<Condition>),
    /// Joined by AND.
    All(Vec<Condition>),
    /// Two NOTs in a row are none.
    Not(Box<Condition>),
    /// Whether this property has a value.
    Specified(Vec<u8>),
    /// IN: whether the operand is equal to one of these.
    OneOf(Operand, Vec<Value>),
    Compared(Operand, Comparison, Operand),
}

#[derive(Debug, Clone, PartialEq, Eq)]
pub enum Operand {
    /// By its name, with small letters raised.
    Property(Vec<u8>),
    Constant(Value),
}

#[derive(Debug, Clone, PartialEq, Eq)]
pub enum Value {
    Text(Vec<u8>),
    Number(i64),
}

#[derive(Debug, Clone, Copy, PartialEq, Eq)]
pub enum Comparison {
    Less,
    LessOrEqual,
    Equal,
    Unequal,
    GreaterOrEqual,
    Greater,
}

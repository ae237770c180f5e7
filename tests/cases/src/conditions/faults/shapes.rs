//! What is wrong with conditions that are refused.

/// What is wrong with a condition.
#[derive(Clone, Copy, Debug, PartialEq, Eq)]
pub enum Shape {
    NoBytes,
    /// Padding without a prefix.
    Zeros,
    /// The prefix is not whole, or one byte of it is another.
    PrefixCut,
    PrefixOff,
    NoToken,
    /// Something that is not zero behind a zero.
    BehindPadding,
    OtherBehindPadding,
    /// A literal's length is not its SID's, or does not fit.
    LiteralShort,
    LiteralLong,
    LiteralHuge,
    LiteralRevision,
    LiteralWords,
    LiteralCut,
    /// A composite ends inside its literal, or behind its operator, or does not fit.
    CompositeShort,
    CompositeLong,
    CompositeHuge,
    /// A literal in it goes on behind its end.
    CompositeOpen,
    /// It holds another token of the profile than a literal, a composite, or a zero.
    CompositeOperator,
    CompositeComposite,
    CompositeZero,
    NoOperand,
    WrongOperand,
    ListLeft,
    TwoLeft,
    ListBelow,
    /// 33 operands at once.
    Truths33,
    Composite33,
    /// With another token behind it, which is not read any more.
    BrokenThenOther,
    HugeAroundOther,
    Lists33ThenOther,
    /// Another token is the first fault.
    OtherFirst,
    OtherLast,
    OtherBetween,
    OtherInComposite,
    OtherBehindLiteral,
    OtherThenBroken,
    Lists32ThenOther,
    OtherInside33rd,
}

pub const SHAPES: [Shape; 38] = [
    Shape::NoBytes,
    Shape::Zeros,
    Shape::PrefixCut,
    Shape::PrefixOff,
    Shape::NoToken,
    Shape::BehindPadding,
    Shape::OtherBehindPadding,
    Shape::LiteralShort,
    Shape::LiteralLong,
    Shape::LiteralHuge,
    Shape::LiteralRevision,
    Shape::LiteralWords,
    Shape::LiteralCut,
    Shape::CompositeShort,
    Shape::CompositeLong,
    Shape::CompositeHuge,
    Shape::CompositeOpen,
    Shape::CompositeOperator,
    Shape::CompositeComposite,
    Shape::CompositeZero,
    Shape::NoOperand,
    Shape::WrongOperand,
    Shape::ListLeft,
    Shape::TwoLeft,
    Shape::ListBelow,
    Shape::Truths33,
    Shape::Composite33,
    Shape::BrokenThenOther,
    Shape::HugeAroundOther,
    Shape::Lists33ThenOther,
    Shape::OtherFirst,
    Shape::OtherLast,
    Shape::OtherBetween,
    Shape::OtherInComposite,
    Shape::OtherBehindLiteral,
    Shape::OtherThenBroken,
    Shape::Lists32ThenOther,
    Shape::OtherInside33rd,
];

impl Shape {
    /// Broken, or with another token.
    pub fn is_broken(self) -> bool {
        !matches!(
            self,
            Shape::OtherFirst
                | Shape::OtherLast
                | Shape::OtherBetween
                | Shape::OtherInComposite
                | Shape::OtherBehindLiteral
                | Shape::OtherThenBroken
                | Shape::Lists32ThenOther
                | Shape::OtherInside33rd
        )
    }
}

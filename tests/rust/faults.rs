//! The faults that are planted in the model, one at a time, to see that the comparisons find them.

/// A fault of the model. Each is a wrong reading of document 01 or of docs/FORMATS.md.
#[derive(Clone, Copy, Debug, PartialEq, Eq)]
pub enum Fault {
    ThreeBeforeTwo,
    SumWraps,
    SpareNotCompared,
    TwoActivePages,
    BlankWordIsErased,
    NoSpoilingStep,
    LineTwoNotTidied,
    TidyingSwapped,
    CommitMarksAtOnce,
    CellsDescend,
    LaidFourTooLow,
    EndedBeforeLength,
    RefusalDropsWalk,
    OutputKeptAtLineZero,
    EmptyReadIsLegal,
    OtherBytesTaken,
    LongReadsNeedRoom,
}

/// Every fault, with the part of the model that it is in and what is wrong.
pub const ALL: [(Fault, &str, &str); 17] = [
    (Fault::ThreeBeforeTwo, "numbers", "number 3 is checked before 2"),
    (Fault::SumWraps, "numbers", "offset + length wraps at 32 bits"),
    (Fault::SpareNotCompared, "lines", "Spare is not compared"),
    (Fault::TwoActivePages, "lines", "both words FFFF0000 are taken for line 3"),
    (Fault::BlankWordIsErased, "list", "a blank management word is taken for a blank page"),
    (Fault::NoSpoilingStep, "list", "no spoiling step at line 0"),
    (Fault::LineTwoNotTidied, "list", "line 2 is not tidied"),
    (Fault::TidyingSwapped, "order", "lines 5 and 9 are tidied in the other order"),
    (Fault::CommitMarksAtOnce, "order", "the deciding store marks with 0000 at once"),
    (Fault::CellsDescend, "order", "the image cells descend"),
    (Fault::LaidFourTooLow, "steps", "the data is laid in 4 bytes too low"),
    (Fault::EndedBeforeLength, "steps", "after the end the data's length is not compared"),
    (Fault::RefusalDropsWalk, "walks", "a refused beginning drops the walk in hand"),
    (Fault::OutputKeptAtLineZero, "reads", "at line 0 the output is kept"),
    (Fault::EmptyReadIsLegal, "reads", "a read of length 0 is legal at line 0"),
    (Fault::OtherBytesTaken, "scripts", "a step of kind 4 takes its own bytes for the held ones"),
    (Fault::LongReadsNeedRoom, "scripts", "a part above 4,092 bytes needs room for all of them"),
];

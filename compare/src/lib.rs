// The linked library beside the reference: cases of every call, compared; sheets to be measured; and two builds to measure against.
// It rests on the wrapper in ../rust and the independent implementation in ../reference.

pub mod cases;
pub mod plain;
pub mod sheets;
pub mod tuned;

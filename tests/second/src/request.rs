//! An accepted request, as it is kept for ever.

#[derive(Clone, Copy, Debug, PartialEq, Eq)]
pub struct Request {
    /// How many requests were accepted before this one.
    pub arrival: usize,
    pub id: u32,
    pub score: u32,
    pub tick: u32,
    pub topic: u32,
}

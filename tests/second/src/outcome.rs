//! What a program leaves behind when it ends.

#[derive(Clone, Debug, PartialEq, Eq)]
pub struct Outcome {
    /// All of standard output.
    pub output: Vec<u8>,
    /// All of standard error.
    pub errors: Vec<u8>,
    /// The exit status; none where a signal ended the program.
    pub status: Option<i32>,
}

impl Outcome {
    pub fn sound(output: Vec<u8>) -> Outcome {
        Outcome {
            output,
            errors: Vec::new(),
            status: Some(0),
        }
    }
}

//! What is compared: a proof text, alone or behind an OPB text.

/// A proof text, and the OPB text before it where there is one.
#[derive(Clone, Debug, PartialEq)]
pub struct Pair {
    pub opb: Option<Vec<u8>>,
    pub text: Vec<u8>,
}

impl Pair {
    /// A proof text that stands alone.
    pub fn alone(text: Vec<u8>) -> Pair {
        Pair { opb: None, text }
    }

    /// A proof text behind an OPB text.
    pub fn behind(opb: Vec<u8>, text: Vec<u8>) -> Pair {
        Pair { opb: Some(opb), text }
    }

    /// The OPB text, empty where there is none.
    pub fn constraints(&self) -> &[u8] {
        self.opb.as_deref().unwrap_or_default()
    }

    /// How many bytes both have.
    pub fn len(&self) -> usize {
        self.constraints().len() + self.text.len()
    }
}

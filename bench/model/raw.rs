//! The bytes of a book from its records.

/// A book before it is laid out as bytes; notes stand before each section and before the trailer.
#[derive(Clone, Default)]
pub struct Raw {
    pub roles: Vec<u8>,
    pub pairs: Vec<[u8; 2]>,
    pub concepts: Vec<[u8; 4]>,
    pub rules: Vec<[u8; 2]>,
    pub notes: [Vec<u8>; 5],
}

impl Raw {
    pub fn bytes(&self) -> Vec<u8> {
        let mut out = Vec::new();
        let mut trailer = Vec::new();
        let sections: [(Vec<u8>, usize); 4] = [
            (self.roles.clone(), self.roles.len()),
            (self.pairs.concat(), self.pairs.len()),
            (self.concepts.concat(), self.concepts.len()),
            (self.rules.concat(), self.rules.len()),
        ];
        for (k, (bytes, count)) in sections.iter().enumerate() {
            out.extend(&self.notes[k]);
            trailer.extend((out.len() as u16).to_le_bytes());
            trailer.extend((*count as u16).to_le_bytes());
            out.extend(bytes);
        }
        out.extend(&self.notes[4]);
        out.extend(trailer);
        out
    }

    pub fn entry(&mut self, kind: u8, a: usize, b: usize) -> usize {
        self.concepts.push([kind, a as u8, b as u8, 0]);
        self.concepts.len() - 1
    }

    pub fn rule(&mut self, premise: usize, conclusion: usize) {
        self.rules.push([premise as u8, conclusion as u8]);
    }
}

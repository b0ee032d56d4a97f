// Included into the original's module `token_ring`: what the bench shows of its private fields.

impl TokenRing {
    pub fn phase(&self) -> &'static str {
        match self.las_state {
            LasState::Uninitialized => "Uninitialized",
            LasState::Discovery => "Discovery",
            LasState::Verification => "Verification",
            LasState::Valid => "Valid",
        }
    }
}

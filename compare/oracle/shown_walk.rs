// Included into the original's module `diagnostics`: what the bench shows of its private fields, and a walk begun at any
// place of any store, which the original's own calls make only at 0.

impl<'a> ExtendedDiagnostics<'a> {
    pub fn of(store: &'a mut [u8], length: usize) -> Self {
        let buffer = managed::ManagedSlice::Borrowed(store);
        Self { buffer, length }
    }

    pub fn store(&self) -> &[u8] {
        &self.buffer
    }

    pub fn length(&self) -> usize {
        self.length
    }

    pub fn walk_from(&self, cursor: usize) -> ExtDiagBlockIter<'_> {
        ExtDiagBlockIter { ext_diag: self, cursor }
    }
}

impl ExtDiagBlockIter<'_> {
    pub fn cursor(&self) -> usize {
        self.cursor
    }
}

impl ChannelError {
    pub fn number(self) -> u8 {
        self.into_diag_byte2()
    }
}

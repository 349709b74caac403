//! For processors without AES instructions: there is no value of the type.

#[derive(Clone, Copy)]
pub(crate) enum Instructions {}

impl Instructions {
    pub(crate) fn find() -> Option<Self> {
        None
    }

    pub(crate) fn expand(self, _: &[u8], _: &mut [u8; 240]) {
        match self {}
    }

    pub(crate) fn encrypt(self, _: &[u8; 240], _: usize, _: (u64, u64)) -> (u64, u64) {
        match self {}
    }

    pub(crate) fn decrypt(self, _: &[u8; 240], _: usize, _: (u64, u64)) -> (u64, u64) {
        match self {}
    }

    pub(crate) fn encrypt_groups(self, _: &[u8; 240], _: usize, _: &mut [u8]) {
        match self {}
    }

    pub(crate) fn decrypt_groups(self, _: &[u8; 240], _: usize, _: &mut [u8]) {
        match self {}
    }
}

// ---- appended by the oracle, nothing above is changed ----
impl<'a> FrameWriter<'a> {
    pub fn oracle_get(&self) -> (usize, u16) {
        (self.len, self.crc)
    }
    pub fn oracle_resume(buf: &'a mut [u8], len: usize, crc: u16, asyncmap: u32) -> Self {
        Self {
            buf,
            len,
            crc,
            asyncmap,
        }
    }
}

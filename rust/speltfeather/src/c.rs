//! The calls of the archive, as include/speltfeather.h declares them.

unsafe extern "C" {
    pub fn spelt_encode(
        a: u64,
        e: u64,
        rnti: u16,
        n_id: u16,
        n_rnti: u16,
        payload: *const u8,
        payload_len: usize,
        out: *mut u8,
        out_len: usize,
    ) -> u64;

    pub fn spelt_decode(
        a: u64,
        e: u64,
        rnti: u16,
        n_id: u16,
        n_rnti: u16,
        soft: *const i32,
        soft_len: usize,
        out: *mut u8,
        out_len: usize,
    ) -> u64;

    pub fn spelt_loopback(
        a: u64,
        e: u64,
        rnti: u16,
        n_id: u16,
        n_rnti: u16,
        payload: *const u8,
        payload_len: usize,
        strengths: *const i32,
        strengths_len: usize,
        out: *mut u8,
        out_len: usize,
    ) -> u64;

    pub fn spelt_search_list(
        n_id: u16,
        region: *const i32,
        region_len: usize,
        candidates: *const u32,
        candidates_len: usize,
        out: *mut u8,
        out_len: usize,
    ) -> u64;

    pub fn spelt_describe(a: u64, e: u64, out: *mut u8, out_len: usize) -> u64;
}

//! The library as its C header declares it, with nothing made safe: what the
//! header asks of a caller is asked here.

#![allow(missing_docs)]

/// Places of an answer.
pub const ANSWER: usize = 16;
/// Octets of a state.
pub const STATE: usize = 99;
/// Octets of a stream.
pub const STREAM_OCTETS: usize = 2144;

extern "C" {
    pub fn jk_read(
        image: *const u8,
        image_octets: usize,
        payload: *mut u8,
        payload_octets: usize,
        slot0: *mut u8,
        slot0_octets: usize,
        answer: *mut [u64; ANSWER],
    ) -> u64;
    pub fn jk_stream_start(stream: *mut [u8; STREAM_OCTETS]);
    pub fn jk_feed(
        stream: *mut [u8; STREAM_OCTETS],
        chunk: *const u8,
        chunk_octets: usize,
        payload: *mut u8,
        payload_octets: usize,
        slot0: *mut u8,
        slot0_octets: usize,
        answer: *mut [u64; ANSWER],
    ) -> u64;
    pub fn jk_end(stream: *mut [u8; STREAM_OCTETS], answer: *mut [u64; ANSWER]) -> u64;
    pub fn jk_signals(
        image: *const u8,
        image_octets: usize,
        abcd: *mut u8,
        abcd_octets: usize,
        answer: *mut [u64; ANSWER],
    ) -> u64;
    pub fn jk_why(
        image: *const u8,
        image_octets: usize,
        place: u64,
        answer: *mut [u64; ANSWER],
    ) -> u64;
    pub fn jk_write(
        payload: *const u8,
        payload_octets: usize,
        overhead: *const u8,
        overhead_octets: usize,
        check: u64,
        out: *mut u8,
        out_octets: usize,
        answer: *mut [u64; ANSWER],
    ) -> u64;
    pub fn jk_write_signalled(
        payload: *const u8,
        payload_octets: usize,
        overhead: *const u8,
        overhead_octets: usize,
        check: u64,
        xy: *const u8,
        xy_octets: usize,
        abcd: *const u8,
        abcd_octets: usize,
        out: *mut u8,
        out_octets: usize,
        answer: *mut [u64; ANSWER],
    ) -> u64;
    pub fn jk_t1_read(
        image: *const u8,
        image_octets: usize,
        payload: *mut u8,
        payload_octets: usize,
        link: *mut u8,
        link_octets: usize,
        answer: *mut [u64; ANSWER],
    ) -> u64;
    pub fn jk_t1_write(
        payload: *const u8,
        payload_octets: usize,
        link: *const u8,
        link_octets: usize,
        check: u64,
        out: *mut u8,
        out_octets: usize,
        answer: *mut [u64; ANSWER],
    ) -> u64;
    pub fn jk_t1_write_signalled(
        payload: *const u8,
        payload_octets: usize,
        link: *const u8,
        link_octets: usize,
        check: u64,
        signalling: *const u8,
        signalling_octets: usize,
        out: *mut u8,
        out_octets: usize,
        answer: *mut [u64; ANSWER],
    ) -> u64;
    pub fn jk_start(state: *mut [u8; STATE]);
    pub fn jk_host(
        state: *mut [u8; STATE],
        record: *const u8,
        record_octets: usize,
        answer: *mut [u64; ANSWER],
    ) -> u64;
    pub fn jk_key(state: *mut [u8; STATE], position: u64) -> u64;
    pub fn jk_boundary(state: *mut [u8; STATE]) -> u64;
    pub fn jk_map(
        state: *const [u8; STATE],
        payload: *const u8,
        payload_octets: usize,
        out: *mut u8,
        out_octets: usize,
    ) -> u64;
}

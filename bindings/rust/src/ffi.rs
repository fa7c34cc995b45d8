//! The C functions themselves, as `include/rangqoda.h` documents them.
//!
//! Every pointer must be aligned and not null, also that of an empty slice, and must be good for as many elements as the
//! length behind it says. What is lent to be written may not overlap anything else lent to the call. The numbers, lengths
//! and bytes themselves may be any: the functions judge them.

extern "C" {
    #[must_use]
    pub fn rangqoda_remainder(
        generator: u64,
        init: u64,
        xorout: u64,
        packet: *const u8,
        packet_len: usize,
        remainder: *mut u64,
    ) -> u32;

    #[must_use]
    pub fn rangqoda_seal(generator: u64, init: u64, xorout: u64, packet: *mut u8, packet_len: usize) -> u32;

    pub fn rangqoda_sum(bytes: *const u8, len: usize) -> u16;

    #[must_use]
    pub fn rangqoda_stamp(
        generator: u64,
        start: usize,
        end: usize,
        field: usize,
        packet: *mut u8,
        packet_len: usize,
    ) -> u32;

    #[must_use]
    pub fn rangqoda_make(
        generator: u64,
        init: u64,
        xorout: u64,
        seed: u32,
        start: usize,
        end: usize,
        field: usize,
        packet: *mut u8,
        packet_len: usize,
        state: *mut u32,
    ) -> u32;

    #[must_use]
    pub fn rangqoda_scatter(
        rows: usize,
        columns: usize,
        input: *const u8,
        input_len: usize,
        output: *mut u8,
        output_len: usize,
    ) -> u32;

    #[must_use]
    pub fn rangqoda_gather(
        rows: usize,
        columns: usize,
        input: *const u8,
        input_len: usize,
        output: *mut u8,
        output_len: usize,
    ) -> u32;

    #[must_use]
    pub fn rangqoda_tables(
        generator: u64,
        step: *mut u16,
        step_len: usize,
        first: *mut u16,
        first_len: usize,
        period: *mut u64,
    ) -> u32;

    #[must_use]
    pub fn rangqoda_page(
        generator: u64,
        length: usize,
        limit: usize,
        syndrome: u64,
        step: *const u16,
        step_len: usize,
        first: *const u16,
        first_len: usize,
        mark: *mut u8,
        mark_len: usize,
        output: *mut u8,
        output_len: usize,
        used: *mut usize,
        written: *mut u64,
    ) -> u32;

    #[must_use]
    pub fn rangqoda_repair(
        generator: u64,
        init: u64,
        xorout: u64,
        start: usize,
        end: usize,
        field: usize,
        limit: usize,
        step: *const u16,
        step_len: usize,
        first: *const u16,
        first_len: usize,
        packet: *const u8,
        packet_len: usize,
        output: *mut u8,
        output_len: usize,
        verdict: *mut u8,
        verdict_len: usize,
    ) -> u32;

    #[must_use]
    pub fn rangqoda_simulate(
        generator: u64,
        init: u64,
        xorout: u64,
        seed: u32,
        start: usize,
        end: usize,
        field: usize,
        limit: usize,
        trials: u64,
        step: *const u16,
        step_len: usize,
        first: *const u16,
        first_len: usize,
        packet: *mut u8,
        packet_len: usize,
        output: *mut u8,
        output_len: usize,
        counts: *mut u32,
        counts_len: usize,
        state: *mut u32,
    ) -> u32;

    #[must_use]
    pub fn rangqoda_publish(verdict: *const u8, verdict_len: usize) -> u32;
}

//! The functions of the proved library, as include/pondreszi.h declares them.

/// The events of a sender that bring octets: a unit or a control word.
pub type SenderEventWithOctets = unsafe extern "C" fn(
    state: *mut u8,
    state_len: u64,
    octets: *const u8,
    octets_len: u64,
    store: *mut u8,
    store_len: u64,
    output: *mut u8,
    output_len: u64,
    answer: *mut u8,
    answer_len: u64,
) -> u8;

#[link(name = "pondreszi", kind = "static")]
extern "C" {
    pub fn pondreszi_codeblock_error_control(information: *const u8, information_len: u64) -> u8;
    pub fn pondreszi_codeblock_judge(
        block: *const u8,
        block_len: u64,
        mode: u32,
        information: *mut u8,
        information_len: u64,
        corrected: *mut u8,
    ) -> u8;
    pub fn pondreszi_randomizer_octet(place: u64) -> u8;
    pub fn pondreszi_cltu_write(
        frame: *const u8,
        frame_len: u64,
        output: *mut u8,
        output_len: u64,
        count: *mut u64,
    ) -> u8;
    pub fn pondreszi_cltu_read(
        input: *const u8,
        input_len: u64,
        mode: u32,
        output: *mut u8,
        output_len: u64,
        count: *mut u64,
        place: *mut u64,
        corrected: *mut u64,
    ) -> u8;

    pub fn pondreszi_fecf(message: *const u8, len: u64) -> u16;
    pub fn pondreszi_frame_write_ad(
        spacecraft: u32,
        channel: u32,
        number: u32,
        unit: *const u8,
        unit_len: u64,
        output: *mut u8,
        output_len: u64,
        count: *mut u64,
    ) -> u8;
    pub fn pondreszi_frame_write_bd(
        spacecraft: u32,
        channel: u32,
        unit: *const u8,
        unit_len: u64,
        output: *mut u8,
        output_len: u64,
        count: *mut u64,
    ) -> u8;
    pub fn pondreszi_frame_write_unlock(
        spacecraft: u32,
        channel: u32,
        output: *mut u8,
        output_len: u64,
        count: *mut u64,
    ) -> u8;
    pub fn pondreszi_frame_write_set_vr(
        spacecraft: u32,
        channel: u32,
        value: u32,
        output: *mut u8,
        output_len: u64,
        count: *mut u64,
    ) -> u8;
    pub fn pondreszi_frame_read(
        octets: *const u8,
        len: u64,
        spacecraft: u32,
        channel: u32,
        kind: *mut u8,
        value: *mut u8,
        total: *mut u16,
        field: *mut u16,
    ) -> u8;

    pub fn pondreszi_clcw_write(
        channel: u32,
        lockout: u32,
        wait: u32,
        retransmit: u32,
        counter: u32,
        report: u32,
        output: *mut u8,
        output_len: u64,
        count: *mut u64,
    ) -> u8;
    pub fn pondreszi_clcw_read(
        octets: *const u8,
        len: u64,
        channel: u32,
        valid: *mut u8,
        status: *mut u8,
        rf: *mut u8,
        flags: *mut u8,
        counter: *mut u8,
        report: *mut u8,
    ) -> u8;

    pub fn pondreszi_receiver_new(
        spacecraft: u32,
        channel: u32,
        window: u32,
        vr: u32,
        buffers: u32,
        state: *mut u8,
        state_len: u64,
    ) -> u8;
    pub fn pondreszi_receiver_frame(
        state: *mut u8,
        state_len: u64,
        frame: *const u8,
        frame_len: u64,
        event: *mut u8,
        unit: *mut u8,
        first: *mut u64,
        count: *mut u64,
    ) -> u8;
    pub fn pondreszi_receiver_release(state: *mut u8, state_len: u64, event: *mut u8) -> u8;
    pub fn pondreszi_receiver_word(
        state: *const u8,
        state_len: u64,
        output: *mut u8,
        output_len: u64,
        count: *mut u64,
    ) -> u8;

    pub fn pondreszi_channel_new(
        channel: u32,
        window: u32,
        vr: u32,
        octets: *mut u8,
        octets_len: u64,
    ) -> u8;
    pub fn pondreszi_channels_frame(
        spacecraft: u32,
        pool: u32,
        table: *mut u8,
        table_len: u64,
        frame: *const u8,
        frame_len: u64,
        event: *mut u8,
        channel: *mut u8,
        unit: *mut u8,
        first: *mut u64,
        count: *mut u64,
    ) -> u8;
    pub fn pondreszi_channels_release(
        spacecraft: u32,
        pool: u32,
        table: *mut u8,
        table_len: u64,
        channel: u32,
        event: *mut u8,
    ) -> u8;
    pub fn pondreszi_channels_word(
        spacecraft: u32,
        pool: u32,
        table: *const u8,
        table_len: u64,
        channel: u32,
        output: *mut u8,
        output_len: u64,
        count: *mut u64,
    ) -> u8;

    pub fn pondreszi_sender_new(
        k: u32,
        t1_initial: u32,
        transmission_limit: u32,
        timeout_type: u32,
        spacecraft: u32,
        channel: u32,
        vs: u32,
        nnr: u32,
        store: *const u8,
        store_len: u64,
        state: *mut u8,
        state_len: u64,
    ) -> u8;
    pub fn pondreszi_sender_request_ad(
        state: *mut u8,
        state_len: u64,
        unit: *const u8,
        unit_len: u64,
        store: *mut u8,
        store_len: u64,
        output: *mut u8,
        output_len: u64,
        answer: *mut u8,
        answer_len: u64,
    ) -> u8;
    pub fn pondreszi_sender_request_bd(
        state: *mut u8,
        state_len: u64,
        unit: *const u8,
        unit_len: u64,
        store: *mut u8,
        store_len: u64,
        output: *mut u8,
        output_len: u64,
        answer: *mut u8,
        answer_len: u64,
    ) -> u8;
    pub fn pondreszi_sender_directive(
        state: *mut u8,
        state_len: u64,
        number: u32,
        value: u32,
        store: *mut u8,
        store_len: u64,
        output: *mut u8,
        output_len: u64,
        answer: *mut u8,
        answer_len: u64,
    ) -> u8;
    pub fn pondreszi_sender_tick(
        state: *mut u8,
        state_len: u64,
        store: *mut u8,
        store_len: u64,
        output: *mut u8,
        output_len: u64,
        answer: *mut u8,
        answer_len: u64,
    ) -> u8;
    pub fn pondreszi_sender_lower_layer(
        state: *mut u8,
        state_len: u64,
        number: u32,
        store: *mut u8,
        store_len: u64,
        output: *mut u8,
        output_len: u64,
        answer: *mut u8,
        answer_len: u64,
    ) -> u8;
    pub fn pondreszi_sender_control_word(
        state: *mut u8,
        state_len: u64,
        word: *const u8,
        word_len: u64,
        store: *mut u8,
        store_len: u64,
        output: *mut u8,
        output_len: u64,
        answer: *mut u8,
        answer_len: u64,
    ) -> u8;
}

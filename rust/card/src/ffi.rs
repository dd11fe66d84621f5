//! The calls of libcard.a as crates/card/card.h declares them and says what each does.

extern "C" {
    pub fn bailhammer_wrap(
        seq: u16,
        cf: usize,
        payload: *const u8,
        payload_len: usize,
        out: *mut u8,
        out_len: usize,
    ) -> usize;
    pub fn bailhammer_check(
        packet: *const u8,
        packet_len: usize,
        told: *mut u8,
        told_len: usize,
    ) -> usize;
    pub fn bailhammer_item(
        name: u32,
        bits: u32,
        value: *const u8,
        value_len: usize,
        out: *mut u8,
        out_len: usize,
    ) -> usize;
    pub fn bailhammer_find(
        packet: *const u8,
        packet_len: usize,
        standing: *const u8,
        standing_len: usize,
        name: u32,
        repeats: usize,
        told: *mut u8,
        told_len: usize,
    ) -> usize;
    pub fn bailhammer_nth(
        packet: *const u8,
        packet_len: usize,
        name: u32,
        number: usize,
        repeats: usize,
        told: *mut u8,
        told_len: usize,
    ) -> usize;
    pub fn bailhammer_walk_open(
        packet: *const u8,
        packet_len: usize,
        names: *const u8,
        names_len: usize,
        repeats: usize,
        walker: *mut u8,
        walker_len: usize,
    ) -> usize;
    pub fn bailhammer_walk_step(
        packet: *const u8,
        packet_len: usize,
        names: *const u8,
        names_len: usize,
        walker: *mut u8,
        walker_len: usize,
        told: *mut u8,
        told_len: usize,
    ) -> usize;
    pub fn bailhammer_plan(
        fec: usize,
        m: usize,
        newer: usize,
        mtu: usize,
        addressed: usize,
        l: usize,
        told: *mut u8,
        told_len: usize,
    ) -> usize;
    pub fn bailhammer_endure(
        fec: usize,
        m: usize,
        newer: usize,
        mtu: usize,
        addressed: usize,
        l: usize,
        told: *mut u8,
        told_len: usize,
    ) -> usize;
    pub fn bailhammer_fragment(
        fec: usize,
        m: usize,
        newer: usize,
        mtu: usize,
        addressed: usize,
        source: u16,
        dest: u16,
        pseq: u16,
        packet: *const u8,
        packet_len: usize,
        index: usize,
        told: *mut u8,
        told_len: usize,
        out: *mut u8,
        out_len: usize,
    ) -> usize;
    pub fn bailhammer_fragments(
        fec: usize,
        m: usize,
        newer: usize,
        mtu: usize,
        addressed: usize,
        source: u16,
        dest: u16,
        pseq: u16,
        packet: *const u8,
        packet_len: usize,
        told: *mut u8,
        told_len: usize,
        out: *mut u8,
        out_len: usize,
    ) -> usize;
    pub fn bailhammer_parse(
        addressed: usize,
        source: u16,
        dest: u16,
        datagram: *const u8,
        datagram_len: usize,
        told: *mut u8,
        told_len: usize,
    ) -> usize;
    pub fn bailhammer_receive(
        addressed: usize,
        source: u16,
        dest: u16,
        record_bytes: *mut u8,
        record_bytes_len: usize,
        lent: *mut u8,
        lent_len: usize,
        datagram: *const u8,
        datagram_len: usize,
        told: *mut u8,
        told_len: usize,
        out: *mut u8,
        out_len: usize,
    ) -> usize;
    pub fn bailhammer_query(
        record_bytes: *const u8,
        record_bytes_len: usize,
        lent: *const u8,
        lent_len: usize,
        told: *mut u8,
        told_len: usize,
    ) -> usize;
    pub fn bailhammer_clear(
        record_bytes: *mut u8,
        record_bytes_len: usize,
        lent: *const u8,
        lent_len: usize,
    ) -> usize;
    pub fn bailhammer_encode(
        packet: *const u8,
        packet_len: usize,
        k: usize,
        c: usize,
        out: *mut u8,
        out_len: usize,
    ) -> usize;
    pub fn bailhammer_fill(
        kept: *const u8,
        kept_len: usize,
        f: usize,
        s: usize,
        k: usize,
        block: *mut u8,
        block_len: usize,
    ) -> usize;
}

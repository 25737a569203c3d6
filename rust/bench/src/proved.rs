//! The names that the proved library exports (`crates/host`). Across C a slice is two words:
//! pointer, then length.

use crate::list::StepRecord;

extern "C" {
    pub fn tarvelgyo_fresh(
        state: *mut u32,
        words: usize,
        memory: *mut u16,
        tokens: usize,
        lines: *mut u16,
        things: usize,
        nodes: usize,
    ) -> u64;
    pub fn tarvelgyo_blank(
        state: *mut u32,
        words: usize,
        memory: *mut u16,
        tokens: usize,
        lines: *mut u16,
        things: usize,
        nodes: usize,
    ) -> u64;
    pub fn tarvelgyo_wire(
        state: *mut u32,
        words: usize,
        memory: *const u16,
        tokens: usize,
        lines: *const u16,
        things: usize,
        slot: usize,
        link: usize,
        far_slot: usize,
        far_link: usize,
    ) -> u64;
    pub fn tarvelgyo_set_number(
        state: *mut u32,
        words: usize,
        memory: *const u16,
        tokens: usize,
        lines: *mut u16,
        things: usize,
        slot: usize,
        value: u32,
    ) -> u64;
    pub fn tarvelgyo_set_width(
        state: *mut u32,
        words: usize,
        memory: *const u16,
        tokens: usize,
        lines: *mut u16,
        things: usize,
        slot: usize,
        value: u32,
    ) -> u64;
    pub fn tarvelgyo_set_direction(
        state: *mut u32,
        words: usize,
        memory: *const u16,
        tokens: usize,
        lines: *mut u16,
        things: usize,
        slot: usize,
        bit: u32,
        value: u32,
    ) -> u64;
    pub fn tarvelgyo_set_link_direction(
        state: *mut u32,
        words: usize,
        memory: *const u16,
        tokens: usize,
        lines: *mut u16,
        things: usize,
        slot: usize,
        link: usize,
        value: u32,
    ) -> u64;
    pub fn tarvelgyo_set_network(
        state: *mut u32,
        words: usize,
        memory: *const u16,
        tokens: usize,
        lines: *mut u16,
        things: usize,
        slot: usize,
        link: usize,
        value: u32,
    ) -> u64;
    pub fn tarvelgyo_set_enable(
        state: *mut u32,
        words: usize,
        memory: *const u16,
        tokens: usize,
        lines: *mut u16,
        things: usize,
        slot: usize,
        link: usize,
        value: u32,
    ) -> u64;
    pub fn tarvelgyo_hello(
        state: *mut u32,
        words: usize,
        memory: *const u16,
        tokens: usize,
        lines: *mut u16,
        things: usize,
        slot: usize,
        link: usize,
    ) -> u64;
    pub fn tarvelgyo_aim_channel(
        state: *mut u32,
        words: usize,
        memory: *const u16,
        tokens: usize,
        lines: *const u16,
        things: usize,
        slot: usize,
        channel_end: usize,
        number: u32,
        channel: u32,
        network: u32,
    ) -> u64;
    pub fn tarvelgyo_aim_unit(
        state: *mut u32,
        words: usize,
        memory: *const u16,
        tokens: usize,
        lines: *const u16,
        things: usize,
        slot: usize,
        channel_end: usize,
        number: u32,
        network: u32,
    ) -> u64;
    pub fn tarvelgyo_output_data(
        state: *mut u32,
        words: usize,
        memory: *mut u16,
        tokens: usize,
        lines: *const u16,
        things: usize,
        slot: usize,
        channel_end: usize,
        value: u8,
    ) -> u64;
    pub fn tarvelgyo_output_control(
        state: *mut u32,
        words: usize,
        memory: *mut u16,
        tokens: usize,
        lines: *const u16,
        things: usize,
        slot: usize,
        channel_end: usize,
        value: u8,
    ) -> u64;
    pub fn tarvelgyo_step(
        state: *mut u32,
        words: usize,
        memory: *mut u16,
        tokens: usize,
        lines: *mut u16,
        things: usize,
        slot: usize,
        port: usize,
    ) -> u64;
    pub fn tarvelgyo_steps(
        state: *mut u32,
        words: usize,
        memory: *mut u16,
        tokens: usize,
        lines: *mut u16,
        things: usize,
        list: *const StepRecord,
        records: usize,
        results: *mut u64,
        room: usize,
    ) -> u64;
    pub fn tarvelgyo_input_data(
        state: *mut u32,
        words: usize,
        memory: *const u16,
        tokens: usize,
        lines: *const u16,
        things: usize,
        slot: usize,
        channel_end: usize,
    ) -> u64;
    pub fn tarvelgyo_input_control(
        state: *mut u32,
        words: usize,
        memory: *const u16,
        tokens: usize,
        lines: *const u16,
        things: usize,
        slot: usize,
        channel_end: usize,
    ) -> u64;
    pub fn tarvelgyo_line_step(
        state: *mut u32,
        words: usize,
        memory: *mut u16,
        tokens: usize,
        lines: *mut u16,
        things: usize,
        slot: usize,
        link: usize,
    ) -> u64;
    pub fn tarvelgyo_line_words() -> usize;
    pub fn tarvelgyo_line_token(
        state: *const u32,
        words: usize,
        lines: *const u16,
        things: usize,
        slot: usize,
        link: usize,
        place: u32,
    ) -> u64;
    pub fn tarvelgyo_state_words() -> usize;
    pub fn tarvelgyo_memory_words() -> usize;
    pub fn tarvelgyo_node_count(state: *const u32, words: usize) -> usize;
    pub fn tarvelgyo_is_sound(
        state: *const u32,
        words: usize,
        memory: *const u16,
        tokens: usize,
        lines: *const u16,
        things: usize,
    ) -> bool;
    pub fn tarvelgyo_is_tight(
        state: *const u32,
        words: usize,
        memory: *const u16,
        tokens: usize,
        lines: *const u16,
        things: usize,
    ) -> bool;
    pub fn tarvelgyo_is_quiet(
        state: *const u32,
        words: usize,
        memory: *const u16,
        tokens: usize,
        lines: *const u16,
        things: usize,
    ) -> bool;
    pub fn tarvelgyo_unsound_clause(
        state: *const u32,
        words: usize,
        memory: *const u16,
        tokens: usize,
        lines: *const u16,
        things: usize,
    ) -> u32;
    pub fn tarvelgyo_node(
        state: *const u32,
        words: usize,
        slot: usize,
        out: *mut u32,
        room: usize,
    ) -> bool;
    pub fn tarvelgyo_link(
        state: *const u32,
        words: usize,
        slot: usize,
        link: usize,
        out: *mut u32,
        room: usize,
    ) -> bool;
    pub fn tarvelgyo_port(
        state: *const u32,
        words: usize,
        slot: usize,
        port: usize,
        out: *mut u32,
        room: usize,
    ) -> bool;
    pub fn tarvelgyo_tile_link(
        state: *const u32,
        words: usize,
        slot: usize,
        tile_link: usize,
        out: *mut u32,
        room: usize,
    ) -> bool;
    pub fn tarvelgyo_channel_end(
        state: *const u32,
        words: usize,
        slot: usize,
        channel_end: usize,
        out: *mut u32,
        room: usize,
    ) -> bool;
    pub fn tarvelgyo_control_unit(
        state: *const u32,
        words: usize,
        slot: usize,
        out: *mut u32,
        room: usize,
    ) -> bool;
    pub fn tarvelgyo_line(
        state: *const u32,
        words: usize,
        slot: usize,
        link: usize,
        out: *mut u32,
        room: usize,
    ) -> bool;
    pub fn tarvelgyo_direction(state: *const u32, words: usize, slot: usize, bit: u32) -> u32;
    pub fn tarvelgyo_port_token(
        state: *const u32,
        words: usize,
        memory: *const u16,
        tokens: usize,
        slot: usize,
        port: usize,
        place: u32,
    ) -> u64;
    pub fn tarvelgyo_end_token(
        state: *const u32,
        words: usize,
        slot: usize,
        channel_end: usize,
        place: usize,
    ) -> u64;
    pub fn tarvelgyo_write_serial(
        list: *const u16,
        count: usize,
        out: *mut u8,
        room: usize,
        value: *mut usize,
    ) -> u8;
    pub fn tarvelgyo_write_fast(
        list: *const u16,
        count: usize,
        out: *mut u8,
        room: usize,
        value: *mut usize,
    ) -> u8;
    pub fn tarvelgyo_read_serial(
        capture: *const u8,
        length: usize,
        out: *mut u16,
        room: usize,
        value: *mut usize,
    ) -> u8;
    pub fn tarvelgyo_read_fast(
        capture: *const u8,
        length: usize,
        out: *mut u16,
        room: usize,
        value: *mut usize,
    ) -> u8;
}

//! Of the library tools_c, for the command, tests and comparisons. Each function's answer is said in the file of
//! crates/tools_c/src that the lines between them name.

#[link(name = "tools_c", kind = "static")]
unsafe extern "C" {
    // checksums: the checksum, the inverses of its mixes
    pub fn tools_jenkins_lookup3(bytes: *const u8, bytes_len: usize) -> u32;
    pub fn tools_unmix(words: *mut u32, words_len: usize) -> u32;
    pub fn tools_unfinal_mix(words: *mut u32, words_len: usize) -> u32;

    // field_reads: fields read, the undefined address
    pub fn tools_ensure_len(
        bytes: *const u8,
        bytes_len: usize,
        offset: u64,
        needed: u64,
        slot: *mut u8,
        slot_len: usize,
    ) -> u32;
    pub fn tools_read_offset(
        bytes: *const u8,
        bytes_len: usize,
        pos: u64,
        offset_size: u8,
        slot: *mut u8,
        slot_len: usize,
    ) -> u32;
    pub fn tools_read_length(
        bytes: *const u8,
        bytes_len: usize,
        pos: u64,
        length_size: u8,
        slot: *mut u8,
        slot_len: usize,
    ) -> u32;
    pub fn tools_to_usize(value: u64) -> u64;
    pub fn tools_is_undefined_addr(addr: u64, offset_size: u8) -> u32;

    // stores: addresses stored
    pub fn tools_write_offset(
        bytes: *mut u8,
        bytes_len: usize,
        pos: u64,
        value: u64,
        offset_size: u8,
        slot: *mut u8,
        slot_len: usize,
    ) -> u32;
    pub fn tools_write_undef_offset(
        bytes: *mut u8,
        bytes_len: usize,
        pos: u64,
        offset_size: u8,
        slot: *mut u8,
        slot_len: usize,
    ) -> u32;

    // writing: planning, a region and a managed ID written
    pub fn tools_plan(
        sizes: *const u64,
        sizes_len: usize,
        offsets: *mut u64,
        offsets_len: usize,
        blocks: *mut u64,
        blocks_len: usize,
        offset_size: u8,
        totals: *mut u64,
        totals_len: usize,
    ) -> u32;
    pub fn tools_serialize(
        sizes: *const u64,
        sizes_len: usize,
        offsets: *mut u64,
        offsets_len: usize,
        blocks: *mut u64,
        blocks_len: usize,
        objects: *const u8,
        objects_len: usize,
        region: *mut u8,
        region_len: usize,
        region_address: u64,
        heap_header_address: u64,
        offset_size: u8,
        totals: *mut u64,
        totals_len: usize,
    ) -> u32;
    pub fn tools_write_managed_id(
        offset: u64,
        size: u64,
        id: *mut u8,
        id_len: usize,
        slot: *mut u8,
        slot_len: usize,
    ) -> u32;

    // slots: direct slots, by two engines, and how many there are
    pub fn tools_locate(offset: u64, slot: *mut u8, slot_len: usize) -> u32;
    pub fn tools_count_to(offset: u64, slot: *mut u8, slot_len: usize) -> u32;
    pub fn tools_ask_both(offset: u64, answers: *mut u64, answers_len: usize) -> u32;
    pub fn tools_entered(offset: u64, place: u64, block: *mut u64, block_len: usize) -> u32;
    pub fn tools_count_slots(rows: u64, counts: *mut u64, counts_len: usize) -> u32;

    // headers: a header's fields
    pub fn tools_parse_header(
        file: *const u8,
        file_len: usize,
        at: u64,
        offset_size: u8,
        length_size: u8,
        fields: *mut u64,
        fields_len: usize,
    ) -> u32;

    // objects: IDs and objects
    pub fn tools_read_managed_object(
        file: *const u8,
        file_len: usize,
        at: u64,
        offset_size: u8,
        length_size: u8,
        read_size: u8,
        heap_header_address: u64,
        id: *const u8,
        id_len: usize,
        slot: *mut u8,
        slot_len: usize,
    ) -> u32;
    pub fn tools_read_managed_object_unchecked(
        file: *const u8,
        file_len: usize,
        at: u64,
        offset_size: u8,
        length_size: u8,
        read_size: u8,
        id: *const u8,
        id_len: usize,
        slot: *mut u8,
        slot_len: usize,
    ) -> u32;
    pub fn tools_read_tiny_object(
        heap_id_length: u16,
        id: *const u8,
        id_len: usize,
        slot: *mut u8,
        slot_len: usize,
    ) -> u32;
    pub fn tools_heap_id_type(id: *const u8, id_len: usize, slot: *mut u8, slot_len: usize) -> u32;
    pub fn tools_read_each(
        file: *const u8,
        file_len: usize,
        at: u64,
        offset_size: u8,
        length_size: u8,
        heap_header_address: u64,
        ids: *const u8,
        ids_len: usize,
        found: *mut u64,
        found_len: usize,
    ) -> u32;
    pub fn tools_read_each_unchecked(
        file: *const u8,
        file_len: usize,
        at: u64,
        offset_size: u8,
        length_size: u8,
        ids: *const u8,
        ids_len: usize,
        found: *mut u64,
        found_len: usize,
    ) -> u32;
}

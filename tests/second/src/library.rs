//! The library's calls, as its C header declares them. A slice is a pointer and then its length.

extern "C" {
    pub fn lampreycoil_read(
        bytes: *const u8,
        bytes_len: usize,
        record: *mut u8,
        record_len: usize,
    ) -> u32;

    pub fn lampreycoil_read_fault(
        bytes: *const u8,
        bytes_len: usize,
        record: *mut u8,
        record_len: usize,
    ) -> u32;

    pub fn lampreycoil_read_stream(
        bytes: *const u8,
        bytes_len: usize,
        list: *mut u8,
        list_len: usize,
        record: *mut u8,
        record_len: usize,
    ) -> u32;

    pub fn lampreycoil_write(
        kind: u8,
        flags: u8,
        userid: u32,
        rolemask: u32,
        first: u32,
        second: u32,
        routes: *const u8,
        routes_len: usize,
        topic: *const u8,
        topic_len: usize,
        payload: *const u8,
        payload_len: usize,
        out: *mut u8,
        out_len: usize,
        record: *mut u8,
        record_len: usize,
    ) -> u32;
}

extern "C" {
    pub fn lampreycoil_check_tree(
        tree: *const u8,
        tree_len: usize,
        depths: *mut u8,
        depths_len: usize,
        record: *mut u8,
        record_len: usize,
    ) -> u32;

    pub fn lampreycoil_check_services(
        tree: *const u8,
        tree_len: usize,
        services: *const u8,
        services_len: usize,
    ) -> u32;

    pub fn lampreycoil_check_identities(
        tree: *const u8,
        tree_len: usize,
        identities: *const u8,
        identities_len: usize,
    ) -> u32;
}

extern "C" {
    pub fn lampreycoil_step(
        tree: *const u8,
        tree_len: usize,
        services: *const u8,
        services_len: usize,
        identities: *const u8,
        identities_len: usize,
        rank: u32,
        buffer: *mut u8,
        buffer_len: usize,
        record: *mut u8,
        record_len: usize,
    ) -> u32;
}

extern "C" {
    pub fn lampreycoil_walk(
        tree: *const u8,
        tree_len: usize,
        services: *const u8,
        services_len: usize,
        identities: *const u8,
        identities_len: usize,
        rank: u32,
        buffer: *mut u8,
        buffer_len: usize,
        record: *mut u8,
        record_len: usize,
    ) -> u32;
}

extern "C" {
    pub fn lampreycoil_check_json(
        payload: *const u8,
        payload_len: usize,
        record: *mut u8,
        record_len: usize,
    ) -> u32;
}

extern "C" {
    pub fn lampreycoil_read_command(
        bytes: *const u8,
        bytes_len: usize,
        record: *mut u8,
        record_len: usize,
    ) -> u32;

    pub fn lampreycoil_write_command(
        sender: u8,
        command: u8,
        name: *const u8,
        name_len: usize,
        address: *const u8,
        address_len: usize,
        body: *const u8,
        body_len: usize,
        out: *mut u8,
        out_len: usize,
        record: *mut u8,
        record_len: usize,
    ) -> u32;
}

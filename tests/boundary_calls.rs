//! The calls over the C ABI. In each, pointer and length are those of one slice, and slices that are written overlap nothing.
#![allow(clippy::too_many_arguments)] // as many as they have in C

#[link(name = "urddolwy", kind = "static")]
extern "C" {
    fn urddolwy_records_size() -> u64;
    fn urddolwy_start(
        records: *mut u8,
        records_len: usize,
        text: *const u8,
        text_len: usize,
        text_base: u64,
        arena: *mut u8,
        arena_len: usize,
        arena_base: u64,
        undo: *mut u8,
        undo_len: usize,
        ids: *mut u8,
        ids_len: usize,
        build_id: *const u8,
        build_id_len: usize,
        cpus: u32,
    ) -> u64;
    fn urddolwy_upload(
        records: *mut u8,
        records_len: usize,
        arena: *mut u8,
        arena_len: usize,
        ids: *mut u8,
        ids_len: usize,
        name: *const u8,
        name_len: usize,
        symbols: *const u8,
        symbols_len: usize,
        file: *const u8,
        file_len: usize,
    ) -> u64;
    fn urddolwy_get(
        records: *const u8,
        records_len: usize,
        name: *const u8,
        name_len: usize,
        out: *mut u8,
        out_len: usize,
    ) -> u64;
    fn urddolwy_list(
        records: *const u8,
        records_len: usize,
        idx: u32,
        nr: u32,
        statuses: *mut u8,
        statuses_len: usize,
        names: *mut u8,
        names_len: usize,
        lengths: *mut u8,
        lengths_len: usize,
        out: *mut u8,
        out_len: usize,
    ) -> u64;
    fn urddolwy_action(
        records: *mut u8,
        records_len: usize,
        arena: *mut u8,
        arena_len: usize,
        undo: *mut u8,
        undo_len: usize,
        ids: *mut u8,
        ids_len: usize,
        build_id: *const u8,
        build_id_len: usize,
        name: *const u8,
        name_len: usize,
        command: u32,
        time: u32,
    ) -> u64;
    fn urddolwy_report(records: *mut u8, records_len: usize, cpu: u32) -> u64;
    fn urddolwy_tick(records: *mut u8, records_len: usize) -> u64;
    fn urddolwy_work(
        records: *mut u8,
        records_len: usize,
        text: *mut u8,
        text_len: usize,
        undo: *mut u8,
        undo_len: usize,
    ) -> u64;
    fn urddolwy_top_build_id(
        records: *const u8,
        records_len: usize,
        build_id: *const u8,
        build_id_len: usize,
        ids: *const u8,
        ids_len: usize,
        out: *mut u8,
        out_len: usize,
    ) -> u64;
}

pub fn records_size() -> u64 {
    // SAFETY: the function takes nothing.
    unsafe { urddolwy_records_size() }
}

pub fn start(
    records: &mut [u8],
    text: &[u8],
    text_base: u64,
    arena: &mut [u8],
    arena_base: u64,
    undo: &mut [u8],
    ids: &mut [u8],
    build_id: &[u8],
    cpus: u32,
) -> u64 {
    // SAFETY: as for all calls.
    unsafe {
        urddolwy_start(
            records.as_mut_ptr(),
            records.len(),
            text.as_ptr(),
            text.len(),
            text_base,
            arena.as_mut_ptr(),
            arena.len(),
            arena_base,
            undo.as_mut_ptr(),
            undo.len(),
            ids.as_mut_ptr(),
            ids.len(),
            build_id.as_ptr(),
            build_id.len(),
            cpus,
        )
    }
}

pub fn upload(records: &mut [u8], arena: &mut [u8], ids: &mut [u8], name: &[u8], symbols: &[u8], file: &[u8]) -> u64 {
    // SAFETY: as for all calls.
    unsafe {
        urddolwy_upload(
            records.as_mut_ptr(),
            records.len(),
            arena.as_mut_ptr(),
            arena.len(),
            ids.as_mut_ptr(),
            ids.len(),
            name.as_ptr(),
            name.len(),
            symbols.as_ptr(),
            symbols.len(),
            file.as_ptr(),
            file.len(),
        )
    }
}

pub fn get(records: &[u8], name: &[u8], out: &mut [u8]) -> u64 {
    // SAFETY: as for all calls.
    unsafe { urddolwy_get(records.as_ptr(), records.len(), name.as_ptr(), name.len(), out.as_mut_ptr(), out.len()) }
}

pub fn list(
    records: &[u8],
    idx: u32,
    nr: u32,
    statuses: &mut [u8],
    names: &mut [u8],
    lengths: &mut [u8],
    out: &mut [u8],
) -> u64 {
    // SAFETY: as for all calls.
    unsafe {
        urddolwy_list(
            records.as_ptr(),
            records.len(),
            idx,
            nr,
            statuses.as_mut_ptr(),
            statuses.len(),
            names.as_mut_ptr(),
            names.len(),
            lengths.as_mut_ptr(),
            lengths.len(),
            out.as_mut_ptr(),
            out.len(),
        )
    }
}

pub fn action(
    records: &mut [u8],
    arena: &mut [u8],
    undo: &mut [u8],
    ids: &mut [u8],
    build_id: &[u8],
    name: &[u8],
    command: u32,
    time: u32,
) -> u64 {
    // SAFETY: as for all calls.
    unsafe {
        urddolwy_action(
            records.as_mut_ptr(),
            records.len(),
            arena.as_mut_ptr(),
            arena.len(),
            undo.as_mut_ptr(),
            undo.len(),
            ids.as_mut_ptr(),
            ids.len(),
            build_id.as_ptr(),
            build_id.len(),
            name.as_ptr(),
            name.len(),
            command,
            time,
        )
    }
}

pub fn report(records: &mut [u8], cpu: u32) -> u64 {
    // SAFETY: as for all calls.
    unsafe { urddolwy_report(records.as_mut_ptr(), records.len(), cpu) }
}

pub fn tick(records: &mut [u8]) -> u64 {
    // SAFETY: as for all calls.
    unsafe { urddolwy_tick(records.as_mut_ptr(), records.len()) }
}

pub fn work(records: &mut [u8], text: &mut [u8], undo: &mut [u8]) -> u64 {
    // SAFETY: as for all calls.
    unsafe {
        urddolwy_work(records.as_mut_ptr(), records.len(), text.as_mut_ptr(), text.len(), undo.as_mut_ptr(), undo.len())
    }
}

pub fn top_build_id(records: &[u8], build_id: &[u8], ids: &[u8], out: &mut [u8]) -> u64 {
    // SAFETY: as for all calls.
    unsafe {
        urddolwy_top_build_id(
            records.as_ptr(),
            records.len(),
            build_id.as_ptr(),
            build_id.len(),
            ids.as_ptr(),
            ids.len(),
            out.as_mut_ptr(),
            out.len(),
        )
    }
}

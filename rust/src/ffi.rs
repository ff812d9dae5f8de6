//! The exports of the static library, as include/av1rtp.h declares them, each behind a safe function over slices. This is the one
//! place with `unsafe`: a slice is a valid pointer and its length, and Rust lets no two lent slices overlap where one is written.

/// The words of an answer: an offset, and three of what was asked for.
pub(crate) type Answer = [usize; 4];

mod raw {
    extern "C" {
        pub(super) fn av1rtp_list(
            unit: *const u8,
            unit_length: usize,
            obus: *mut u32,
            obus_length: usize,
            answer: *mut [usize; 4],
        ) -> u32;
        pub(super) fn av1rtp_plan(
            mtu: usize,
            unit: *const u8,
            unit_length: usize,
            obus: *mut u32,
            obus_length: usize,
            plan: *mut u32,
            plan_length: usize,
            answer: *mut [usize; 4],
        ) -> u32;
        pub(super) fn av1rtp_write_packet(
            mtu: usize,
            unit: *const u8,
            unit_length: usize,
            obus: *const u32,
            obus_length: usize,
            plan: *const u32,
            plan_length: usize,
            k: usize,
            out: *mut u8,
            out_length: usize,
            answer: *mut [usize; 4],
        ) -> u32;
        pub(super) fn av1rtp_write_packets(
            mtu: usize,
            unit: *const u8,
            unit_length: usize,
            obus: *const u32,
            obus_length: usize,
            plan: *const u32,
            plan_length: usize,
            first: usize,
            count: usize,
            out: *mut u8,
            out_length: usize,
            answer: *mut [usize; 4],
        ) -> u32;
        pub(super) fn av1rtp_header(
            unit: *const u8,
            unit_length: usize,
            obus: *const u32,
            obus_length: usize,
            plan: *const u32,
            plan_length: usize,
            k: usize,
            answer: *mut [usize; 4],
        ) -> u32;
        pub(super) fn av1rtp_element(
            payload: *const u8,
            payload_length: usize,
            k: usize,
            answer: *mut [usize; 4],
        ) -> u32;
        pub(super) fn av1rtp_receive(
            state: *mut [usize; 3],
            number: u16,
            payload: *const u8,
            payload_length: usize,
            store: *mut u8,
            store_length: usize,
            out: *mut u8,
            out_length: usize,
            answer: *mut [usize; 4],
        ) -> u32;
        pub(super) fn av1rtp_train_head(
            train: *const u8,
            train_length: usize,
            answer: *mut [usize; 4],
        ) -> u32;
        pub(super) fn av1rtp_train_record(
            train: *const u8,
            train_length: usize,
            width: usize,
            at: usize,
            answer: *mut [usize; 4],
        ) -> u32;
        pub(super) fn av1rtp_train_record_head(stated: u32, number: u16, width: usize, head: *mut [u8; 6]);
        pub(super) fn av1rtp_size_field(
            bytes: *const u8,
            bytes_length: usize,
            answer: *mut [usize; 4],
        ) -> u32;
    }
}

#[inline]
pub(crate) fn list(unit: &[u8], obus: &mut [u32], answer: &mut Answer) -> u32 {
    // SAFETY: pointers and lengths are of slices, and of an array of four words, that are lent for the call.
    unsafe { raw::av1rtp_list(unit.as_ptr(), unit.len(), obus.as_mut_ptr(), obus.len(), answer) }
}

#[inline]
pub(crate) fn plan(mtu: usize, unit: &[u8], obus: &mut [u32], plan: &mut [u32], answer: &mut Answer) -> u32 {
    let (obus_to, plan_to) = (obus.as_mut_ptr(), plan.as_mut_ptr());
    // SAFETY: as in `list`.
    unsafe {
        raw::av1rtp_plan(mtu, unit.as_ptr(), unit.len(), obus_to, obus.len(), plan_to, plan.len(), answer)
    }
}

#[inline]
pub(crate) fn write_packet(
    mtu: usize,
    unit: &[u8],
    obus: &[u32],
    plan: &[u32],
    k: usize,
    out: &mut [u8],
    answer: &mut Answer,
) -> u32 {
    let (obus_from, plan_from, out_to) = (obus.as_ptr(), plan.as_ptr(), out.as_mut_ptr());
    // SAFETY: as in `list`.
    unsafe {
        raw::av1rtp_write_packet(
            mtu,
            unit.as_ptr(),
            unit.len(),
            obus_from,
            obus.len(),
            plan_from,
            plan.len(),
            k,
            out_to,
            out.len(),
            answer,
        )
    }
}

/// Which packets: so many from this one on.
pub(crate) struct Run {
    pub(crate) first: usize,
    pub(crate) count: usize,
}

#[inline]
pub(crate) fn write_packets(
    mtu: usize,
    unit: &[u8],
    obus: &[u32],
    plan: &[u32],
    run: Run,
    out: &mut [u8],
    answer: &mut Answer,
) -> u32 {
    let (obus_from, plan_from, out_to) = (obus.as_ptr(), plan.as_ptr(), out.as_mut_ptr());
    // SAFETY: as in `list`.
    unsafe {
        raw::av1rtp_write_packets(
            mtu,
            unit.as_ptr(),
            unit.len(),
            obus_from,
            obus.len(),
            plan_from,
            plan.len(),
            run.first,
            run.count,
            out_to,
            out.len(),
            answer,
        )
    }
}

#[inline]
pub(crate) fn header(unit: &[u8], obus: &[u32], plan: &[u32], k: usize, answer: &mut Answer) -> u32 {
    let (obus_from, plan_from) = (obus.as_ptr(), plan.as_ptr());
    // SAFETY: as in `list`.
    unsafe {
        raw::av1rtp_header(unit.as_ptr(), unit.len(), obus_from, obus.len(), plan_from, plan.len(), k, answer)
    }
}

#[inline]
pub(crate) fn element(payload: &[u8], k: usize, answer: &mut Answer) -> u32 {
    // SAFETY: as in `list`.
    unsafe { raw::av1rtp_element(payload.as_ptr(), payload.len(), k, answer) }
}

#[inline]
pub(crate) fn receive(
    state: &mut [usize; 3],
    number: u16,
    payload: &[u8],
    store: &mut [u8],
    out: &mut [u8],
    answer: &mut Answer,
) -> u32 {
    let (store_to, out_to) = (store.as_mut_ptr(), out.as_mut_ptr());
    // SAFETY: as in `list`; the state is an array of three words.
    unsafe {
        raw::av1rtp_receive(
            state,
            number,
            payload.as_ptr(),
            payload.len(),
            store_to,
            store.len(),
            out_to,
            out.len(),
            answer,
        )
    }
}

#[inline]
pub(crate) fn train_head(train: &[u8], answer: &mut Answer) -> u32 {
    // SAFETY: as in `list`.
    unsafe { raw::av1rtp_train_head(train.as_ptr(), train.len(), answer) }
}

#[inline]
pub(crate) fn train_record(train: &[u8], width: usize, at: usize, answer: &mut Answer) -> u32 {
    // SAFETY: as in `list`.
    unsafe { raw::av1rtp_train_record(train.as_ptr(), train.len(), width, at, answer) }
}

#[inline]
pub(crate) fn train_record_head(stated: u32, number: u16, width: usize, head: &mut [u8; 6]) {
    // SAFETY: the head is an array of six bytes.
    unsafe { raw::av1rtp_train_record_head(stated, number, width, head) }
}

#[inline]
pub(crate) fn size_field(bytes: &[u8], answer: &mut Answer) -> u32 {
    // SAFETY: as in `list`.
    unsafe { raw::av1rtp_size_field(bytes.as_ptr(), bytes.len(), answer) }
}

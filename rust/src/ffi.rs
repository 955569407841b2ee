//! What `slotroute.h` declares.

/// Sizes that a call needs, or where a fault is. The header says which code sets which field.
#[repr(C)]
#[derive(Clone, Copy, Debug, Default, PartialEq, Eq)]
pub struct Told {
    pub parts: usize,
    pub bytes: usize,
    pub reply: usize,
    pub at: usize,
}

/// How far `scan` has come in a message. A new message begins with the default.
#[repr(C)]
#[derive(Clone, Copy, Debug, Default, PartialEq, Eq)]
pub struct Progress {
    /// How many bytes were stepped over. After a message, its length.
    pub bytes: usize,
    /// How many bytes after those hold no end of a line.
    pub searched: usize,
    /// How many items are wanted after the next one.
    pub after: u64,
}

#[repr(C)]
#[derive(Default)]
pub(crate) struct Routed {
    pub kind: u32,
    pub slot: u32,
    pub addr: u32,
    pub policy: u32,
}

#[repr(C)]
#[derive(Default)]
pub(crate) struct Redirected {
    pub kind: u32,
    pub slot: u32,
    pub port: u32,
    pub host_len: usize,
}

#[repr(C)]
#[derive(Clone, Copy)]
pub(crate) struct SessionHandle {
    pub at: *mut u8,
}

impl Default for SessionHandle {
    fn default() -> Self {
        SessionHandle { at: std::ptr::null_mut() }
    }
}

#[repr(C)]
pub(crate) struct SessionSettings {
    pub most_reply_bytes: usize,
    pub most_calls: usize,
    pub most_bytes: usize,
    pub silence: u64,
    pub pause: u64,
    pub retries: u32,
}

#[repr(C)]
#[derive(Default)]
pub(crate) struct SessionAddress {
    pub host_len: usize,
    pub port: u32,
}

#[repr(C)]
#[derive(Default)]
pub(crate) struct SessionReply {
    pub caller: u64,
    pub call: u64,
    pub bytes: usize,
}

#[rustfmt::skip]
extern "C" {
    pub(crate) fn slotroute_version() -> u32;
    pub(crate) fn slotroute_message(answer: u32, text: *mut u8, text_len: usize) -> usize;
    pub(crate) fn slotroute_slot(key: *const u8, key_len: usize) -> u16;
    pub(crate) fn slotroute_request_len(bytes: *const u8, bytes_len: usize, told: *mut Told) -> u32;
    pub(crate) fn slotroute_reply_len(bytes: *const u8, bytes_len: usize, told: *mut Told) -> u32;
    pub(crate) fn slotroute_scan(
        bytes: *const u8, bytes_len: usize, progress: *mut Progress,
    ) -> u32;
    pub(crate) fn slotroute_route(
        request: *const u8, request_len: usize, names: *const u8, names_len: usize, only_reads: u32,
        routed: *mut Routed, told: *mut Told,
    ) -> u32;
    pub(crate) fn slotroute_split(
        request: *const u8, request_len: usize, names: *const u8, names_len: usize,
        slots: *mut u16, slots_len: usize, ends: *mut usize, ends_len: usize,
        out: *mut u8, out_len: usize, told: *mut Told,
    ) -> u32;
    pub(crate) fn slotroute_combine(
        request: *const u8, request_len: usize, names: *const u8, names_len: usize,
        replies: *const u8, replies_len: usize, out: *mut u8, out_len: usize, told: *mut Told,
    ) -> u32;
    pub(crate) fn slotroute_combine_answers(
        policy: u32, count: usize, replies: *const u8, replies_len: usize,
        out: *mut u8, out_len: usize, told: *mut Told,
    ) -> u32;
    pub(crate) fn slotroute_table(
        reply: *const u8, reply_len: usize, answering: *const u8, answering_len: usize,
        addr: u32, pick: usize, numbers: *mut u16, numbers_len: usize,
        nodes: *mut u8, nodes_len: usize, told: *mut Told,
    ) -> u32;
    pub(crate) fn slotroute_redirect(
        text: *const u8, text_len: usize, answering: *const u8, answering_len: usize,
        host: *mut u8, host_len: usize, redirected: *mut Redirected,
    ) -> u32;
    pub(crate) fn slotroute_session_open(
        settings: *const SessionSettings, login: *const u8, login_len: usize,
        session: *mut SessionHandle,
    ) -> u32;
    pub(crate) fn slotroute_session_close(session: SessionHandle);
    pub(crate) fn slotroute_session_add_node(
        session: *mut SessionHandle, host: *const u8, host_len: usize, port: u16, node: *mut usize,
    ) -> u32;
    pub(crate) fn slotroute_session_wanted_node(
        session: *mut SessionHandle, node: *mut usize,
    ) -> u32;
    pub(crate) fn slotroute_session_address(
        session: *mut SessionHandle, node: usize, host: *mut u8, host_len: usize,
        address: *mut SessionAddress,
    ) -> u32;
    pub(crate) fn slotroute_session_connected(
        session: *mut SessionHandle, node: usize, link: *mut usize,
    ) -> u32;
    pub(crate) fn slotroute_session_unreachable(session: *mut SessionHandle, node: usize) -> u32;
    pub(crate) fn slotroute_session_link_to_write(
        session: *mut SessionHandle, link: *mut usize,
    ) -> u32;
    pub(crate) fn slotroute_session_unwritten(
        session: *mut SessionHandle, link: usize, bytes: *mut u8, bytes_len: usize,
    ) -> usize;
    pub(crate) fn slotroute_session_wrote(
        session: *mut SessionHandle, link: usize, count: usize,
    ) -> u32;
    pub(crate) fn slotroute_session_read(
        session: *mut SessionHandle, link: usize, bytes: *const u8, bytes_len: usize,
    ) -> u32;
    pub(crate) fn slotroute_session_ended(session: *mut SessionHandle, link: usize) -> u32;
    pub(crate) fn slotroute_session_link_to_close(
        session: *mut SessionHandle, link: *mut usize,
    ) -> u32;
    pub(crate) fn slotroute_session_begin(
        session: *mut SessionHandle, caller: u64, request: *const u8, request_len: usize,
        deadline: u64, call: *mut u64,
    ) -> u32;
    pub(crate) fn slotroute_refusal_reply(answer: u32, bytes: *mut u8, bytes_len: usize) -> usize;
    pub(crate) fn slotroute_session_give_up(session: *mut SessionHandle, call: u64) -> u32;
    pub(crate) fn slotroute_session_advance(session: *mut SessionHandle, now: u64) -> u32;
    pub(crate) fn slotroute_session_next_time(session: *mut SessionHandle, time: *mut u64) -> u32;
    pub(crate) fn slotroute_session_next_reply(
        session: *mut SessionHandle, reply: *mut SessionReply,
    ) -> u32;
    pub(crate) fn slotroute_session_reply(
        session: *mut SessionHandle, bytes: *mut u8, bytes_len: usize,
    ) -> usize;
}

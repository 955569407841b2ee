#![doc = include_str!("../README.md")]

mod ffi;
#[macro_use]
mod values;
mod session;

pub use ffi::{Progress, Told};
pub use session::{
    CallId, CallerId, LinkId, NodeId, Refusal, Reply, Session, SessionError, Settings,
};
use std::{error::Error, fmt, iter, mem, slice, vec};
pub use values::{Addr, Code, Kind, Policy};

/// What a call returns that did what was asked. Each other number is a `Code`.
const DONE: u32 = 0;

/// How many slots there are.
pub const SLOTS: usize = 16384;

/// The number that stands for no node.
pub const NO_NODE: u16 = 65535;

/// Why a call has no answer, and the sizes and indices that go with it.
#[derive(Clone, Copy, Debug, PartialEq, Eq)]
pub struct Refused {
    pub code: Code,
    pub told: Told,
}

impl Refused {
    fn new(code: u32, told: Told) -> Self {
        Refused { code: code.into(), told }
    }
}

impl fmt::Display for Refused {
    fn fmt(&self, f: &mut fmt::Formatter<'_>) -> fmt::Result {
        f.write_str(&message(self.code.into()))
    }
}

impl Error for Refused {}

/// The text of a code.
fn message(code: u32) -> String {
    let mut text = [0; 100];
    // SAFETY: the pointer and the length are those of one array.
    let len = unsafe { ffi::slotroute_message(code, text.as_mut_ptr(), text.len()) };
    String::from_utf8_lossy(text.get(..len).unwrap_or_default()).into_owned()
}

/// The version of the library: 204 for 0.2.4.
pub fn version() -> u32 {
    // SAFETY: the call takes nothing.
    unsafe { ffi::slotroute_version() }
}

/// The slot of a key.
pub fn slot(key: &[u8]) -> u16 {
    // SAFETY: the pointer and the length are those of one slice. So it is in each call below, and
    // nothing that is written overlaps anything else.
    unsafe { ffi::slotroute_slot(key.as_ptr(), key.len()) }
}

/// The length of the first request, or `None` if more bytes are needed.
pub fn request_len(bytes: &[u8]) -> Result<Option<usize>, Refused> {
    let mut told = Told::default();
    // SAFETY: as in `slot`.
    let code = unsafe { ffi::slotroute_request_len(bytes.as_ptr(), bytes.len(), &mut told) };
    len_unless(Code::RequestIncomplete, code, told)
}

/// The length of the first reply, or `None` if more bytes are needed.
pub fn reply_len(bytes: &[u8]) -> Result<Option<usize>, Refused> {
    let mut told = Told::default();
    // SAFETY: as in `slot`.
    let code = unsafe { ffi::slotroute_reply_len(bytes.as_ptr(), bytes.len(), &mut told) };
    len_unless(Code::ReplyIncomplete, code, told)
}

/// The length of the first message, or `None` if more bytes are needed. Then call again with all
/// bytes and the same `progress`: it goes on where it stopped. A new message begins with
/// `Progress::default()`.
pub fn scan(bytes: &[u8], progress: &mut Progress) -> Result<Option<usize>, Refused> {
    // SAFETY: as in `slot`.
    match unsafe { ffi::slotroute_scan(bytes.as_ptr(), bytes.len(), progress) } {
        DONE => Ok(Some(progress.bytes)),
        code if Code::from(code) == Code::ReplyIncomplete => Ok(None),
        code => Err(Refused::new(code, Told::default())),
    }
}

fn len_unless(incomplete: Code, code: u32, told: Told) -> Result<Option<usize>, Refused> {
    match code {
        DONE => Ok(Some(told.bytes)),
        code if Code::from(code) == incomplete => Ok(None),
        code => Err(Refused::new(code, told)),
    }
}

/// Where a request goes. `slot` and `addr` count for `Kind::Slot`, and `policy` for `Kind::All`,
/// `Kind::AllPrimaries` and `Kind::Slots`.
#[derive(Clone, Copy, Debug, PartialEq, Eq)]
pub struct Routed {
    pub kind: Kind,
    pub slot: u16,
    pub addr: Addr,
    pub policy: Policy,
}

/// Where a request goes. With `only_reads`, a replica may serve it.
pub fn route(request: &[u8], names: &[u8], only_reads: bool) -> Result<Routed, Refused> {
    let (mut routed, mut told) = (ffi::Routed::default(), Told::default());
    // SAFETY: as in `slot`.
    let code = unsafe {
        ffi::slotroute_route(
            request.as_ptr(),
            request.len(),
            names.as_ptr(),
            names.len(),
            only_reads.into(),
            &mut routed,
            &mut told,
        )
    };
    if code != DONE {
        return Err(Refused::new(code, told));
    }
    Ok(Routed {
        kind: routed.kind.into(),
        slot: narrow(routed.slot),
        addr: routed.addr.into(),
        policy: routed.policy.into(),
    })
}

/// A slot or a port, which the library writes as 32 bits.
fn narrow(number: u32) -> u16 {
    u16::try_from(number).unwrap_or(u16::MAX)
}

/// Calls with room for as much as `told` says, until it is enough.
fn with_room(mut told: Told, mut call: impl FnMut(&mut Told) -> u32) -> Result<Told, Refused> {
    loop {
        match call(&mut told) {
            DONE => return Ok(told),
            code if Code::from(code) == Code::TooSmall => continue,
            code => return Err(Refused::new(code, told)),
        }
    }
}

/// The bytes that a call writes, which is made again if they do not fit.
fn written(
    room: usize,
    mut call: impl FnMut(&mut [u8], &mut Told) -> u32,
) -> Result<Vec<u8>, Refused> {
    let mut out = Vec::new();
    let told = with_room(Told { bytes: room, ..Told::default() }, |told| {
        out.resize(told.bytes, 0);
        call(&mut out, told)
    })?;
    out.truncate(told.bytes);
    Ok(out)
}

/// The bytes of each part, one after the other.
#[derive(Clone, Debug)]
pub struct Pieces<'a> {
    bytes: &'a [u8],
    ends: iter::Copied<slice::Iter<'a, usize>>,
    start: usize,
}

impl<'a> Pieces<'a> {
    fn new(bytes: &'a [u8], ends: &'a [usize]) -> Self {
        Pieces { bytes, ends: ends.iter().copied(), start: 0 }
    }
}

impl<'a> Iterator for Pieces<'a> {
    type Item = &'a [u8];

    fn next(&mut self) -> Option<&'a [u8]> {
        let end = self.ends.next()?;
        self.bytes.get(mem::replace(&mut self.start, end)..end)
    }

    fn size_hint(&self) -> (usize, Option<usize>) {
        self.ends.size_hint()
    }
}

impl ExactSizeIterator for Pieces<'_> {}

/// The parts of a request: for each its slot and its bytes.
#[derive(Clone, Debug, Default, PartialEq, Eq)]
pub struct Parts {
    slots: Vec<u16>,
    ends: Vec<usize>,
    bytes: Vec<u8>,
}

/// Each part of `Parts`: its slot and its bytes.
pub type PartsIter<'a> = iter::Zip<iter::Copied<slice::Iter<'a, u16>>, Pieces<'a>>;

impl Parts {
    /// Each part, in the order of the first keys.
    pub fn iter(&self) -> PartsIter<'_> {
        self.slots.iter().copied().zip(Pieces::new(&self.bytes, &self.ends))
    }

    /// How many parts there are.
    pub fn len(&self) -> usize {
        self.slots.len()
    }

    /// Whether there is no part. `split` makes at least one.
    pub fn is_empty(&self) -> bool {
        self.slots.is_empty()
    }
}

impl<'a> IntoIterator for &'a Parts {
    type Item = (u16, &'a [u8]);
    type IntoIter = PartsIter<'a>;

    fn into_iter(self) -> PartsIter<'a> {
        self.iter()
    }
}

/// Gives each part bytes of its own, which are copied. `&Parts` borrows them.
impl IntoIterator for Parts {
    type Item = (u16, Vec<u8>);
    type IntoIter = vec::IntoIter<(u16, Vec<u8>)>;

    fn into_iter(self) -> Self::IntoIter {
        let own: Vec<_> = self.iter().map(|(slot, bytes)| (slot, bytes.to_vec())).collect();
        own.into_iter()
    }
}

/// Splits a request by slot.
pub fn split(request: &[u8], names: &[u8]) -> Result<Parts, Refused> {
    let mut parts = Parts::default();
    let room = Told { parts: 16, bytes: 2 * request.len() + 64, ..Told::default() };
    let told = with_room(room, |told| {
        parts.slots.resize(told.parts, 0);
        parts.ends.resize(told.parts, 0);
        parts.bytes.resize(told.bytes, 0);
        let Parts { slots, ends, bytes } = &mut parts;
        // SAFETY: as in `slot`.
        unsafe {
            ffi::slotroute_split(
                request.as_ptr(),
                request.len(),
                names.as_ptr(),
                names.len(),
                slots.as_mut_ptr(),
                slots.len(),
                ends.as_mut_ptr(),
                ends.len(),
                bytes.as_mut_ptr(),
                bytes.len(),
                told,
            )
        }
    })?;
    parts.slots.truncate(told.parts);
    parts.ends.truncate(told.parts);
    parts.bytes.truncate(told.bytes);
    Ok(parts)
}

/// The one reply to a request, by the replies to its parts, in the order of the parts.
pub fn combine(request: &[u8], names: &[u8], replies: &[u8]) -> Result<Vec<u8>, Refused> {
    written(replies.len() + 64, |out, told| {
        // SAFETY: as in `slot`.
        unsafe {
            ffi::slotroute_combine(
                request.as_ptr(),
                request.len(),
                names.as_ptr(),
                names.len(),
                replies.as_ptr(),
                replies.len(),
                out.as_mut_ptr(),
                out.len(),
                told,
            )
        }
    })
}

/// The one reply to a request that went whole to `count` nodes, by the policy of its route.
pub fn combine_answers(policy: Policy, count: usize, replies: &[u8]) -> Result<Vec<u8>, Refused> {
    written(replies.len() + 64, |out, told| {
        // SAFETY: as in `slot`.
        unsafe {
            ffi::slotroute_combine_answers(
                policy.into(),
                count,
                replies.as_ptr(),
                replies.len(),
                out.as_mut_ptr(),
                out.len(),
                told,
            )
        }
    })
}

/// The number of each slot's node, or `NO_NODE`, and `HOST:PORT` of each node.
#[derive(Clone, Debug, PartialEq, Eq)]
pub struct Table {
    pub numbers: Vec<u16>,
    pub nodes: Vec<String>,
}

/// The table of a reply to `CLUSTER SLOTS` of the host `answering`: of the primaries, or of the
/// replica at `pick` modulo their count.
pub fn table(reply: &[u8], answering: &str, addr: Addr, pick: usize) -> Result<Table, Refused> {
    let mut numbers = vec![NO_NODE; SLOTS];
    let lines = written(reply.len() + 64, |nodes, told| {
        // SAFETY: as in `slot`.
        unsafe {
            ffi::slotroute_table(
                reply.as_ptr(),
                reply.len(),
                answering.as_ptr(),
                answering.len(),
                addr.into(),
                pick,
                numbers.as_mut_ptr(),
                numbers.len(),
                nodes.as_mut_ptr(),
                nodes.len(),
                told,
            )
        }
    })?;
    let nodes = String::from_utf8_lossy(&lines).lines().map(str::to_owned).collect();
    Ok(Table { numbers, nodes })
}

/// A redirect: `MOVED`, or `ASK`, after which `ASKING` comes first.
#[derive(Clone, Debug, PartialEq, Eq)]
pub struct Redirect {
    pub is_ask: bool,
    pub slot: u16,
    pub host: String,
    pub port: u16,
}

/// What the text of an error says of a redirect, or `None` if it is another error. The host is
/// `answering` if the text names none.
pub fn redirect(text: &[u8], answering: &str) -> Result<Option<Redirect>, Refused> {
    let mut told = ffi::Redirected::default();
    let mut host = vec![0; text.len() + answering.len()];
    // SAFETY: as in `slot`.
    let code = unsafe {
        ffi::slotroute_redirect(
            text.as_ptr(),
            text.len(),
            answering.as_ptr(),
            answering.len(),
            host.as_mut_ptr(),
            host.len(),
            &mut told,
        )
    };
    match code {
        DONE => Ok(Some(Redirect {
            is_ask: told.kind == 2,
            slot: narrow(told.slot),
            host: String::from_utf8_lossy(&host[..told.host_len]).into_owned(),
            port: narrow(told.port),
        })),
        code if Code::from(code) == Code::NoRedirect => Ok(None),
        code => Err(Refused::new(code, Told::default())),
    }
}

#[cfg(test)]
mod tests {
    use super::*;

    #[test]
    fn keys_lengths_and_routes() {
        assert_eq!((version(), slot(b"foo")), (204, 12182));
        assert_eq!(request_len(b"*1\r\n$4\r\nPING\r\n+"), Ok(Some(14)));
        assert_eq!(reply_len(b"*2\r\n:1\r\n"), Ok(None));
        assert_eq!(reply_len(b"?").map_err(|refused| refused.code), Err(Code::ReplyMalformed));
        let (mut progress, message) = (Progress::default(), b"%1\r\n+a\r\n#t\r\n:5\r\n");
        assert!((0..12).all(|len| scan(&message[..len], &mut progress) == Ok(None)));
        assert_eq!(scan(message, &mut progress), Ok(Some(12)));
        assert_eq!(
            scan(b"?", &mut Progress::default()).map_err(|refused| refused.code),
            Err(Code::ReplyMalformed)
        );
        let routed = route(b"*2\r\n$3\r\nGET\r\n$3\r\nfoo\r\n", b"", true);
        assert_eq!(
            routed,
            Ok(Routed {
                kind: Kind::Slot,
                slot: 12182,
                addr: Addr::ReplicaOptional,
                policy: Policy::None
            })
        );
        let error = split(b"*2\r\n$3\r\nGET\r\n$3\r\nfoo\r\n", b"").unwrap_err();
        assert!(!error.to_string().is_empty());
    }

    #[test]
    fn tables_and_replies_of_several_nodes() {
        let reply = b"*2\r\n*3\r\n:0\r\n:8191\r\n*2\r\n$1\r\na\r\n:1\r\n\
            *3\r\n:8192\r\n:16383\r\n*2\r\n$1\r\nb\r\n:2\r\n";
        let table = table(reply, "c", Addr::Primary, 0).unwrap();
        assert_eq!(table.nodes, ["a:1", "b:2"]);
        assert_eq!(
            ["bar", "foo"].map(|key| table.numbers[usize::from(slot(key.as_bytes()))]),
            [0, 1]
        );
        assert_eq!(combine_answers(Policy::Sum, 2, b":3\r\n:4\r\n").unwrap(), b":7\r\n");
    }

    #[test]
    fn many_parts_need_more_room() {
        let mut request = b"*41\r\n$3\r\nDEL\r\n".to_vec();
        (0..40).for_each(|key| request.extend_from_slice(format!("$3\r\n{key:03}\r\n").as_bytes()));
        let parts = split(&request, b"").unwrap();
        assert_eq!(
            parts
                .iter()
                .map(|(_, part)| request_len(part).unwrap())
                .filter(|len| len.is_some())
                .count(),
            40
        );
        assert_eq!(combine(&request, b"", &b":1\r\n".repeat(40)).unwrap(), b":40\r\n");
    }

    #[test]
    fn names_of_a_module() {
        let request = b"*3\r\n$9\r\nCOUNTKEYS\r\n$3\r\nfoo\r\n$3\r\nbar\r\n";
        let names = b"multi keys sum COUNTKEYS\n";
        assert_eq!(split(request, names).unwrap().into_iter().count(), 2);
        assert_eq!(combine(request, names, b":1\r\n:2\r\n").unwrap(), b":3\r\n");
        let error = split(request, b"\nmulti keys sum MGET\n").unwrap_err();
        assert_eq!((error.code, error.told.at), (Code::BadName, 0));
    }

    #[test]
    fn redirects() {
        let moved = redirect(b"MOVED 3999 127.0.0.1:6381", "n1").unwrap().unwrap();
        assert_eq!(
            (moved.is_ask, moved.slot, moved.host.as_str(), moved.port),
            (false, 3999, "127.0.0.1", 6381)
        );
        assert_eq!(redirect(b"ERR no", "n1"), Ok(None));
    }
}

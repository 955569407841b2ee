//! A client of a cluster without sockets.

use crate::{ffi, message, DONE};
use std::{error::Error, fmt, num::NonZeroU64};

/// How many bytes `unwritten` lends at most, and how many the buffer of a session keeps.
const ROOM: usize = 65536;

/// A node of a session.
#[derive(Clone, Copy, Debug, PartialEq, Eq, PartialOrd, Ord, Hash)]
pub struct NodeId(usize);

impl NodeId {
    /// The number of the node. The first node has 0.
    pub fn index(self) -> usize {
        self.0
    }
}

/// One connection to a node. The id of a link that ended names no later link. So bytes that come late
/// from an old connection reach no new one, although a session uses the numbers of links again.
#[derive(Clone, Copy, Debug, PartialEq, Eq, PartialOrd, Ord, Hash)]
pub struct LinkId {
    number: usize,
    count: u64,
}

impl LinkId {
    /// The number of the link. It is small, and no other open link has it. So it can be an index.
    pub fn index(self) -> usize {
        self.number
    }
}

/// Who asks. Your program chooses the numbers. A caller's replies come in the order of its calls.
#[derive(Clone, Copy, Debug, Default, PartialEq, Eq, PartialOrd, Ord, Hash)]
pub struct CallerId(pub u64);

/// One request of a caller.
#[derive(Clone, Copy, Debug, PartialEq, Eq, PartialOrd, Ord, Hash)]
pub struct CallId(u64);

impl CallId {
    /// The number of the call. No other call of the session has it.
    pub fn number(self) -> u64 {
        self.0
    }
}

numbers! {
    /// Why a session did not do what it was told.
    SessionError {
        /// There is no memory. The call says what holds then.
        NoMemory = 1,
        /// There is no such node or link, or there are not so many bytes. Of `add_node`: the session
        /// knows as many nodes as it can.
        NotThere = 20,
    }
}

impl fmt::Display for SessionError {
    fn fmt(&self, f: &mut fmt::Formatter<'_>) -> fmt::Result {
        f.write_str(&message((*self).into()))
    }
}

impl Error for SessionError {}

numbers! {
    /// Why a session refuses a request. Nothing of the request is asked.
    Refusal {
        /// There is no memory.
        NoMemory = 1,
        /// The request is not whole.
        RequestIncomplete = 3,
        /// The bytes begin no request.
        RequestMalformed = 4,
        /// Bytes follow the request.
        AfterRequest = 5,
        /// The replies of several nodes to this command make no one reply.
        NoForm = 13,
        /// The request goes to no node, as `DEL` without a key.
        NotRoutable = 17,
        /// Shared links do not take this command, as `SUBSCRIBE`.
        NotTaken = 21,
        /// Shared links do not take a command that waits, as `XREAD BLOCK`.
        Blocking = 22,
        /// The session keeps as many calls, or bytes of requests, as its settings allow.
        TooMany = 23,
    }
}

impl Refusal {
    /// The reply that tells a client why its request was refused, as
    /// `-ERR shared links do not take this command\r\n`. A number that is unknown has no reply.
    pub fn reply(self) -> Vec<u8> {
        let mut bytes = vec![0; 80];
        // SAFETY: the pointer and the length are those of one vector.
        let len =
            unsafe { ffi::slotroute_refusal_reply(self.into(), bytes.as_mut_ptr(), bytes.len()) };
        bytes.truncate(len);
        bytes
    }
}

impl fmt::Display for Refusal {
    fn fmt(&self, f: &mut fmt::Formatter<'_>) -> fmt::Result {
        f.write_str(&message((*self).into()))
    }
}

impl Error for Refusal {}

/// How a session asks. The default is for times in milliseconds.
#[derive(Clone, Debug, PartialEq, Eq)]
pub struct Settings {
    /// The request that each link begins with, such as `AUTH`. It may be empty.
    pub login: Vec<u8>,
    /// How many bytes a reply may have. A link with a longer one is to be closed.
    pub most_reply_bytes: usize,
    /// How many calls may be kept, of all callers together.
    pub most_calls: usize,
    /// How many bytes the requests of the kept calls may have together.
    pub most_bytes: usize,
    /// How long a link may owe a reply without a byte coming. `None`: forever, so a session never leaves
    /// a node that hangs.
    pub silence: Option<NonZeroU64>,
    /// How long a part pauses that a node cannot run yet, as after `TRYAGAIN`.
    pub pause: u64,
    /// How often nodes may refuse a part before it is given up. The pauses of all retries together are to
    /// be longer than a failover takes.
    pub retries: u32,
}

impl Default for Settings {
    fn default() -> Self {
        Settings {
            login: Vec::new(),
            most_reply_bytes: 1 << 29,
            most_calls: 100_000,
            most_bytes: 1 << 30,
            silence: NonZeroU64::new(10_000),
            pause: 100,
            retries: 100,
        }
    }
}

/// The reply of a session to a call.
#[derive(Clone, Copy, Debug, PartialEq, Eq)]
pub struct Reply<'a> {
    /// Who asked.
    pub caller: CallerId,
    /// What was asked.
    pub call: CallId,
    /// The reply as RESP2 has it, such as `$1\r\nx\r\n`. It may be an error.
    pub bytes: &'a [u8],
}

/// A client of a cluster without sockets. It takes requests of many callers, asks them at the nodes
/// that serve them, and gives each caller its replies. It splits commands such as `MGET`, asks for the
/// map, and follows redirects.
///
/// Your program connects, writes, reads and tells the time. It has to tell truly what happened. Times
/// are of your clock, in any unit. Again and again:
///
/// 1. Call `advance` with the time, `read` with what came, and `begin` for each new request.
/// 2. Act on `link_to_close`, `next_reply` and `wanted_node` until they return `None`.
/// 3. Write what `unwritten` has for each link, and call `wrote`.
/// 4. Wait for a socket, until `next_time` at most.
///
/// `examples/client.rs` is a whole client. A session may move to another thread. If it is dropped,
/// callers that wait get no reply.
///
/// A reply is borrowed until the next call of the session:
///
/// ```compile_fail
/// # fn main() -> Result<(), slotroute::SessionError> {
/// let mut session = slotroute::Session::open(&slotroute::Settings::default())?;
/// let reply = session.next_reply()?;
/// session.advance(1)?;
/// println!("{reply:?}");
/// # Ok(())
/// # }
/// ```
pub struct Session {
    handle: ffi::SessionHandle,
    /// How often a link of each number began or ended.
    counts: Vec<u64>,
    /// What `unwritten` and `next_reply` lend.
    bytes: Vec<u8>,
}

// SAFETY: the header lets a session move from thread to thread. One thread at a time uses it, as each
// call here takes `&mut self`.
unsafe impl Send for Session {}

impl fmt::Debug for Session {
    fn fmt(&self, f: &mut fmt::Formatter<'_>) -> fmt::Result {
        f.debug_struct("Session").finish_non_exhaustive()
    }
}

impl Drop for Session {
    fn drop(&mut self) {
        // SAFETY: the handle was opened, and is used no more.
        unsafe { ffi::slotroute_session_close(self.handle) }
    }
}

/// Whether a call did what was asked, or why not.
fn done(code: u32) -> Result<(), SessionError> {
    match code {
        DONE => Ok(()),
        code => Err(code.into()),
    }
}

/// What a call writes if it has something to name.
fn named<T: Default>(call: impl FnOnce(&mut T) -> u32) -> Option<T> {
    let mut name = T::default();
    (call(&mut name) == DONE).then_some(name)
}

impl Session {
    /// Opens a session without nodes, links and calls. `NoMemory`: there is no session.
    pub fn open(settings: &Settings) -> Result<Self, SessionError> {
        let mut handle = ffi::SessionHandle::default();
        let own = ffi::SessionSettings {
            most_reply_bytes: settings.most_reply_bytes,
            most_calls: settings.most_calls,
            most_bytes: settings.most_bytes,
            silence: settings.silence.map_or(0, NonZeroU64::get),
            pause: settings.pause,
            retries: settings.retries,
        };
        let login = settings.login.as_slice();
        // SAFETY: a pointer and a length are those of one slice, and nothing that is written overlaps
        // anything else. In the calls below the handle is open, too, and `&mut self` keeps others from it.
        done(unsafe {
            ffi::slotroute_session_open(&own, login.as_ptr(), login.len(), &mut handle)
        })?;
        Ok(Session { handle, counts: Vec::new(), bytes: Vec::new() })
    }

    /// Adds a node. It needs a link then. A node that is known keeps its id. `NotThere`: 65534 nodes are
    /// known. After an error the node is not added.
    pub fn add_node(&mut self, host: &str, port: u16) -> Result<NodeId, SessionError> {
        let mut node = 0;
        // SAFETY: as in `open`.
        done(unsafe {
            ffi::slotroute_session_add_node(
                &mut self.handle,
                host.as_ptr(),
                host.len(),
                port,
                &mut node,
            )
        })?;
        Ok(NodeId(node))
    }

    /// A node that needs a link. Each is named once. Connect to it, and then call `connected` or
    /// `unreachable`.
    pub fn wanted_node(&mut self) -> Option<NodeId> {
        // SAFETY: as in `open`.
        named(|node| unsafe { ffi::slotroute_session_wanted_node(&mut self.handle, node) })
            .map(NodeId)
    }

    /// The host and the port of a node, as `TcpStream::connect` takes them. `None`: this session has no
    /// such node.
    pub fn address(&mut self, node: NodeId) -> Option<(String, u16)> {
        let (mut told, mut host) = (ffi::SessionAddress::default(), vec![0; 64]);
        loop {
            // SAFETY: as in `open`.
            let code = unsafe {
                ffi::slotroute_session_address(
                    &mut self.handle,
                    node.0,
                    host.as_mut_ptr(),
                    host.len(),
                    &mut told,
                )
            };
            let is_enough = told.host_len <= host.len();
            host.resize(told.host_len, 0);
            if is_enough {
                let host = String::from_utf8_lossy(&host).into_owned();
                return (code == DONE).then_some((host, crate::narrow(told.port)));
            }
        }
    }

    /// Notes a new connection to a node, and makes a link of it. After an error there is no link: close
    /// the connection.
    pub fn connected(&mut self, node: NodeId) -> Result<LinkId, SessionError> {
        let mut number = 0;
        // SAFETY: as in `open`.
        done(unsafe { ffi::slotroute_session_connected(&mut self.handle, node.0, &mut number) })?;
        if number >= self.counts.len() {
            self.counts.resize(number + 1, 0);
        }
        self.counts[number] += 1;
        Ok(self.link(number))
    }

    /// Notes that no connection to a node could be made. After a pause `wanted_node` names it again
    /// if it is still needed.
    pub fn unreachable(&mut self, node: NodeId) -> Result<(), SessionError> {
        // SAFETY: as in `open`.
        done(unsafe { ffi::slotroute_session_unreachable(&mut self.handle, node.0) })
    }

    /// The open link of a number.
    fn link(&self, number: usize) -> LinkId {
        LinkId { number, count: self.counts.get(number).copied().unwrap_or_default() }
    }

    /// Whether a link has not ended.
    fn is_open(&self, link: LinkId) -> bool {
        self.link(link.number) == link
    }

    /// A link on which something was asked, so it has bytes to be written. It is named once, and again
    /// if more is asked.
    pub fn link_to_write(&mut self) -> Option<LinkId> {
        // SAFETY: as in `open`.
        named(|link| unsafe { ffi::slotroute_session_link_to_write(&mut self.handle, link) })
            .map(|number| self.link(number))
    }

    /// The first bytes that are to be written on a link, at most 65536. Write them, or as many as the
    /// socket takes. Then call `wrote`.
    pub fn unwritten(&mut self, link: LinkId) -> &[u8] {
        if !self.is_open(link) {
            return &[];
        }
        self.make_room(ROOM);
        // SAFETY: as in `open`.
        let len = unsafe {
            ffi::slotroute_session_unwritten(
                &mut self.handle,
                link.number,
                self.bytes.as_mut_ptr(),
                self.bytes.len(),
            )
        };
        &self.bytes[..len.min(ROOM)]
    }

    /// Notes that so many bytes more were written on a link. `NotThere`: not so many were to be
    /// written, or the link ended. Nothing changes then.
    pub fn wrote(&mut self, link: LinkId, count: usize) -> Result<(), SessionError> {
        if !self.is_open(link) {
            return Err(SessionError::NotThere);
        }
        // SAFETY: as in `open`.
        done(unsafe { ffi::slotroute_session_wrote(&mut self.handle, link.number, count) })
    }

    /// Takes what was read on a link. Nothing changes if the link ended. After `NoMemory`,
    /// `link_to_close` may name the link. If it does not, call `read` without bytes to go on.
    pub fn read(&mut self, link: LinkId, bytes: &[u8]) -> Result<(), SessionError> {
        if !self.is_open(link) {
            return Ok(());
        }
        // SAFETY: as in `open`.
        done(unsafe {
            ffi::slotroute_session_read(&mut self.handle, link.number, bytes.as_ptr(), bytes.len())
        })
    }

    /// Notes that the connection of a link ended, or was closed. Nothing changes if the link ended
    /// before. After `NoMemory` the link ended, too. A later call asks what could not be asked.
    pub fn ended(&mut self, link: LinkId) -> Result<(), SessionError> {
        if !self.is_open(link) {
            return Ok(());
        }
        self.counts[link.number] += 1;
        // SAFETY: as in `open`.
        done(unsafe { ffi::slotroute_session_ended(&mut self.handle, link.number) })
    }

    /// A link that is to be closed. It is named until `ended` is called for it.
    pub fn link_to_close(&mut self) -> Option<LinkId> {
        // SAFETY: as in `open`.
        named(|link| unsafe { ffi::slotroute_session_link_to_close(&mut self.handle, link) })
            .map(|number| self.link(number))
    }

    /// Begins a call: a request of a caller, such as `*2\r\n$3\r\nGET\r\n$3\r\nfoo\r\n`. If its reply is
    /// not there at the deadline, the reply is an error. A refused request changes nothing.
    /// `Refusal::reply` has the reply for the client.
    pub fn begin(
        &mut self,
        caller: CallerId,
        request: &[u8],
        deadline: u64,
    ) -> Result<CallId, Refusal> {
        let mut call = 0;
        // SAFETY: as in `open`.
        let code = unsafe {
            ffi::slotroute_session_begin(
                &mut self.handle,
                caller.0,
                request.as_ptr(),
                request.len(),
                deadline,
                &mut call,
            )
        };
        match code {
            DONE => Ok(CallId(call)),
            code => Err(code.into()),
        }
    }

    /// Gives a call up: its caller gets no reply to it. Returns whether the caller waited.
    pub fn give_up(&mut self, call: CallId) -> bool {
        // SAFETY: as in `open`.
        unsafe { ffi::slotroute_session_give_up(&mut self.handle, call.0) == DONE }
    }

    /// Notes what time it is. A time before the last one counts as the last one. After `NoMemory`, a
    /// later call asks what could not be asked.
    pub fn advance(&mut self, now: u64) -> Result<(), SessionError> {
        // SAFETY: as in `open`.
        done(unsafe { ffi::slotroute_session_advance(&mut self.handle, now) })
    }

    /// The time at which `advance` is to be called next, or `None` if nothing waits for a time.
    pub fn next_time(&mut self) -> Option<u64> {
        // SAFETY: as in `open`.
        named(|time| unsafe { ffi::slotroute_session_next_time(&mut self.handle, time) })
    }

    /// The next reply, or `None` if no reply is there. A caller's replies come in the order of its
    /// calls. After `NoMemory`, the replies that are there come in later calls.
    pub fn next_reply(&mut self) -> Result<Option<Reply<'_>>, SessionError> {
        let mut due = ffi::SessionReply::default();
        // SAFETY: as in `open`.
        match done(unsafe { ffi::slotroute_session_next_reply(&mut self.handle, &mut due) }) {
            Err(SessionError::NotThere) => return Ok(None),
            other => other?,
        }
        self.make_room(due.bytes);
        // SAFETY: as in `open`.
        let len = unsafe {
            ffi::slotroute_session_reply(
                &mut self.handle,
                self.bytes.as_mut_ptr(),
                self.bytes.len(),
            )
        };
        let (caller, call) = (CallerId(due.caller), CallId(due.call));
        Ok(Some(Reply { caller, call, bytes: &self.bytes[..len] }))
    }

    /// Makes the buffer long enough. It keeps `ROOM` bytes after a longer reply.
    fn make_room(&mut self, len: usize) {
        let len = len.max(ROOM);
        self.bytes.resize(len, 0);
        self.bytes.shrink_to(len);
    }
}

#[cfg(test)]
mod tests {
    use super::*;
    use std::thread;

    const ASK_MAP: &[u8] = b"*2\r\n$7\r\nCLUSTER\r\n$5\r\nSLOTS\r\n";
    const GET_FOO: &[u8] = b"*2\r\n$3\r\nGET\r\n$3\r\nfoo\r\n";
    const GET_BAR: &[u8] = b"*2\r\n$3\r\nGET\r\n$3\r\nbar\r\n";
    const LOST: &str = "-ERR a connection ended; the command may have taken effect\r\n";

    /// A map in which one host has all slots.
    fn map_of(host: &str) -> Vec<u8> {
        let len = host.len();
        format!("*1\r\n*3\r\n:0\r\n:16383\r\n*2\r\n${len}\r\n{host}\r\n:7000\r\n").into()
    }

    /// Connects to the node that needs a link, which has to have this host.
    fn connect(session: &mut Session, host: &str) -> LinkId {
        let node = session.wanted_node().unwrap();
        assert_eq!(session.address(node), Some((host.to_owned(), 7000)));
        session.connected(node).unwrap()
    }

    /// A session with a link to its one node, which has told its map.
    fn connected(settings: &Settings) -> (Session, LinkId) {
        let mut session = Session::open(settings).unwrap();
        session.add_node("n1", 7000).unwrap();
        let link = connect(&mut session, "n1");
        write(&mut session, link, ASK_MAP);
        session.read(link, &map_of("n1")).unwrap();
        (session, link)
    }

    /// Writes what is to be written on a link, which has to be this.
    fn write(session: &mut Session, link: LinkId, wanted: &[u8]) {
        assert_eq!(session.unwritten(link), wanted);
        session.wrote(link, wanted.len()).unwrap();
    }

    fn begin(session: &mut Session, caller: u64, request: &[u8]) -> CallId {
        session.begin(CallerId(caller), request, 100).unwrap()
    }

    /// The caller, the call and the text of the next reply.
    fn next(session: &mut Session) -> Option<(u64, CallId, String)> {
        let reply = session.next_reply().unwrap()?;
        Some((reply.caller.0, reply.call, String::from_utf8(reply.bytes.to_vec()).unwrap()))
    }

    #[test]
    fn a_reply_in_pieces_goes_to_its_caller() {
        let (mut session, link) = connected(&Settings { silence: None, ..Settings::default() });
        let call = begin(&mut session, 7, GET_FOO);
        assert_eq!((session.next_time(), session.link_to_close()), (Some(100), None));
        assert_eq!(session.link_to_write(), Some(link));
        assert_eq!(session.wrote(link, GET_FOO.len() + 1), Err(SessionError::NotThere));
        session.wrote(link, 4).unwrap();
        write(&mut session, link, &GET_FOO[4..]);
        session.read(link, b"$1\r\nx").unwrap();
        assert_eq!(next(&mut session), None);
        session.read(link, b"\r\n").unwrap();
        assert_eq!(next(&mut session), Some((7, call, "$1\r\nx\r\n".to_owned())));
        assert_eq!((next(&mut session), session.next_time()), (None, None));
    }

    #[test]
    fn a_call_that_is_given_up_takes_no_other_reply() {
        let (mut session, link) = connected(&Settings::default());
        let (first, second) = (begin(&mut session, 7, GET_FOO), begin(&mut session, 8, GET_BAR));
        write(&mut session, link, &[GET_FOO, GET_BAR].concat());
        assert!(session.give_up(first) && !session.give_up(first));
        session.read(link, b"+x\r\n+y\r\n").unwrap();
        assert_eq!(next(&mut session), Some((8, second, "+y\r\n".to_owned())));
        assert_eq!(next(&mut session), None);
    }

    #[test]
    fn a_part_that_moved_is_asked_at_its_node() {
        let (mut session, link) = connected(&Settings::default());
        let request = b"*3\r\n$4\r\nMGET\r\n$3\r\nfoo\r\n$3\r\nbar\r\n";
        let [foo, bar] = ["foo", "bar"].map(|key| format!("*2\r\n$4\r\nMGET\r\n$3\r\n{key}\r\n"));
        let call = begin(&mut session, 7, request);
        write(&mut session, link, [foo.as_str(), &bar].concat().as_bytes());
        session.read(link, b"-MOVED 12182 n2:7000\r\n*1\r\n$1\r\ny\r\n").unwrap();
        let other = connect(&mut session, "n2");
        assert!(other.index() != link.index());
        assert!(session.unwritten(other).starts_with(foo.as_bytes()));
        session.wrote(other, foo.len()).unwrap();
        session.read(other, b"*1\r\n$1\r\nx\r\n").unwrap();
        let reply = "*2\r\n$1\r\nx\r\n$1\r\ny\r\n".to_owned();
        assert_eq!(next(&mut session), Some((7, call, reply)));
    }

    #[test]
    fn a_link_that_ended_is_no_later_link() {
        let (mut session, link) = connected(&Settings::default());
        let (lost, kept) = (begin(&mut session, 7, GET_FOO), begin(&mut session, 8, GET_BAR));
        session.wrote(link, 1).unwrap();
        session.ended(link).unwrap();
        assert_eq!(next(&mut session), Some((7, lost, LOST.to_owned())));
        let later = connect(&mut session, "n1");
        assert_eq!((later.index(), later == link), (link.index(), false));
        assert!(
            session.unwritten(later).starts_with(GET_BAR) && session.unwritten(link).is_empty()
        );
        session.wrote(later, GET_BAR.len()).unwrap();
        session.read(link, b"+old\r\n").unwrap();
        session.ended(link).unwrap();
        assert_eq!(
            (next(&mut session), session.wrote(link, 0)),
            (None, Err(SessionError::NotThere))
        );
        session.read(later, b"+new\r\n").unwrap();
        assert_eq!(next(&mut session), Some((8, kept, "+new\r\n".to_owned())));
    }

    #[test]
    fn deadlines_silence_and_logins() {
        let login = b"*2\r\n$4\r\nAUTH\r\n$1\r\np\r\n".to_vec();
        let silence = NonZeroU64::new(200);
        let settings = Settings { silence, login, pause: 10, ..Settings::default() };
        let mut session = Session::open(&settings).unwrap();
        let node = session.add_node("n1", 7000).unwrap();
        assert_eq!((session.add_node("n1", 7000), session.wanted_node()), (Ok(node), Some(node)));
        session.unreachable(node).unwrap();
        let call = begin(&mut session, 7, GET_FOO);
        assert_eq!((session.wanted_node(), session.next_time()), (None, Some(10)));
        session.advance(10).unwrap();
        let link = connect(&mut session, "n1");
        write(&mut session, link, &settings.login);
        session.advance(100).unwrap();
        let (caller, late, text) = next(&mut session).unwrap();
        assert_eq!((caller, late), (7, call));
        assert!(text.ends_with("; the command did not take effect\r\n"), "{text}");
        session.advance(300).unwrap();
        assert_eq!((session.link_to_close(), session.next_time()), (None, Some(300)));
        session.advance(300).unwrap();
        assert_eq!(session.link_to_close(), Some(link));
    }

    #[test]
    fn what_is_refused_and_how_it_is_told() {
        let (mut session, _) = connected(&Settings { most_calls: 1, ..Settings::default() });
        let mut refusal = |request: &[u8]| session.begin(CallerId(7), request, 100).unwrap_err();
        assert_eq!(refusal(b"*1"), Refusal::RequestIncomplete);
        assert_eq!(refusal(&[GET_FOO, b"x"].concat()), Refusal::AfterRequest);
        let not_taken = refusal(b"*2\r\n$9\r\nSUBSCRIBE\r\n$1\r\na\r\n");
        assert_eq!(not_taken, Refusal::NotTaken);
        assert_eq!(not_taken.reply(), b"-ERR shared links do not take this command\r\n");
        assert!(!not_taken.to_string().is_empty() && Refusal::Unknown(99).reply().is_empty());
        begin(&mut session, 7, GET_FOO);
        assert_eq!(session.begin(CallerId(8), GET_BAR, 100), Err(Refusal::TooMany));
    }

    #[test]
    fn long_replies_and_other_threads() {
        let (mut session, link) = connected(&Settings::default());
        let value = "x".repeat(2 * ROOM);
        let set = format!("*3\r\n$3\r\nSET\r\n$3\r\nfoo\r\n${}\r\n{value}\r\n", value.len());
        begin(&mut session, 7, set.as_bytes());
        let call = begin(&mut session, 7, GET_FOO);
        let session = thread::spawn(move || {
            assert_eq!(session.unwritten(link), &set.as_bytes()[..ROOM]);
            session.wrote(link, set.len() + GET_FOO.len()).unwrap();
            let reply = format!("+OK\r\n${}\r\n{value}\r\n", value.len());
            session.read(link, reply.as_bytes()).unwrap();
            assert_eq!(next(&mut session).unwrap().2, "+OK\r\n");
            session
        });
        let mut session = session.join().unwrap();
        let (caller, of, text) = next(&mut session).unwrap();
        assert_eq!((caller, of, text.len()), (7, call, 2 * ROOM + 11));
    }
}

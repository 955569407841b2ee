//! In Rust, after the algorithms that the Rust crate publishes, what some calls of the layer do:
//! a `BTreeMap` of ranges by their ends, a `HashMap` for grouping and for totals, a command as one
//! buffer with ends, replies whose `Clone` is derived. It is not the crate's own
//! code. `in_rust time OPERATION SIZE` prints the nanoseconds of a call, measured as `crates/bench`
//! measures them, over the same inputs; nothing is printed for an operation that is not here.
use std::collections::{BTreeMap, HashMap, HashSet};
use std::env;
use std::hint::black_box;
use std::str;
use std::sync::Arc;

// The clock of the processor time of this thread.
const THREAD_CPU_TIME: i32 = 3;

unsafe extern "C" {
    fn clock_gettime(clock: i32, time: *mut [i64; 2]) -> i32;
}

fn nanos() -> u64 {
    let mut time = [0; 2];
    // SAFETY: two words are what the call writes on a 64-bit Linux.
    unsafe { clock_gettime(THREAD_CPU_TIME, &mut time) };
    time[0] as u64 * 1_000_000_000 + time[1] as u64
}

const WHOLE_NANOS: u64 = 500_000_000;
const ROUND_NANOS: u64 = 200_000;

/// The nanoseconds of so many calls, each on an input of its own, of the least of some rounds.
fn least<I, O>(
    rounds: u64,
    calls: u64,
    input: &mut impl FnMut() -> I,
    call: &mut impl FnMut(I) -> O,
) -> u64 {
    let mut least = u64::MAX;
    for _ in 0..rounds {
        let stock: Vec<I> = (0..calls).map(|_| input()).collect();
        let began = nanos();
        for input in stock {
            black_box(call(input));
        }
        least = least.min(nanos() - began);
    }
    least
}

/// Prints the nanoseconds of a call, by those of so many calls in the least of so many rounds.
fn print(mut least: impl FnMut(u64, u64) -> u64) {
    let one = least(3, 1).max(1);
    let calls = (ROUND_NANOS / one).clamp(1, 20_000);
    let rounds = (WHOLE_NANOS / (one * calls)).clamp(9, 1000);
    let each = least(rounds, calls) as f64 / calls as f64;
    let digits = if each < 100.0 { 1 } else { 0 };
    println!("{each:.digits$}");
}

fn time<I, O>(mut input: impl FnMut() -> I, mut call: impl FnMut(I) -> O) {
    print(|rounds, calls| least(rounds, calls, &mut input, &mut call));
}

#[derive(Clone, Copy, PartialEq, Eq, Hash)]
enum SlotAddr {
    Master,
    ReplicaOptional,
}

#[derive(Clone, Copy, PartialEq, Eq, Hash)]
struct Route(u16, SlotAddr);

// Slots of keys.

const fn remainders() -> [u16; 256] {
    let mut table = [0; 256];
    let mut byte = 0;
    while byte < 256 {
        let mut crc = (byte as u16) << 8;
        let mut bit = 0;
        while bit < 8 {
            crc = if crc & 0x8000 == 0 {
                crc << 1
            } else {
                crc << 1 ^ 0x1021
            };
            bit += 1;
        }
        table[byte] = crc;
        byte += 1;
    }
    table
}

static REMAINDERS: [u16; 256] = remainders();

fn hashtag(key: &[u8]) -> Option<&[u8]> {
    let open = key.iter().position(|byte| *byte == b'{')?;
    let close = key[open..].iter().position(|byte| *byte == b'}')?;
    let tag = &key[open + 1..open + close];
    (!tag.is_empty()).then_some(tag)
}

#[inline(never)]
fn slot_of(key: &[u8]) -> u16 {
    let mut crc = 0;
    for byte in hashtag(key).unwrap_or(key) {
        crc = crc << 8 ^ REMAINDERS[usize::from((crc >> 8) as u8 ^ byte)];
    }
    crc % 16384
}

// Maps of ranges.

#[derive(Clone, PartialEq, Eq, Hash)]
struct NodeAddress {
    host: Arc<str>,
    port: u16,
}

#[derive(Clone)]
struct SlotRange {
    start: u16,
    end: u16,
    primary: NodeAddress,
    replicas: Vec<NodeAddress>,
}

type SlotMap = BTreeMap<u16, SlotRange>;

#[inline(never)]
fn map_of(ranges: Vec<SlotRange>) -> SlotMap {
    let mut map = SlotMap::new();
    for range in ranges {
        map.insert(range.end, range);
    }
    map
}

#[inline(never)]
fn node_of(map: &SlotMap, route: Route) -> Option<&NodeAddress> {
    let (_, range) = map.range(route.0..).next()?;
    if range.start > route.0 {
        return None;
    }
    match route.1 {
        SlotAddr::Master => Some(&range.primary),
        SlotAddr::ReplicaOptional => Some(range.replicas.first().unwrap_or(&range.primary)),
    }
}

#[inline(never)]
fn nodes_of(map: &SlotMap) -> HashSet<&NodeAddress> {
    let mut nodes = HashSet::new();
    for range in map.values() {
        nodes.insert(&range.primary);
        nodes.extend(&range.replicas);
    }
    nodes
}

#[inline(never)]
fn primaries_of(map: &SlotMap) -> HashSet<&NodeAddress> {
    map.values().map(|range| &range.primary).collect()
}

#[allow(dead_code)]
struct Shard {
    ranges: Vec<(u16, u16)>,
    primary: NodeAddress,
    replicas: Vec<NodeAddress>,
}

/// The shard of each range, by the range's end.
type Topology = BTreeMap<u16, (u16, Arc<Shard>)>;

#[inline(never)]
fn topology_of(map: &SlotMap) -> Topology {
    let mut shards: Vec<Shard> = Vec::new();
    let mut numbers = HashMap::new();
    for range in map.values() {
        let number = *numbers.entry(&range.primary).or_insert_with(|| {
            shards.push(Shard {
                ranges: Vec::new(),
                primary: range.primary.clone(),
                replicas: range.replicas.clone(),
            });
            shards.len() - 1
        });
        shards[number].ranges.push((range.start, range.end));
    }
    let mut topology = Topology::new();
    for shard in shards {
        let shard = Arc::new(shard);
        for (start, end) in &shard.ranges {
            topology.insert(*end, (*start, Arc::clone(&shard)));
        }
    }
    topology
}

/// Which hosts the nodes of a map have.
#[derive(Clone, Copy)]
enum Hosts {
    /// Those of at most 1000 nodes.
    Shared,
    /// One for each range.
    Own,
    /// One for each range, as long, and all with one hash in the layer.
    OneHash,
}

fn host_of(hosts: Hosts, number: usize) -> String {
    match hosts {
        Hosts::Shared => format!("10.0.{}.{}", number % 1000 / 250, number % 250),
        Hosts::Own => format!("host{:020}{number:08}", mixed(number as u64)),
        Hosts::OneHash => format!("collidehostcxkzgMOsKSBRA{number:08}"),
    }
}

/// The first slot of a range, of so many that share all slots, and the last.
fn ends(number: usize, count: usize) -> (u16, u16) {
    let first = |number| (number * 16384 / count) as u16;
    (first(number), first(number + 1) - 1)
}

fn ranges(hosts: Hosts, count: usize) -> Vec<SlotRange> {
    let range = |number: usize| {
        let host = host_of(hosts, number);
        let at = |port| NodeAddress {
            host: host.as_str().into(),
            port,
        };
        let (start, end) = ends(number, count);
        SlotRange {
            start,
            end,
            primary: at(6379),
            replicas: vec![at(6380)],
        }
    };
    (0..count).map(range).collect()
}

// Commands.

#[derive(Default)]
struct Cmd {
    data: Vec<u8>,
    ends: Vec<usize>,
}

impl Cmd {
    #[inline(never)]
    fn write_arg(&mut self, arg: &[u8]) {
        self.data.extend_from_slice(arg);
        self.ends.push(self.data.len());
    }

    fn arg_idx(&self, index: usize) -> Option<&[u8]> {
        let end = *self.ends.get(index)?;
        let start = if index == 0 { 0 } else { self.ends[index - 1] };
        Some(&self.data[start..end])
    }

    #[inline(never)]
    fn name(&self) -> Option<Vec<u8>> {
        let mut name = self.arg_idx(0)?.to_ascii_uppercase();
        match name.as_slice() {
            b"XGROUP" | b"OBJECT" | b"SLOWLOG" | b"FUNCTION" | b"MODULE" | b"COMMAND"
            | b"PUBSUB" | b"CONFIG" | b"MEMORY" | b"XINFO" | b"CLIENT" | b"ACL" | b"SCRIPT"
            | b"CLUSTER" | b"LATENCY" => {}
            _ => return Some(name),
        }
        if let Some(second) = self.arg_idx(1) {
            let second = second.to_ascii_uppercase();
            name.reserve(second.len() + 1);
            name.push(b' ');
            name.extend(second);
        }
        Some(name)
    }
}

fn command(words: &[&[u8]]) -> Cmd {
    let mut command = Cmd::default();
    for word in words {
        command.write_arg(word);
    }
    command
}

fn command_of_keys(name: &[u8], count: usize) -> Cmd {
    let mut command = command(&[name]);
    for number in 0..count {
        command.write_arg(format!("key:{number}").as_bytes());
    }
    command
}

// Where a command goes.

#[derive(Clone, Copy, PartialEq, Eq)]
enum RouteBy {
    AllNodes,
    AllMasters,
    Random,
    KeyAt(usize),
    CountAt(usize),
    SlotAt,
    KeyAfterStreams,
    MultiSlot,
    Undefined,
}

#[derive(Clone, Copy)]
enum ResponsePolicy {
    AllSucceeded,
    Sum,
    Min,
    And,
    CombineArrays,
    CombineMaps,
    OneSucceeded,
    FirstSucceededNonEmptyOrAllEmpty,
    Special,
}

enum RoutingInfo {
    SpecificNode(Route),
    AllNodes(Option<ResponsePolicy>),
    AllMasters(Option<ResponsePolicy>),
    Other,
}

#[rustfmt::skip]
fn base_routing(name: &[u8]) -> RouteBy {
    match name {
        b"ACL DELUSER" | b"ACL SAVE" | b"ACL SETUSER" | b"CLIENT SETINFO" | b"CLIENT SETNAME"
        | b"CONFIG RESETSTAT" | b"CONFIG REWRITE" | b"CONFIG SET" | b"FUNCTION KILL"
        | b"FUNCTION STATS" | b"LATENCY DOCTOR" | b"LATENCY GRAPH" | b"LATENCY HISTOGRAM"
        | b"LATENCY HISTORY" | b"LATENCY LATEST" | b"LATENCY RESET" | b"PUBSUB CHANNELS"
        | b"PUBSUB NUMPAT" | b"PUBSUB NUMSUB" | b"PUBSUB SHARDCHANNELS" | b"PUBSUB SHARDNUMSUB"
        | b"SCRIPT FLUSH" | b"SCRIPT KILL" | b"SCRIPT LOAD" | b"SLOWLOG GET" | b"SLOWLOG LEN"
        | b"SLOWLOG RESET" => RouteBy::AllNodes,
        b"ACL DRYRUN" | b"ACL GENPASS" | b"ACL GETUSER" | b"ACL HELP" | b"ACL LIST" | b"ACL LOG"
        | b"ACL USERS" | b"ACL WHOAMI" | b"AUTH" | b"BGSAVE" | b"CLIENT GETNAME"
        | b"CLIENT GETREDIR" | b"CLIENT ID" | b"CLIENT INFO" | b"CLIENT KILL" | b"CLIENT PAUSE"
        | b"CLIENT REPLY" | b"CLIENT TRACKINGINFO" | b"CLIENT UNBLOCK" | b"CLIENT UNPAUSE"
        | b"CLUSTER COUNT-FAILURE-REPORTS" | b"CLUSTER INFO" | b"CLUSTER KEYSLOT"
        | b"CLUSTER MEET" | b"CLUSTER MYSHARDID" | b"CLUSTER NODES" | b"CLUSTER REPLICAS"
        | b"CLUSTER RESET" | b"CLUSTER SET-CONFIG-EPOCH" | b"CLUSTER SHARDS" | b"CLUSTER SLOTS"
        | b"COMMAND" | b"COMMAND COUNT" | b"COMMAND GETKEYS" | b"COMMAND LIST" | b"CONFIG GET"
        | b"ECHO" | b"FUNCTION LIST" | b"LASTSAVE" | b"LOLWUT" | b"MODULE LIST" | b"MODULE LOAD"
        | b"MODULE LOADEX" | b"MODULE UNLOAD" | b"READONLY" | b"READWRITE" | b"SAVE"
        | b"SCRIPT SHOW" | b"TFCALL" | b"TFCALLASYNC" | b"TFUNCTION DELETE" | b"TFUNCTION LIST"
        | b"TFUNCTION LOAD" | b"TIME" => RouteBy::Random,
        b"BITOP" | b"JSON.DEBUG" | b"MEMORY USAGE" | b"OBJECT ENCODING" | b"OBJECT FREQ"
        | b"OBJECT IDLETIME" | b"OBJECT REFCOUNT" | b"PFDEBUG" | b"XGROUP CREATE"
        | b"XGROUP CREATECONSUMER" | b"XGROUP DELCONSUMER" | b"XGROUP DESTROY" | b"XGROUP SETID"
        | b"XINFO CONSUMERS" | b"XINFO GROUPS" | b"XINFO STREAM" => RouteBy::KeyAt(2),
        b"BLMPOP" | b"BZMPOP" | b"EVAL" | b"EVALSHA" | b"EVALSHA_RO" | b"EVAL_RO" | b"FCALL"
        | b"FCALL_RO" => RouteBy::CountAt(2),
        b"CLUSTER ADDSLOTS" | b"CLUSTER COUNTKEYSINSLOT" | b"CLUSTER DELSLOTS"
        | b"CLUSTER DELSLOTSRANGE" | b"CLUSTER GETKEYSINSLOT" | b"CLUSTER SETSLOT"
        => RouteBy::SlotAt,
        b"DBSIZE" | b"DEBUG" | b"FLUSHALL" | b"FLUSHDB" | b"FT._ALIASLIST" | b"FT._LIST"
        | b"FUNCTION DELETE" | b"FUNCTION FLUSH" | b"FUNCTION LOAD" | b"FUNCTION RESTORE"
        | b"INFO" | b"KEYS" | b"MEMORY DOCTOR" | b"MEMORY MALLOC-STATS" | b"MEMORY PURGE"
        | b"MEMORY STATS" | b"PING" | b"RANDOMKEY" | b"SCRIPT EXISTS" | b"UNWATCH" | b"WAIT"
        | b"WAITAOF" => RouteBy::AllMasters,
        b"LMPOP" | b"SINTERCARD" | b"ZDIFF" | b"ZINTER" | b"ZINTERCARD" | b"ZMPOP" | b"ZUNION"
        => RouteBy::CountAt(1),
        b"REPLICAOF" | b"SCAN" | b"SHUTDOWN" | b"SLAVEOF" => RouteBy::Undefined,
        b"XREAD" | b"XREADGROUP" => RouteBy::KeyAfterStreams,
        b"DEL" | b"EXISTS" | b"MGET" | b"TOUCH" | b"UNLINK" | b"WATCH" | b"JSON.MGET"
        | b"JSON.MSET" | b"MSET" => RouteBy::MultiSlot,
        _ => RouteBy::KeyAt(1),
    }
}

#[rustfmt::skip]
fn policy(name: &[u8]) -> Option<ResponsePolicy> {
    let policy = match name {
        b"ACL DELUSER" | b"ACL SAVE" | b"ACL SETUSER" | b"CLIENT SETINFO" | b"CLIENT SETNAME"
        | b"CONFIG RESETSTAT" | b"CONFIG REWRITE" | b"CONFIG SET" | b"FLUSHALL" | b"FLUSHDB"
        | b"FUNCTION DELETE" | b"FUNCTION FLUSH" | b"FUNCTION LOAD" | b"FUNCTION RESTORE"
        | b"JSON.MSET" | b"MEMORY PURGE" | b"MSET" | b"PING" | b"SCRIPT FLUSH" | b"SCRIPT LOAD"
        | b"SLOWLOG RESET" | b"UNWATCH" | b"WATCH" => ResponsePolicy::AllSucceeded,
        b"DBSIZE" | b"DEL" | b"EXISTS" | b"LATENCY RESET" | b"PUBSUB NUMPAT" | b"SLOWLOG LEN"
        | b"TOUCH" | b"UNLINK" => ResponsePolicy::Sum,
        b"FT._ALIASLIST" | b"FT._LIST" | b"JSON.MGET" | b"KEYS" | b"MGET" | b"PUBSUB CHANNELS"
        | b"PUBSUB SHARDCHANNELS" | b"SLOWLOG GET" => ResponsePolicy::CombineArrays,
        b"FUNCTION KILL" | b"SCRIPT KILL" => ResponsePolicy::OneSucceeded,
        b"FUNCTION STATS" | b"INFO" | b"LATENCY DOCTOR" | b"LATENCY GRAPH" | b"LATENCY HISTOGRAM"
        | b"LATENCY HISTORY" | b"LATENCY LATEST" | b"MEMORY DOCTOR" | b"MEMORY MALLOC-STATS"
        | b"MEMORY STATS" => ResponsePolicy::Special,
        b"PUBSUB NUMSUB" | b"PUBSUB SHARDNUMSUB" => ResponsePolicy::CombineMaps,
        b"RANDOMKEY" => ResponsePolicy::FirstSucceededNonEmptyOrAllEmpty,
        b"SCRIPT EXISTS" => ResponsePolicy::And,
        b"WAIT" => ResponsePolicy::Min,
        _ => return None,
    };
    Some(policy)
}

/// Whether commands of this name only read, as a program has it that knows these names when it is
/// compiled.
#[rustfmt::skip]
fn only_reads(name: &[u8]) -> bool {
    matches!(
        name,
        b"BITCOUNT" | b"BITFIELD_RO" | b"BITPOS" | b"DBSIZE" | b"DUMP" | b"EVALSHA_RO" | b"EVAL_RO"
        | b"EXISTS" | b"EXPIRETIME" | b"FCALL_RO" | b"GEODIST" | b"GEOHASH" | b"GEOPOS"
        | b"GEORADIUSBYMEMBER_RO" | b"GEORADIUS_RO" | b"GEOSEARCH" | b"GET" | b"GETBIT"
        | b"GETRANGE" | b"HEXISTS" | b"HGET" | b"HGETALL" | b"HKEYS" | b"HLEN" | b"HMGET"
        | b"HRANDFIELD" | b"HSCAN" | b"HSTRLEN" | b"HVALS" | b"JSON.MGET" | b"KEYS" | b"LCS"
        | b"LINDEX" | b"LLEN" | b"LOLWUT" | b"LPOS" | b"LRANGE" | b"MEMORY USAGE" | b"MGET"
        | b"OBJECT ENCODING" | b"OBJECT FREQ" | b"OBJECT IDLETIME" | b"OBJECT REFCOUNT"
        | b"PEXPIRETIME" | b"PFCOUNT" | b"PTTL" | b"RANDOMKEY" | b"SCAN" | b"SCARD" | b"SDIFF"
        | b"SINTER" | b"SINTERCARD" | b"SISMEMBER" | b"SMEMBERS" | b"SMISMEMBER" | b"SORT_RO"
        | b"SRANDMEMBER" | b"SSCAN" | b"STRLEN" | b"SUBSTR" | b"SUNION" | b"TOUCH" | b"TTL"
        | b"TYPE" | b"XINFO CONSUMERS" | b"XINFO GROUPS" | b"XINFO STREAM" | b"XLEN" | b"XPENDING"
        | b"XRANGE" | b"XREAD" | b"XREVRANGE" | b"ZCARD" | b"ZCOUNT" | b"ZDIFF" | b"ZINTER"
        | b"ZINTERCARD" | b"ZLEXCOUNT" | b"ZMSCORE" | b"ZRANDMEMBER" | b"ZRANGE" | b"ZRANGEBYLEX"
        | b"ZRANGEBYSCORE" | b"ZRANK" | b"ZREVRANGE" | b"ZREVRANGEBYLEX" | b"ZREVRANGEBYSCORE"
        | b"ZREVRANK" | b"ZSCAN" | b"ZSCORE" | b"ZUNION"
    )
}

#[inline(never)]
fn route_of(command: &Cmd, only_reads: impl Fn(&[u8]) -> bool) -> Option<RoutingInfo> {
    let name = command.name()?;
    match base_routing(&name) {
        RouteBy::AllNodes => Some(RoutingInfo::AllNodes(policy(&name))),
        RouteBy::AllMasters => Some(RoutingInfo::AllMasters(policy(&name))),
        RouteBy::KeyAt(place) => {
            let slot = slot_of(command.arg_idx(place)?);
            let addr = if only_reads(&name) {
                SlotAddr::ReplicaOptional
            } else {
                SlotAddr::Master
            };
            Some(RoutingInfo::SpecificNode(Route(slot, addr)))
        }
        RouteBy::Undefined => None,
        // the operations that are timed have no name of these
        _ => Some(RoutingInfo::Other),
    }
}

/// Calls it at a command, and looks at the slot or at the policy, so that both are computed.
fn time_route(words: &[&[u8]], only_reads: impl Fn(&[u8]) -> bool) {
    let command = command(words);
    time(
        || (),
        |()| match route_of(&command, &only_reads) {
            Some(RoutingInfo::SpecificNode(route)) => route.0,
            Some(RoutingInfo::AllNodes(policy) | RoutingInfo::AllMasters(policy)) => {
                u16::from(policy.is_some())
            }
            _ => 0,
        },
    );
}

/// Names of commands whose replies a policy makes one.
const WITH_POLICY: [&[u8]; 16] = [
    b"DEL",
    b"MSET",
    b"MGET",
    b"EXISTS",
    b"PING",
    b"DBSIZE",
    b"KEYS",
    b"UNLINK",
    b"TOUCH",
    b"FLUSHALL",
    b"INFO",
    b"WAIT",
    b"RANDOMKEY",
    b"SCRIPT LOAD",
    b"CONFIG SET",
    b"LATENCY HISTOGRAM",
];

/// Names of commands that go to one node.
const WITHOUT_POLICY: [&[u8]; 16] = [
    b"GET",
    b"SET",
    b"HGET",
    b"HSET",
    b"LPUSH",
    b"INCR",
    b"EXPIRE",
    b"ZADD",
    b"SADD",
    b"ZRANGE",
    b"HGETALL",
    b"TTL",
    b"LRANGE",
    b"APPEND",
    b"XADD",
    b"GETRANGE",
];

/// The policy of each of 16 names in turn.
fn time_policy(names: &[&[u8]; 16]) {
    let mut turn = 0;
    time(
        || (),
        |()| {
            turn += 1;
            policy(black_box(names)[turn & 15])
        },
    );
}

/// Names that only read, in a set that is filled when the program runs.
fn read_only_set() -> HashSet<&'static [u8]> {
    [
        b"GET".as_slice(),
        b"MGET",
        b"EXISTS",
        b"JSON.MGET",
        b"XREAD",
    ]
    .into()
}

/// Looks names up in a set of all of them.
fn time_names(count: usize, name: impl Fn(usize) -> String) {
    let names: Vec<Vec<u8>> = (0..count).map(|number| name(number).into_bytes()).collect();
    let set: HashSet<Vec<u8>> = names.iter().cloned().collect();
    let mut turn = 0_usize;
    time(
        || (),
        |()| {
            turn += 1;
            let at = ((turn.wrapping_mul(40_503) & 0xFFFF) * count) >> 16;
            set.contains(&names[at])
        },
    );
}

type Routes = Vec<(Route, Vec<usize>)>;

/// The routes of a command whose keys stand at each `width`th argument.
#[inline(never)]
fn split(command: &Cmd, width: usize, addr: SlotAddr) -> Routes {
    let mut routes = Routes::new();
    let mut numbers = HashMap::new();
    for place in (0..command.ends.len() - 1).step_by(width) {
        let key = command.arg_idx(place + 1).expect("a key");
        let route = Route(slot_of(key), addr);
        let number = *numbers.entry(route).or_insert_with(|| {
            routes.push((route, Vec::new()));
            routes.len() - 1
        });
        routes[number].1.extend(place..place + width);
    }
    routes
}

fn part(command: &Cmd, places: &[usize]) -> Cmd {
    let mut part = Cmd {
        data: Vec::with_capacity(places.len() * 20 + 4),
        ends: Vec::with_capacity(places.len() + 1),
    };
    part.write_arg(command.arg_idx(0).expect("a name"));
    for place in places {
        part.write_arg(command.arg_idx(place + 1).expect("an argument"));
    }
    part
}

fn parts(command: &Cmd, routes: &Routes) -> Vec<Cmd> {
    routes
        .iter()
        .map(|(_, places)| part(command, places))
        .collect()
}

// Replies.

#[derive(Clone, PartialEq)]
#[allow(dead_code)]
enum Value {
    Nil,
    Int(i64),
    BulkString(Vec<u8>),
    Array(Vec<Value>),
    SimpleString(String),
    Okay,
    Map(Vec<(Value, Value)>),
}

#[derive(Debug)]
struct Refused;

#[inline(never)]
fn sum(replies: Vec<Value>) -> Result<Value, Refused> {
    let mut total = 0;
    for reply in replies {
        let Value::Int(number) = reply else {
            return Err(Refused);
        };
        total += number;
    }
    Ok(Value::Int(total))
}

#[inline(never)]
fn totals(replies: Vec<Value>) -> Result<Value, Refused> {
    let mut totals: HashMap<Vec<u8>, i64> = HashMap::new();
    for reply in replies {
        let Value::Array(items) = reply else {
            return Err(Refused);
        };
        let mut items = items.into_iter();
        while let Some(key) = items.next() {
            let (Value::BulkString(key), Some(Value::Int(number))) = (key, items.next()) else {
                return Err(Refused);
            };
            *totals.entry(key).or_insert(0) += number;
        }
    }
    let pair = |(key, total)| (Value::BulkString(key), Value::Int(total));
    Ok(Value::Map(totals.into_iter().map(pair).collect()))
}

#[inline(never)]
fn sorted(replies: Vec<Value>, routes: &Routes) -> Result<Value, Refused> {
    let count = replies.iter().map(|reply| match reply {
        Value::Array(items) => items.len(),
        _ => 0,
    });
    let mut all = vec![Value::Nil; count.sum()];
    for ((_, places), reply) in routes.iter().zip(replies) {
        let Value::Array(items) = reply else {
            return Err(Refused);
        };
        assert_eq!(items.len(), places.len());
        for (place, item) in places.iter().zip(items) {
            all[*place] = item;
        }
    }
    Ok(Value::Array(all))
}

/// The ranges of a reply to `CLUSTER SLOTS` that a node of this host gave.
#[inline(never)]
fn ranges_in(reply: &Value, answering: &str) -> Vec<SlotRange> {
    let Value::Array(items) = reply else {
        return Vec::new();
    };
    let mut ranges = Vec::with_capacity(2);
    for item in items {
        let Value::Array(item) = item else {
            break;
        };
        let [Value::Int(start), Value::Int(end), nodes @ ..] = item.as_slice() else {
            continue;
        };
        let nodes = nodes.iter().filter_map(|node| node_in(node, answering));
        let mut nodes: Vec<NodeAddress> = nodes.collect();
        if nodes.is_empty() {
            continue;
        }
        let replicas = nodes.split_off(1);
        if let Some(primary) = nodes.pop() {
            ranges.push(SlotRange {
                start: *start as u16,
                end: *end as u16,
                primary,
                replicas,
            });
        }
    }
    ranges
}

fn node_in(node: &Value, answering: &str) -> Option<NodeAddress> {
    let Value::Array(node) = node else {
        return None;
    };
    let [host, Value::Int(port), ..] = node.as_slice() else {
        return None;
    };
    let text = match host {
        Value::BulkString(bytes) => String::from_utf8_lossy(bytes),
        Value::Nil => "".into(),
        _ => return None,
    };
    let host = match &*text {
        "" | "0.0.0.0" | "::" => answering,
        "?" => return None,
        host => host,
    };
    (!host.is_empty()).then(|| NodeAddress {
        host: host.into(),
        port: *port as u16,
    })
}

/// A reply to `CLUSTER SLOTS` of so many ranges.
fn slots_reply(count: usize) -> Value {
    let identity = b"0123456789012345678901234567890123456789";
    let range = |number| {
        let host = host_of(Hosts::Shared, number);
        let node = |port| {
            Value::Array(vec![
                Value::BulkString(host.clone().into_bytes()),
                Value::Int(port),
                Value::BulkString(identity.to_vec()),
            ])
        };
        let (start, end) = ends(number, count);
        let (start, end) = (Value::Int(start.into()), Value::Int(end.into()));
        Value::Array(vec![start, end, node(6379), node(6380)])
    };
    Value::Array((0..count).map(range).collect())
}

fn bulks(count: usize) -> Value {
    let bulk = |number| Value::BulkString(format!("key:{number}").into_bytes());
    Value::Array((0..count).map(bulk).collect())
}

fn ints(count: usize) -> Vec<Value> {
    (0..count).map(|number| Value::Int(number as i64)).collect()
}

/// A number that has nothing to do with this one, but is the same in each run.
fn mixed(number: u64) -> u64 {
    let number = number.wrapping_mul(0x9E37_79B9_7F4A_7C15);
    (number ^ number >> 32).wrapping_mul(0x9E37_79B9_7F4A_7C15)
}

/// A node's reply of keys and numbers in turn. Each node has the keys in an order of its own.
fn counts(count: usize, node: usize) -> Value {
    let mut numbers: Vec<usize> = (0..count).collect();
    numbers.sort_by_key(|number| mixed((node * count + number) as u64));
    let pair = |number: usize| {
        let key = format!("key:{number}").into_bytes();
        [Value::BulkString(key), Value::Int(number as i64)]
    };
    Value::Array(numbers.into_iter().flat_map(pair).collect())
}

fn time_totals(replies: Vec<Value>) {
    time(|| replies.clone(), totals);
}

fn time_sorted(size: usize) {
    let routes = split(
        &command_of_keys(b"MGET", size),
        1,
        SlotAddr::ReplicaOptional,
    );
    let replies: Vec<Value> = routes
        .iter()
        .map(|(_, places)| bulks(places.len()))
        .collect();
    time(|| replies.clone(), |replies| sorted(replies, &routes));
}

/// A key of so many bytes.
fn plain_key(number: usize, size: usize) -> Vec<u8> {
    let mut key = number.to_string().into_bytes();
    key.resize(size, b'k');
    key
}

/// A key with a hash tag after so many bytes.
fn key_with_tag_last(number: usize, size: usize) -> Vec<u8> {
    format!("{}{{user{number}}}", "k".repeat(size)).into_bytes()
}

/// A key with a hash tag before so many bytes.
fn key_with_tag_first(number: usize, size: usize) -> Vec<u8> {
    format!("{{user{number}}}{}", "k".repeat(size)).into_bytes()
}

fn time_slots(key: fn(usize, usize) -> Vec<u8>, size: usize) {
    let keys: Vec<Vec<u8>> = (0..64).map(|number| key(number, size)).collect();
    let mut turn = 0;
    time(
        || (),
        |()| {
            turn += 1;
            slot_of(&keys[turn & 63])
        },
    );
}

/// A slot for each turn, spread over all.
fn slot_at(turn: usize) -> u16 {
    (turn.wrapping_mul(40_503) & 16_383) as u16
}

fn time_inserts(size: usize) {
    time(
        || (),
        |()| {
            let mut map = BTreeMap::new();
            for slot in (0..size as u16).rev() {
                map.insert(slot, (slot, slot));
            }
            map.len()
        },
    );
}

fn time_nodes(size: usize) {
    let map = map_of(ranges(Hosts::Shared, size));
    let mut turn = 0_usize;
    time(
        || (),
        |()| {
            turn += 1;
            let route = Route(slot_at(turn), SlotAddr::Master);
            node_of(&map, route).map(|node| (node.port, node.host.len()))
        },
    );
}

fn time_primaries(size: usize) {
    let map = map_of(ranges(Hosts::Shared, size));
    time(|| (), |()| primaries_of(&map).len());
}

fn time_topology(hosts: Hosts, size: usize) {
    let map = map_of(ranges(hosts, size));
    time(|| (), |()| topology_of(&map));
}

fn time_all_nodes(hosts: Hosts, size: usize) {
    let map = map_of(ranges(hosts, size));
    time(|| (), |()| nodes_of(&map).len());
}

fn main() {
    let words: Vec<String> = env::args().collect();
    let size = words.get(3).and_then(|word| word.parse().ok()).unwrap_or(1);
    let del = command_of_keys(b"DEL", size);
    match words.get(2).map_or("", String::as_str) {
        "key-slot" => time_slots(plain_key, size),
        "key-tag-last" => time_slots(key_with_tag_last, size),
        "key-tag-first" => time_slots(key_with_tag_first, size),
        "look-up" => time_nodes(size),
        "map-from-reply" => {
            let reply = slots_reply(size);
            time(|| (), |()| map_of(ranges_in(&reply, "10.0.0.1")));
        }
        "insert-descending" | "extend-descending" => time_inserts(size),
        "topology" => time_topology(Hosts::Shared, size),
        "topology-own" => time_topology(Hosts::Own, size),
        "topology-one-hash" => time_topology(Hosts::OneHash, size),
        "primaries" => time_primaries(size),
        "nodes-own" => time_all_nodes(Hosts::Own, size),
        "nodes-one-hash" => time_all_nodes(Hosts::OneHash, size),
        "read-only-names" => time_names(size, |number| format!("MOD{}.CMD{number}", number % 50)),
        "read-only-names-one-spot" => {
            time_names(size, |number| format!("PICKED{number:06}ABCDEFGHIJ"));
        }
        "policy" => time_policy(&WITH_POLICY),
        "policy-none" => time_policy(&WITHOUT_POLICY),
        "route-get" => time_route(&[b"GET", &vec![b'k'; size]], only_reads),
        "route-get-by-set" => {
            let set = read_only_set();
            time_route(&[b"GET", &vec![b'k'; size]], |name| set.contains(name));
        }
        "split-del" => time(|| (), |()| split(&del, 1, SlotAddr::Master)),
        "split-and-parts-del" => time(
            || (),
            |()| {
                let routes = split(&del, 1, SlotAddr::Master);
                let parts = parts(&del, &routes);
                (routes, parts)
            },
        ),
        "combine-sums" => {
            let replies = ints(size);
            time(|| replies.clone(), sum);
        }
        "combine-maps" => time_totals((0..3).map(|node| counts(size, node)).collect()),
        "combine-maps-in-order" => time_totals(vec![counts(size, 0); 3]),
        "combine-sorted" => time_sorted(size),
        "command" => {
            let words = vec![b"argument".as_slice(); size];
            time(|| (), |()| command(&words));
        }
        "clone-bulk-array" => {
            let value = bulks(size);
            time(|| (), |()| black_box(&value).clone());
        }
        _ => {}
    }
}

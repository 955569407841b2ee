// What node-redis is used for: the port. Each prints a line of JSON. The port four above wants a password.
const redis = require("redis");

const port = Number(process.argv[2]);
const only = process.env.CALLS_ONLY;
const sorted = (found) => found.sort();
const SCRIPT = "return redis.call('INCRBY', KEYS[1], ARGV[1])";
const after = (time) => new Promise((done) => setTimeout(done, time));

async function connect(settings = {}) {
  const it = redis.createClient({ socket: { port, connectTimeout: 5000 }, ...settings });
  it.on("error", () => {});
  await it.connect();
  return it;
}

// The error that a call is there to get.
async function faultOf(awaited) {
  try {
    return await awaited;
  } catch (fault) {
    const { message } = fault.socketError ?? fault;
    return `${fault.constructor.name} ${message.split(" ")[0]}, as wanted`;
  }
}

async function call(name, does) {
  if (only && only !== name) return;
  const late = new Promise((_, fail) => setTimeout(() => fail(new Error("no reply in 10 s")), 10000).unref());
  try {
    console.log(JSON.stringify([name, (await Promise.race([does(), late])) ?? null]));
  } catch (fault) {
    console.log(JSON.stringify([name, `ERROR ${fault.message}`]));
  }
}

async function all(found) {
  const keys = [];
  for await (const key of found) keys.push(key);
  return keys;
}

async function main() {
  const it = await connect();
  async function transaction(...keys) {
    const pipe = it.multi();
    for (const key of keys) pipe.set(key, "1").incr(key);
    return pipe.exec();
  }
  async function deepPipeline() {
    const keys = Array.from({ length: 1000 }, (_, at) => `deep${at}`);
    const found = await Promise.all(keys.flatMap((key) => [it.set(key, "x".repeat(10000)), it.get(key)]));
    await it.del(keys);
    return [found.length, found.reduce((sum, one) => sum + one.length, 0)];
  }
  const watch = (isChanged) => it.executeIsolated(async (own) => {
    await own.watch("{w}a");
    if (isChanged) await it.set("{w}a", "other");
    return [await faultOf(own.multi().set("{w}a", "mine").exec()), await it.get("{w}a")];
  });
  async function heard(how, name, channel) {
    const own = await connect();
    const message = new Promise((done) => own[how](name, (text, from) => done([text, from])));
    await after(200);
    await it.publish(channel, "x");
    const found = await message;
    await own.disconnect();
    return found;
  }
  async function cancelled() {
    const own = new AbortController();
    const call = faultOf(it.get(redis.commandOptions({ signal: own.signal }), "a"));
    own.abort();
    return [await call, await it.set("a", "1"), await it.get("a")];
  }
  async function pool() {
    await Promise.all(Array.from({ length: 50 }, () => it.executeIsolated((own) => own.incr("pool"))));
    return it.get("pool");
  }
  async function reconnect() {
    const own = await connect();
    await own.set("a", "1");
    await own.quit();
    await own.connect();
    return own.get("a");
  }
  await call("strings", async () => [await it.set("a", "1"), await it.get("a"), await it.get("none"), await it.incr("a"), await it.append("a", "2"), await it.strLen("a"), await it.getRange("a", 0, 0), await it.getSet("a", "9"), await it.setNX("a", "1"), await it.incrByFloat("a", 0.5), await it.getDel("a")]);
  await call("expiry", async () => [await it.setEx("b", 100, "2"), await it.ttl("b"), await it.persist("b"), await it.ttl("b"), await it.expire("b", 50), await it.ttl("b"), await it.set("b", "1", { EX: 9, NX: true }), await it.set("b", "2", { PX: 5000, XX: true }), await it.getEx("b", { PERSIST: true })]);
  await call("several keys", async () => [await it.mSet({ x: "1", y: "2", z: "3" }), await it.mGet(["x", "y", "none"]), await it.exists(["x", "y"]), await it.touch(["x", "y"]), await it.del(["x", "y"]), await it.unlink(["y", "z"])]);
  await call("hashes", async () => [await it.hSet("h", { f: "1", g: "2" }), await it.hGetAll("h"), await it.hmGet("h", ["f", "none"]), await it.hIncrBy("h", "f", 2), await it.hDel("h", "g"), await it.hLen("h")]);
  await call("lists", async () => [await it.rPush("l", ["1", "2", "3"]), await it.lRange("l", 0, -1), await it.lPop("l"), await it.rPopCount("l", 2), await it.lPush("l", "z"), await it.lRem("l", 1, "z")]);
  await call("sets", async () => [await it.sAdd("s", ["m", "n"]), sorted(await it.sMembers("s")), await it.sIsMember("s", "m"), await it.smIsMember("s", ["m", "o"]), await it.sRem("s", "n"), await it.sAdd("{s}2", "m"), await it.sInter(["s", "{s}2"])]);
  await call("sorted sets", async () => [await it.zAdd("q", [{ score: 1.5, value: "m" }, { score: 2, value: "n" }]), await it.zRangeWithScores("q", 0, -1), await it.zIncrBy("q", 2, "m"), await it.zRevRank("q", "m"), await it.zRangeByScore("q", 0, 3), await it.zPopMin("q")]);
  await call("streams", async () => [await it.xAdd("stream", "1-1", { f: "1" }), await it.xAdd("stream", "2-1", { f: "2" }), await it.xLen("stream"), await it.xRange("stream", "-", "+"), await it.xRead({ key: "stream", id: "1-1" })]);
  await call("a group of a stream", async () => [await it.xGroupCreate("stream", "readers", "0"), await it.xReadGroup("readers", "me", { key: "stream", id: ">" }), (await it.xPending("stream", "readers")).pending, await it.xAck("stream", "readers", "1-1")]);
  await call("bits, counts and places", async () => [await it.setBit("bits", 3, 1), await it.bitCount("bits"), await it.pfAdd("seen", ["a", "b"]), await it.pfCount("seen"), await it.geoAdd("geo", [{ longitude: 13.36, latitude: 38.11, member: "p" }, { longitude: 15.08, latitude: 37.5, member: "c" }]), await it.geoDist("geo", "p", "c", "km")]);
  await call("types and copies", async () => [await it.set("{k}a", "1"), await it.type("{k}a"), await it.rename("{k}a", "{k}b"), await it.copy("{k}b", "{k}c"), await it.get("{k}c"), await it.sendCommand(["OBJECT", "ENCODING", "{k}c"])]);
  await call("sort", async () => [await it.rPush("{n}l", ["3", "1", "2"]), await it.sort("{n}l"), await it.sortStore("{n}l", "{n}m", { DIRECTION: "DESC" })]);
  await call("large value", async () => [await it.set("big", "x".repeat(5000000)), (await it.get("big")).length, await it.del("big")]);
  await call("bytes", async () => [await it.set("bytes", Buffer.from([0, 13, 10, 255])), [...(await it.get(redis.commandOptions({ returnBuffers: true }), "bytes"))]]);
  await call("keys", async () => [sorted(await it.keys("*")), (await it.dbSize()) > 0, (await it.randomKey()) !== null]);
  await call("scan", async () => [sorted(await all(it.scanIterator())), sorted(await all(it.scanIterator({ MATCH: "s*", COUNT: 5, TYPE: "set" })))]);
  await call("scans of one key", async () => [await all(it.hScanIterator("h")), await all(it.sScanIterator("s")), await all(it.zScanIterator("q"))]);
  await call("pipeline", () => Promise.all(["p1", "p2", "p3"].flatMap((key) => [it.set(key, "1"), it.incr(key)])));
  await call("deep pipeline", deepPipeline);
  await call("commands without a transaction", () => it.multi().set("p1", "1").incr("p1").set("p2", "1").execAsPipeline());
  await call("transaction", () => transaction("{t}1", "{t}2"));
  await call("transaction, several slots", () => transaction("t1", "t2"));
  await call("watch", () => watch(false));
  await call("watch, changed key", () => watch(true));
  await call("script", async () => [await it.eval(SCRIPT, { keys: ["e"], arguments: ["2"] }), await it.evalSha(await it.scriptLoad(SCRIPT), { keys: ["e"], arguments: ["3"] }), await it.scriptExists("0".repeat(40))]);
  await call("script of the client", async () => {
    const own = await connect({ scripts: { add: redis.defineScript({ NUMBER_OF_KEYS: 1, SCRIPT: `${SCRIPT} -- own`, transformArguments: (key, by) => [key, String(by)] }) } });
    return [await own.add("e2", 2), await own.add("e2", 3), await own.disconnect()];
  });
  await call("script without keys", () => it.eval("return {1, ARGV[1]}", { arguments: ["x"] }));
  await call("script with keys that it does not name", async () => [await it.mSet({ a: "1", b: "2", c: "3" }), await it.eval("return {redis.call('GET', 'a'), redis.call('GET', 'b'), redis.call('GET', 'c')}")]);
  await call("blocking pop", async () => [await it.rPush("jobs", "1"), await it.blPop("jobs", 1), await it.brPop("jobs", 1), await it.rPush("jobs", "2"), await it.blMove("jobs", "{jobs}done", "LEFT", "RIGHT", 1), await it.bzPopMin("none", 1)]);
  await call("blocking pop, several slots", async () => [await it.rPush("jobs", "1"), await it.blPop(["jobs", "more"], 1)]);
  await call("blocking read of a stream", () => it.xRead({ key: "stream", id: "$" }, { BLOCK: 300 }));
  await call("subscribe", () => heard("subscribe", "news", "news"));
  await call("subscribe to a pattern", () => heard("pSubscribe", "new*", "newer"));
  await call("channels", async () => [await it.publish("nobody", "x"), await it.pubSubChannels("none*"), await it.pubSubNumSub("none")]);
  await call("errors of a node", async () => [await it.set("a", "x"), await faultOf(it.incr("a")), await faultOf(it.lPush("a", "1")), await faultOf(it.sendCommand(["NONSENSE"])), await it.get("a")]);
  await call("info", async () => [/redis_version:7/.test(await it.info()), /redis_mode/.test(await it.info("server")), /role:master/.test(await it.info("replication"))]);
  await call("ping, time, echo", async () => [await it.ping(), (await it.time()) instanceof Date, await it.echo("x")]);
  await call("client", async () => [await it.clientSetName("me"), await it.clientGetName(), (await it.clientId()) > 0, (await it.clientInfo()).name, / name=me /.test(await it.sendCommand(["CLIENT", "LIST"]))]);
  await call("config get", () => it.configGet("maxmemory-policy"));
  await call("pool", pool);
  await call("a call cancelled", cancelled);
  await call("reconnect", reconnect);
  await call("database 0", async () => [await it.select(0), await it.set("a", "1")]);
  await call("database 1", async () => [await it.select(1), await it.set("a", "1")]);
  await call("password", async () => (await connect({ socket: { port: port + 4 }, username: "default", password: "secret", name: "me" })).get("none"));
  await call("wrong password", async () => [await faultOf(connect({ socket: { port: port + 4, reconnectStrategy: () => new Error("no more") }, password: "wrong" }))]);
  await call("from a URL", async () => (await connect({ socket: undefined, url: `redis://:secret@127.0.0.1:${port + 4}/0` })).set("a", "1"));
  await call("flushdb", async () => [await it.select(0), await it.flushDb(), await it.dbSize()]);
  process.exit(0);
}

main();

// What the library Redis of POCO is used for: the port. Each prints a line of JSON. The port four above wants a password.
#include <Poco/Delegate.h>
#include <Poco/Event.h>
#include <Poco/Exception.h>
#include <Poco/Redis/AsyncReader.h>
#include <Poco/Redis/Client.h>
#include <Poco/Redis/Command.h>
#include <Poco/Redis/Exception.h>
#include <Poco/Redis/PoolableConnectionFactory.h>
#include <Poco/ObjectPool.h>
#include <cstdlib>
#include <functional>
#include <iostream>
#include <sstream>
#include <thread>

using namespace Poco::Redis;
using std::string;

static int port;

static Client::Ptr connect_to(int of) {
    Client::Ptr own = new Client("127.0.0.1", of);
    own->setReceiveTimeout(Poco::Timespan(20, 0));
    return own;
}

static string json(const string &text) {
    string found = "\"";
    for (char one : text)
        found += one == '"' || one == '\\' ? string("\\") + one : string(1, one < ' ' ? ' ' : one);
    return found + "\"";
}

static string json(RedisType::Ptr found) {
    if (found->isInteger())
        return std::to_string(static_cast<Type<Poco::Int64> *>(found.get())->value());
    if (found->isSimpleString())
        return json(static_cast<Type<string> *>(found.get())->value());
    if (found->isError())
        return json("ERROR " + static_cast<Type<Error> *>(found.get())->value().getMessage());
    if (found->isBulkString()) {
        const BulkString &value = static_cast<Type<BulkString> *>(found.get())->value();
        return value.isNull() ? "null" : json(value.value());
    }
    string parts;
    const Array &all = static_cast<Type<Array> *>(found.get())->value();
    if (all.isNull())
        return "null";
    for (const RedisType::Ptr &one : all)
        parts += (parts.empty() ? "" : ", ") + json(one);
    return "[" + parts + "]";
}

static void call(const string &name, std::function<string()> does) {
    const char *only = std::getenv("CALLS_ONLY");
    string found;
    if (only != nullptr && name != only)
        return;
    try {
        found = does();
    } catch (Poco::Exception &fault) {
        found = json("ERROR " + fault.displayText());
    }
    std::cout << "[" << json(name) << ", " << found << "]" << std::endl;
}

static Array words_of(const string &line) {
    Array words;
    std::istringstream text(line);
    for (string word; text >> word;)
        words << word;
    return words;
}

// The replies to commands that are divided by `;`, which are all sent first.
static string all(Client::Ptr own, const string &lines) {
    std::istringstream text(lines);
    std::vector<Array> commands;
    for (string line; std::getline(text, line, ';');)
        commands.push_back(words_of(line));
    string found;
    Array replies = own->sendCommands(commands);
    for (const RedisType::Ptr &one : replies)
        found += (found.empty() ? "" : ", ") + json(one);
    return "[" + found + "]";
}

static void all(const string &name, const string &lines) {
    call(name, [&] { return all(connect_to(port), lines); });
}

static string deep_pipeline() {
    std::vector<Array> commands;
    for (int at = 0; at < 1000; at++) {
        commands.push_back(Command::set("deep" + std::to_string(at), string(10000, 'x')));
        commands.push_back(Command::get("deep" + std::to_string(at)));
    }
    size_t size = 0;
    Array replies = connect_to(port)->sendCommands(commands);
    for (RedisType::Ptr one : replies)
        size += one->isBulkString() ? static_cast<Type<BulkString> *>(one.get())->value().value().size() : 0;
    return std::to_string(size);
}

struct Hears {
    Poco::Event heard;
    string text;
    void message(const void *, RedisEventArgs &found) {
        Array &all = static_cast<Type<Array> *>(found.message().get())->value();
        if (all.get<BulkString>(0).value() == "message") {
            text = all.get<BulkString>(2).value();
            heard.set();
        }
    }
    void fault(const void *, RedisEventArgs &) {}
};

static string subscribe() {
    Hears hears;
    Client::Ptr own = connect_to(port);
    AsyncReader reader(*own);
    reader.redisResponse += Poco::delegate(&hears, &Hears::message);
    reader.redisException += Poco::delegate(&hears, &Hears::fault);
    own->execute<void>(words_of("SUBSCRIBE news"));
    own->flush();
    reader.start();
    std::this_thread::sleep_for(std::chrono::milliseconds(300));
    connect_to(port)->execute<Poco::Int64>(words_of("PUBLISH news x"));
    hears.heard.tryWait(5000);
    reader.stop();
    own->disconnect();
    return json(hears.text);
}

static string pool() {
    Poco::PoolableObjectFactory<Client, Client::Ptr> factory("127.0.0.1:" + std::to_string(port));
    Poco::ObjectPool<Client, Client::Ptr> own(factory, 4, 8);
    std::vector<std::thread> threads;
    for (int at = 0; at < 8; at++)
        threads.emplace_back([&] {
            PooledConnection one(own, 5000);
            for (int turn = 0; turn < 50; turn++)
                static_cast<Client::Ptr>(one)->execute<Poco::Int64>(Command::incr("pool"));
        });
    for (std::thread &one : threads)
        one.join();
    return json(connect_to(port)->execute<BulkString>(Command::get("pool")).value());
}

static string given_up() {
    Client::Ptr own = connect_to(port);
    own->setReceiveTimeout(Poco::Timespan(0, 300000));
    string found = "found";
    try {
        own->execute<Array>(Command::blpop({"nothing"}, 2));
    } catch (Poco::Exception &) {
        found = "given up";
    }
    return "[" + json(found) + ", " + all(connect_to(port), "SET a 1;GET a") + "]";
}

static string fault_of(const string &line) {
    try {
        connect_to(port)->execute<Poco::Int64>(words_of(line));
    } catch (RedisException &fault) {
        return json(fault.message().substr(0, fault.message().find(' ')) + ", as wanted");
    }
    return json("no error");
}

int main(int count, char **words) {
    if (count < 2)
        return 1;
    port = std::atoi(words[1]);
    all("strings", "SET a 1;GET a;GET none;INCR a;APPEND a 2;STRLEN a;GETSET a 9;SETNX a 1;INCRBYFLOAT a 0.5");
    all("expiry", "SETEX b 100 2;TTL b;PERSIST b;TTL b;EXPIRE b 50;TTL b");
    all("several keys", "MSET x 1 y 2 z 3;MGET x y none;EXISTS x y;DEL x y z");
    all("hashes", "HSET h f 1 g 2;HGETALL h;HMGET h f none;HINCRBY h f 2;HLEN h");
    all("lists", "RPUSH l 1 2 3;LRANGE l 0 -1;LPOP l;LREM l 1 3");
    all("sets", "SADD s m;SMEMBERS s;SISMEMBER s m;SADD {s}2 m;SINTER s {s}2");
    all("sorted sets", "ZADD q 1.5 m 2 n;ZRANGE q 0 -1 WITHSCORES;ZINCRBY q 2 m;ZPOPMIN q");
    all("streams", "XADD stream 1-1 f 1;XLEN stream;XRANGE stream - +");
    call("commands that the library makes", [] {
        Client::Ptr own = connect_to(port);
        std::map<string, string> fields = {{"f", "1"}, {"g", "2"}};
        string found = own->execute<string>(Command::hmset("made", fields));
        return "[" + json(found) + ", " + std::to_string(own->execute<Array>(Command::hmget("made", {"f", "g"})).size()) + "]";
    });
    all("keys", "KEYS a;DBSIZE");
    call("deep pipeline", deep_pipeline);
    all("transaction", "MULTI;SET {t}1 1;INCR {t}1;SET {t}2 1;EXEC");
    all("transaction, several slots", "MULTI;SET t1 1;SET t2 1;EXEC");
    all("watch", "WATCH {w}a;MULTI;SET {w}a 2;EXEC");
    all("script", "EVAL return(redis.call('INCRBY',KEYS[1],ARGV[1])) 1 e 2;EVAL return(ARGV[1]) 0 x");
    all("blocking pop", "RPUSH jobs 1;BLPOP jobs 1;BLPOP jobs 1");
    all("blocking pop, several slots", "RPUSH jobs 1;BLPOP jobs more 1");
    call("subscribe", subscribe);
    call("errors of a node", [] { return fault_of("LPUSH a 1"); });
    all("ping, echo", "PING;ECHO x");
    call("pool", pool);
    call("a call given up", given_up);
    call("password", [] { return all(connect_to(port + 4), "AUTH secret;SET a 1;GET a"); });
    all("flushdb", "FLUSHDB;DBSIZE");
    all("database 1", "SELECT 1;SET a 1");
    return 0;
}

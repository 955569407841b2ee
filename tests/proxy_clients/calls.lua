-- What lua-redis is used for: the port. Each prints a line of JSON. The port four above wants a password.
local redis = require "redis"

local port = tonumber(arg[1])
local only = os.getenv("CALLS_ONLY")
local it
local SCRIPT = "return redis.call('INCRBY', KEYS[1], ARGV[1])"

-- A value as JSON: the keys of a table come in their order.
local function json(found)
    if type(found) == "table" then
        local parts, names = {}, {}
        for name in pairs(found) do names[#names + 1] = name end
        table.sort(names, function(a, b) return tostring(a) < tostring(b) end)
        for at, name in ipairs(names) do parts[at] = json(tostring(name)) .. ": " .. json(found[name]) end
        return "{" .. table.concat(parts, ", ") .. "}"
    elseif type(found) == "string" then
        return '"' .. found:gsub('[%c"\\]', function(byte) return ("\\u%04x"):format(byte:byte()) end) .. '"'
    end
    return found == nil and "null" or tostring(found)
end

local function call(name, does)
    if only and only ~= name then return end
    it = redis.connect("127.0.0.1", port)
    local is_right, found = pcall(does)
    io.write("[", json(name), ", ", json(is_right and found or not is_right and "ERROR " .. tostring(found) or nil), "]\n")
    io.flush()
end

-- The error that a call is there to get.
local function fault_of(does)
    local is_right, found = pcall(does)
    return is_right and found or (tostring(found):match("[A-Z][A-Z]+") or "an error") .. ", as wanted"
end

local function sorted(found)
    table.sort(found)
    return found
end

local function scan(how, ...)
    local cursor, found, words = "0", {}, { ... }
    repeat
        local key = words[1]
        local page = how == "scan" and it:scan(cursor, key) or it[how](it, key, cursor)
        cursor = page[1]
        for name, one in pairs(page[2]) do found[#found + 1] = type(one) == "table" and table.concat(one, " ") or how == "hscan" and name .. " " .. one or one end
    until cursor == "0"
    return sorted(found)
end

local function deep_pipeline()
    local found, size = it:pipeline(function(pipe)
        for at = 1, 1000 do
            pipe:set("deep" .. at, ("x"):rep(10000))
            pipe:get("deep" .. at)
        end
    end), 0
    for _, one in ipairs(found) do size = size + (type(one) == "string" and #one or 0) end
    return { #found, size }
end

local function fill(pipe, ...)
    for _, key in ipairs({ ... }) do
        pipe:set(key, "1")
        pipe:incr(key)
    end
end

local function subscribe(how, name, channel)
    local heard
    for message, stop in it:pubsub({ [how] = { name } }) do
        if message.kind == "subscribe" or message.kind == "psubscribe" then
            redis.connect("127.0.0.1", port):publish(channel, "x")
        else
            heard = { message.channel, message.payload }
            stop()
        end
    end
    return heard
end

call("strings", function() return { it:set("a", "1"), it:get("a"), it:incr("a"), it:append("a", "2"), it:strlen("a"), it:getset("a", "9"), it:setnx("a", "1"), it:incrby("a", 3) } end)
call("expiry", function() return { it:setex("b", 100, "2"), it:ttl("b"), it:persist("b"), it:ttl("b"), it:expire("b", 50), it:ttl("b") } end)
call("several keys", function() return { it:mset("x", "1", "y", "2"), it:mget("x", "y"), it:exists("x"), it:del("x", "y") } end)
call("hashes", function() return { it:hset("h", "f", "1"), it:hmset("h", { g = "2" }), it:hgetall("h"), it:hmget("h", "f", "g"), it:hincrby("h", "f", 2), it:hlen("h") } end)
call("lists", function() return { it:rpush("l", "1", "2"), it:lrange("l", 0, -1), it:lpop("l"), it:llen("l") } end)
call("sets", function() return { it:sadd("s", "m"), it:smembers("s"), it:sismember("s", "m"), it:sadd("{s}2", "m"), it:sinter("s", "{s}2") } end)
call("sorted sets", function() return { it:zadd("q", 1.5, "m"), it:zrange("q", 0, -1, { withscores = true }), it:zincrby("q", 2, "m"), it:zscore("q", "m") } end)
call("sort", function() return { it:rpush("{n}l", 3, 1, 2), it:sort("{n}l"), it:sort("{n}l", { sort = "desc" }) } end)
call("keys", function() return sorted(it:keys("*")) end)
call("scan", function() return { scan("scan"), scan("scan", { match = "s*" }) } end)
call("scans of one key", function() return { scan("hscan", "h"), scan("sscan", "s"), scan("zscan", "q") } end)
call("pipeline", function() return it:pipeline(function(pipe) fill(pipe, "p1", "p2") end) end)
call("deep pipeline", deep_pipeline)
call("transaction", function() return it:transaction(function(pipe) fill(pipe, "{t}1", "{t}2") end) end)
call("transaction, several slots", function() return it:transaction(function(pipe) fill(pipe, "t1", "t2") end) end)
call("watch", function() return it:transaction({ watch = "{w}a", cas = true }, function(pipe) pipe:get("{w}a"); pipe:multi(); pipe:set("{w}a", "mine") end) end)
call("script", function() return { it:eval(SCRIPT, 1, "e", 2), it:evalsha(it:script("load", SCRIPT), 1, "e", 3) } end)
call("script without keys", function() return it:eval("return {1, ARGV[1]}", 0, "x") end)
call("blocking pop", function() return { it:rpush("jobs", "1"), it:blpop("jobs", 1), it:rpush("jobs", "2"), it:brpoplpush("jobs", "{jobs}done", 1) } end)
call("blocking pop, several slots", function() return { it:rpush("jobs", "1"), it:blpop("jobs", "more", 1) } end)
call("subscribe", function() return subscribe("subscribe", "news", "news") end)
call("subscribe to a pattern", function() return subscribe("psubscribe", "new*", "newer") end)
call("errors of a node", function() return { it:set("a", "x"), fault_of(function() return it:incr("a") end), it:get("a") } end)
call("info", function() return { it:info().server.redis_version, it:info().replication.role } end)
call("ping, echo", function() return { it:ping(), it:echo("x") } end)
call("config get", function() return it:config("get", "maxmemory-policy") end)
call("password", function()
    local own = redis.connect("127.0.0.1", port + 4)
    return { fault_of(function() return own:get("a") end), fault_of(function() return own:auth("wrong") end), own:auth("secret"), own:set("a", "1") }
end)
call("flushdb", function() return { it:flushdb(), it:dbsize() } end)
call("database 1", function() return { it:select(1), it:set("a", "1") } end)

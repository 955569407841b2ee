#!/usr/bin/env escript
%% What eredis is used for, the client of Erlang: the port. Each prints a line of JSON. The port four above wants a
%% password.
-mode(compile).

main([Word]) ->
    Port = list_to_integer(Word),
    It = connect(Port, ""),
    All = fun(Name, Lines) -> call(Name, fun() -> [ask(It, Line) || Line <- Lines] end) end,
    All("strings", ["SET a 1", "GET a", "GET none", "INCR a", "APPEND a 2", "STRLEN a", "GETSET a 9", "SETNX a 1", "INCRBYFLOAT a 0.5"]),
    All("expiry", ["SETEX b 100 2", "TTL b", "PERSIST b", "TTL b", "EXPIRE b 50", "TTL b", "SET b 1 EX 9 XX"]),
    All("several keys", ["MSET x 1 y 2 z 3", "MGET x y none", "EXISTS x y", "DEL x y z"]),
    All("hashes", ["HSET h f 1 g 2", "HGETALL h", "HMGET h f none", "HINCRBY h f 2", "HDEL h g", "HLEN h"]),
    All("lists", ["RPUSH l 1 2 3", "LRANGE l 0 -1", "LPOP l", "RPOP l 2", "LPUSH l z", "LREM l 1 z"]),
    All("sets", ["SADD s m", "SMEMBERS s", "SISMEMBER s m", "SADD {s}2 m", "SINTER s {s}2"]),
    All("sorted sets", ["ZADD q 1.5 m 2 n", "ZRANGE q 0 -1 WITHSCORES", "ZINCRBY q 2 m", "ZPOPMIN q"]),
    All("streams", ["XADD stream 1-1 f 1", "XLEN stream", "XRANGE stream - +", "XREAD STREAMS stream 0"]),
    call("large value", fun() -> [ask(It, ["SET", "big", binary:copy(<<"x">>, 5000000)]), byte_size(ask(It, "GET big")), ask(It, "DEL big")] end),
    call("keys", fun() -> lists:sort(ask(It, "KEYS *")) end),
    call("scan", fun() -> lists:sort(scan(It, <<"0">>)) end),
    call("pipeline", fun() -> piped(It, ["SET p1 1", "INCR p1", "SET p2 1", "INCR p2"]) end),
    call("deep pipeline", fun() -> deep_pipeline(It) end),
    All("transaction", ["MULTI", "SET {t}1 1", "INCR {t}1", "SET {t}2 1", "EXEC"]),
    call("transaction, several slots", fun() -> piped(It, ["MULTI", "SET t1 1", "SET t2 1", "EXEC"]) end),
    All("watch", ["WATCH {w}a", "MULTI", "SET {w}a 2", "EXEC"]),
    All("script", ["EVAL return(redis.call('INCRBY',KEYS[1],ARGV[1])) 1 e 2", "EVAL return(ARGV[1]) 0 x"]),
    All("blocking pop", ["RPUSH jobs 1", "BLPOP jobs 1", "BLPOP jobs 1"]),
    All("blocking pop, several slots", ["RPUSH jobs 1", "BLPOP jobs more 1"]),
    call("calls of many processes", fun() -> many(It) end),
    call("calls without a reply", fun() -> [eredis:q_noreply(It, ["INCR", "quiet"]), ask(It, "GET quiet")] end),
    call("subscribe", fun() -> heard(Port, It, fun eredis_sub:subscribe/2, <<"news">>, 3) end),
    call("subscribe to a pattern", fun() -> heard(Port, It, fun eredis_sub:psubscribe/2, <<"new*">>, 4) end),
    call("errors of a node", fun() -> [ask(It, "SET a x"), fault_of(fun() -> ask(It, "INCR a") end), ask(It, "GET a")] end),
    call("info", fun() -> binary:match(ask(It, "INFO"), <<"redis_version:7">>) =/= nomatch end),
    call("reconnect", fun() -> [ask(It, "SET a 1"), ask(It, "QUIT"), timer:sleep(500), ask(It, "GET a")] end),
    call("password", fun() -> Own = connect(Port + 4, "secret"), [ask(Own, "SET a 1"), ask(Own, "GET a")] end),
    call("wrong password", fun() -> process_flag(trap_exit, true), element(1, eredis:start_link("127.0.0.1", Port + 4, 0, "wrong", no_reconnect)) end),
    All("flushdb", ["FLUSHDB", "DBSIZE"]),
    call("database 1", fun() ->
        process_flag(trap_exit, true),
        case eredis:start_link("127.0.0.1", Port, 1, "", no_reconnect) of
            {ok, Own} -> ask(Own, "SET a 1");
            {error, Why} -> throw(Why)
        end
    end),
    halt(0).

connect(Port, Password) ->
    {ok, It} = eredis:start_link("127.0.0.1", Port, 0, Password, 200),
    It.

%% The reply to a command, given by its words or as a line.
ask(It, [Letter | _] = Line) when is_integer(Letter) -> ask(It, string:lexemes(Line, " "));
ask(It, Words) -> reply(eredis:q(It, Words, 20000)).

reply({ok, Found}) -> Found;
reply({error, Why}) -> throw(Why).

piped(It, Lines) -> [reply(One) || One <- eredis:qp(It, [string:lexemes(Line, " ") || Line <- Lines], 20000)].

deep_pipeline(It) ->
    Key = fun(At) -> "deep" ++ integer_to_list(At) end,
    Value = binary:copy(<<"x">>, 10000),
    Found = eredis:qp(It, lists:append([[["SET", Key(At), Value], ["GET", Key(At)]] || At <- lists:seq(1, 1000)]), 20000),
    [length(Found), lists:sum([byte_size(reply(One)) || One <- Found])].

scan(It, Cursor) ->
    [Next, Keys] = ask(It, ["SCAN", Cursor]),
    Keys ++ case Next of <<"0">> -> []; _ -> scan(It, Next) end.

%% Processes share one connection.
many(It) ->
    Self = self(),
    [spawn_link(fun() -> ask(It, "INCR shared"), Self ! done end) || _ <- lists:seq(1, 500)],
    [receive done -> ok end || _ <- lists:seq(1, 500)],
    ask(It, "GET shared").

%% What a subscriber is told, after the reply to its subscription.
heard(Port, It, Subscribe, Name, Size) ->
    {ok, Own} = eredis_sub:start_link("127.0.0.1", Port, ""),
    eredis_sub:controlling_process(Own),
    Subscribe(Own, [Name]),
    receive {subscribed, Name, Own} -> eredis_sub:ack_message(Own) after 5000 -> throw(<<"no subscription">>) end,
    ask(It, "PUBLISH news x"),
    receive Message when element(Size, Message) =/= Own -> lists:droplast(tl(tuple_to_list(Message))) after 5000 -> throw(<<"no message">>) end.

fault_of(Does) ->
    try Does() catch throw:Why -> [hd(binary:split(Why, <<" ">>)), <<"as wanted">>] end.

call(Name, Does) ->
    case lists:member(os:getenv("CALLS_ONLY", Name), [Name]) of
        true -> io:format("[~s, ~s]~n", [json(list_to_binary(Name)), json(try Does() catch _:Why -> fault(Why) end)]);
        false -> ok
    end.

fault(Why) when is_binary(Why) -> <<"ERROR ", Why/binary>>;
fault(Why) -> list_to_binary(io_lib:format("ERROR ~p", [Why])).

json(Found) when is_binary(Found) ->
    ["\"", [case Byte < 32 orelse Byte =:= $" orelse Byte =:= $\\ of true -> io_lib:format("\\u~4.16.0b", [Byte]); false -> Byte end || <<Byte>> <= Found], "\""];
json(Found) when is_list(Found) -> ["[", lists:join(", ", [json(One) || One <- Found]), "]"];
json(undefined) -> "null";
json(Found) when is_boolean(Found) -> atom_to_list(Found);
json(Found) when is_atom(Found) -> json(atom_to_binary(Found, utf8));
json(Found) -> io_lib:format("~p", [Found]).

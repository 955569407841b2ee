// What go-redis is used for: the port. Each prints a line of JSON. The port four above wants a password.
package main

import (
	"encoding/json"
	"fmt"
	"os"
	"sort"
	"strconv"
	"strings"
	"sync"
	"time"

	"gopkg.in/redis.v5"
)

var port, _ = strconv.Atoi(os.Args[1])
var it = connect(redis.Options{})

const add = "return redis.call('INCRBY', KEYS[1], ARGV[1])"
const three = "return {redis.call('GET', 'a'), redis.call('GET', 'b'), redis.call('GET', 'c')}"

func connect(settings redis.Options) *redis.Client {
	if settings.Addr == "" {
		settings.Addr = fmt.Sprintf("127.0.0.1:%d", port)
	}
	if settings.ReadTimeout == 0 {
		settings.ReadTimeout = 20 * time.Second
	}
	return redis.NewClient(&settings)
}

func call(name string, does func() (interface{}, error)) {
	if only := os.Getenv("CALLS_ONLY"); only != "" && only != name {
		return
	}
	found, fault := does()
	if fault != nil {
		found = "ERROR " + fault.Error()
	}
	text, _ := json.Marshal([]interface{}{name, found})
	fmt.Println(string(text))
}

// What each command gave, as text, or the first error.
func all(name string, does func() []redis.Cmder) {
	call(name, func() (interface{}, error) {
		found := []string{}
		for _, one := range does() {
			if one.Err() != nil && one.Err() != redis.Nil {
				return nil, one.Err()
			}
			text := fmt.Sprint(one)
			found = append(found, text[strings.Index(text, ": ")+2:])
		}
		return found, nil
	})
}

// The error that a call is there to get.
func faultOf(fault error) string {
	if fault == nil {
		return "no error"
	}
	return strings.Fields(fault.Error())[0] + ", as wanted"
}

func scan(match string) (interface{}, error) {
	keys := []string{}
	at := it.Scan(0, match, 10).Iterator()
	for at.Next() {
		keys = append(keys, at.Val())
	}
	sort.Strings(keys)
	return keys, at.Err()
}

func fill(pipe *redis.Pipeline, keys ...string) (interface{}, error) {
	for _, key := range keys {
		pipe.Set(key, "1", 0)
		pipe.Incr(key)
	}
	found, fault := pipe.Exec()
	return fmt.Sprint(found), fault
}

func deepPipeline() (interface{}, error) {
	pipe, size := it.Pipeline(), 0
	for at := 0; at < 1000; at++ {
		pipe.Set(fmt.Sprint("deep", at), strings.Repeat("x", 10000), 0)
		pipe.Get(fmt.Sprint("deep", at))
	}
	found, fault := pipe.Exec()
	for _, one := range found {
		if text, is := one.(*redis.StringCmd); is {
			size += len(text.Val())
		}
	}
	return []int{len(found), size}, fault
}

func watch(isChanged bool) (interface{}, error) {
	fault := it.Watch(func(tx *redis.Tx) error {
		if isChanged {
			it.Set("{w}a", "other", 0)
		}
		_, fault := tx.Pipelined(func(pipe *redis.Pipeline) error {
			pipe.Set("{w}a", "mine", 0)
			return nil
		})
		return fault
	}, "{w}a")
	return []string{faultOf(fault), it.Get("{w}a").Val()}, nil
}

func heard(hears *redis.PubSub, fault error) (interface{}, error) {
	if fault != nil {
		return nil, fault
	}
	defer hears.Close()
	if _, fault := hears.ReceiveTimeout(5 * time.Second); fault != nil {
		return nil, fault
	}
	it.Publish("news", "x")
	message, fault := hears.ReceiveTimeout(5 * time.Second)
	if found, is := message.(*redis.Message); is {
		return []string{found.Channel, found.Pattern, found.Payload}, nil
	}
	return nil, fault
}

func pool() (interface{}, error) {
	own := connect(redis.Options{PoolSize: 5})
	defer own.Close()
	var done sync.WaitGroup
	for at := 0; at < 200; at++ {
		done.Add(1)
		go func() { own.Incr("pool"); done.Done() }()
	}
	done.Wait()
	return own.Get("pool").Result()
}

func givenUp() (interface{}, error) {
	own := connect(redis.Options{ReadTimeout: 200 * time.Millisecond, PoolSize: 1})
	cmd := redis.NewStringSliceCmd("BLPOP", "nothing", "2")
	own.Process(cmd)
	own.Set("a", "1", 0)
	value, fault := own.Get("a").Result()
	return []interface{}{cmd.Err() != nil, value}, fault
}

func password(word string) (interface{}, error) {
	own := connect(redis.Options{Addr: fmt.Sprintf("127.0.0.1:%d", port+4), Password: word})
	if fault := own.Set("a", "1", 0).Err(); fault != nil {
		return faultOf(fault), nil
	}
	return own.Get("a").Result()
}

func main() {
	z := func(score float64, member string) redis.Z { return redis.Z{Score: score, Member: member} }
	all("strings", func() []redis.Cmder {
		return []redis.Cmder{it.Set("a", "1", 0), it.Get("a"), it.Get("none"), it.Incr("a"), it.Append("a", "2"), it.StrLen("a"), it.GetRange("a", 0, 0), it.GetSet("a", "9"), it.SetNX("a", "1", 0), it.IncrByFloat("a", 0.5)}
	})
	all("expiry", func() []redis.Cmder {
		return []redis.Cmder{it.Set("b", "2", 100*time.Second), it.TTL("b"), it.Persist("b"), it.TTL("b"), it.Expire("b", 50*time.Second), it.TTL("b"), it.SetXX("b", "3", 9*time.Second)}
	})
	all("several keys", func() []redis.Cmder {
		return []redis.Cmder{it.MSet("x", "1", "y", "2", "z", "3"), it.MGet("x", "y", "none"), it.Exists("x"), it.Del("x", "y", "z")}
	})
	all("hashes", func() []redis.Cmder {
		return []redis.Cmder{it.HSet("h", "f", "1"), it.HMSet("h", map[string]string{"g": "2"}), it.HGetAll("h"), it.HMGet("h", "f", "none"), it.HIncrBy("h", "f", 2), it.HDel("h", "g"), it.HLen("h")}
	})
	all("lists", func() []redis.Cmder {
		return []redis.Cmder{it.RPush("l", "1", "2", "3"), it.LRange("l", 0, -1), it.LPop("l"), it.LPush("l", "z"), it.LRem("l", 1, "z"), it.LInsertBefore("l", "3", "w")}
	})
	all("sets", func() []redis.Cmder {
		return []redis.Cmder{it.SAdd("s", "m"), it.SMembers("s"), it.SIsMember("s", "m"), it.SAdd("{s}2", "m"), it.SInter("s", "{s}2"), it.SPop("{s}2")}
	})
	all("sorted sets", func() []redis.Cmder {
		return []redis.Cmder{it.ZAdd("q", z(1.5, "m"), z(2, "n")), it.ZRangeWithScores("q", 0, -1), it.ZIncrBy("q", 2, "m"), it.ZRevRank("q", "m"), it.ZRangeByScore("q", redis.ZRangeBy{Min: "0", Max: "3"})}
	})
	all("bits, counts and places", func() []redis.Cmder {
		return []redis.Cmder{it.SetBit("bits", 3, 1), it.BitCount("bits", nil), it.PFAdd("seen", "a", "b"), it.PFCount("seen"), it.GeoAdd("geo", &redis.GeoLocation{Name: "p", Longitude: 13.36, Latitude: 38.11}), it.GeoHash("geo", "p")}
	})
	all("types and copies", func() []redis.Cmder {
		return []redis.Cmder{it.Set("{k}a", "1", 0), it.Type("{k}a"), it.Rename("{k}a", "{k}b"), it.Restore("{k}d", 0, it.Dump("{k}b").Val()), it.Get("{k}d"), it.ObjectEncoding("{k}d")}
	})
	all("sort", func() []redis.Cmder {
		return []redis.Cmder{it.RPush("{n}l", 3, 1, 2), it.Sort("{n}l", redis.Sort{}), it.Sort("{n}l", redis.Sort{Order: "DESC"})}
	})
	call("large value", func() (interface{}, error) {
		it.Set("big", strings.Repeat("x", 5000000), 0)
		defer it.Del("big")
		return len(it.Get("big").Val()), it.Get("big").Err()
	})
	call("keys", func() (interface{}, error) {
		keys, fault := it.Keys("*").Result()
		sort.Strings(keys)
		return keys, fault
	})
	call("scan", func() (interface{}, error) { return scan("") })
	call("scan with a pattern", func() (interface{}, error) { return scan("s*") })
	all("scans of one key", func() []redis.Cmder {
		return []redis.Cmder{it.HScan("h", 0, "", 10), it.SScan("s", 0, "", 10), it.ZScan("q", 0, "", 10)}
	})
	call("pipeline", func() (interface{}, error) { return fill(it.Pipeline(), "p1", "p2", "p3") })
	call("deep pipeline", deepPipeline)
	call("transaction", func() (interface{}, error) { return fill(it.TxPipeline(), "{t}1", "{t}2") })
	call("transaction, several slots", func() (interface{}, error) { return fill(it.TxPipeline(), "t1", "t2") })
	call("watch", func() (interface{}, error) { return watch(false) })
	call("watch, changed key", func() (interface{}, error) { return watch(true) })
	call("script", func() (interface{}, error) {
		own := redis.NewScript(add)
		own.Run(it, []string{"e"}, 2)
		return own.Run(it, []string{"e"}, 3).Result()
	})
	call("script without keys", func() (interface{}, error) { return it.Eval("return {1, ARGV[1]}", nil, "x").Result() })
	call("script with keys that it does not name", func() (interface{}, error) {
		it.MSet("a", 1, "b", 2, "c", 3)
		return it.Eval(three, nil).Result()
	})
	all("blocking pop", func() []redis.Cmder {
		return []redis.Cmder{it.RPush("jobs", "1"), it.BLPop(time.Second, "jobs"), it.BRPop(time.Second, "jobs"), it.RPush("jobs", "2"), it.BRPopLPush("jobs", "{jobs}done", time.Second)}
	})
	all("blocking pop, several slots", func() []redis.Cmder {
		return []redis.Cmder{it.RPush("jobs", "1"), it.BLPop(time.Second, "jobs", "more")}
	})
	call("subscribe", func() (interface{}, error) { return heard(it.Subscribe("news")) })
	call("subscribe to a pattern", func() (interface{}, error) { return heard(it.PSubscribe("new*")) })
	all("channels", func() []redis.Cmder {
		return []redis.Cmder{it.Publish("nobody", "x"), it.PubSubChannels("none*"), it.PubSubNumSub("none")}
	})
	call("errors of a node", func() (interface{}, error) {
		it.Set("a", "x", 0)
		return []string{faultOf(it.Incr("a").Err()), faultOf(it.LPush("a", 1).Err()), it.Get("a").Val()}, nil
	})
	call("info", func() (interface{}, error) {
		found, fault := it.Info().Result()
		return strings.Contains(found, "redis_version:7") && strings.Contains(found, "role:master"), fault
	})
	all("ping, echo", func() []redis.Cmder { return []redis.Cmder{it.Ping(), it.Echo("x")} })
	call("list of clients", func() (interface{}, error) {
		found, fault := it.ClientList().Result()
		return strings.Contains(found, "addr=127.0.0.1:"), fault
	})
	all("config get", func() []redis.Cmder { return []redis.Cmder{it.ConfigGet("maxmemory-policy")} })
	call("pool", pool)
	call("a call given up", givenUp)
	call("password", func() (interface{}, error) { return password("secret") })
	call("wrong password", func() (interface{}, error) { return password("wrong") })
	all("flushdb", func() []redis.Cmder { return []redis.Cmder{it.FlushDb(), it.DbSize()} })
	all("database 1", func() []redis.Cmder { return []redis.Cmder{connect(redis.Options{DB: 1}).Set("a", "1", 0)} })
}

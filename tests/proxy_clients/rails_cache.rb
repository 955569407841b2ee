# What Rails' cache, redis-store and redis-namespace use redis-rb for: the port. Each prints a line of JSON.
require "json"
require "active_support"
require "active_support/cache"
require "active_support/cache/redis_cache_store"
require "active_support/notifications"
$stdout.sync = true
PORT = ARGV[0].to_i
URL = "redis://127.0.0.1:#{PORT}/0".freeze
FAULTS = [] # the cache hides them
KEEP = ->(method:, returning:, exception:) { FAULTS << exception }
IT = ActiveSupport::Cache::RedisCacheStore.new(url: URL, namespace: "app", error_handler: KEEP)

def call(name)
  return unless ENV.fetch("CALLS_ONLY", name) == name
  FAULTS.clear
  found = yield
  puts JSON.generate([name, FAULTS.empty? ? found : "ERROR #{FAULTS.map(&:message)}"])
rescue StandardError, LoadError => fault
  puts JSON.generate([name, "ERROR #{fault.class} #{fault.message}"])
end

call("write, read") { [IT.write("a", { "x" => 1 }, expires_in: 60), IT.read("a"), IT.exist?("a"), IT.delete("a"), IT.read("a")] }
call("fetch") { [IT.fetch("f") { 7 }, IT.fetch("f") { 8 }, IT.fetch("r", race_condition_ttl: 5, expires_in: 60) { 9 }] }
call("write only what is not there") { [IT.write("u", 1, unless_exist: true), IT.write("u", 2, unless_exist: true), IT.read("u")] }
call("increment") { [IT.increment("n"), IT.increment("n", 5, expires_in: 60), IT.decrement("n")] }
call("many at once") { [IT.write_multi({ "x" => 1, "y" => 2 }, expires_in: 60).size, IT.read_multi("x", "y", "none"), IT.fetch_multi("x", "z") { |key| key }, IT.delete_multi(%w[x y])] }
call("large values, compressed") { [IT.write("big", "x" * 1_000_000), IT.read("big").size] }
call("delete by a pattern") { [IT.write("p1", 1), IT.write("p2", 1), IT.delete_matched("p*").nil?, IT.exist?("p1"), IT.exist?("u")] }
call("clear the namespace") { [IT.clear.nil?, IT.exist?("u")] }
call("clear all") { [ActiveSupport::Cache::RedisCacheStore.new(url: URL, error_handler: KEEP).clear, IT.redis.dbsize] }
call("a pool of connections") do
  own = ActiveSupport::Cache::RedisCacheStore.new(url: URL, pool_size: 3, pool_timeout: 5, error_handler: KEEP)
  Array.new(10) { |at| Thread.new { 20.times { own.increment("pool") } } }.each(&:join)
  own.redis.with { |one| one.get("pool") }
end
call("redis-store: marshalled values") do
  require "redis-store"
  own = Redis::Store::Factory.create(URL)
  [own.set("m", { x: 1 }), own.get("m")[:x], own.setnx("m", 2), own.mset("q", 1, "r", 2), own.mget("q", "r")]
end
call("redis-store: a namespace") do
  require "redis-store"
  own = Redis::Store::Factory.create("#{URL}/mine")
  [own.set("a", 1), own.get("a"), own.keys("*"), own.mget("a", "none"), own.flushdb, own.get("a")]
end
call("redis-namespace: a prefix") do
  require "redis-namespace"
  own = Redis::Namespace.new(:ns, redis: Redis.new(port: PORT))
  [own.set("a", 1), own.mget("a", "none"), own.keys("*"), own.scan_each.to_a, own.multi { |pipe| pipe.incr("a"); pipe.incr("b") }, own.blpop("none", timeout: 1), own.del("a", "b")]
end
call("redis-rack: sessions") do
  require "rack/session/redis"
  app = ->(env) { env["rack.session"]["n"] = env["rack.session"]["n"].to_i + 1; [200, {}, [env["rack.session"]["n"].to_s]] }
  own = Rack::MockRequest.new(Rack::Session::Redis.new(app, redis_server: "#{URL}/session"))
  first = own.get("/")
  [first.body, own.get("/", "HTTP_COOKIE" => first["Set-Cookie"]).body]
end
call("rollout: flags") do
  require "rollout"
  own = Rollout.new(Redis.new(port: PORT))
  own.activate_percentage(:chat, 100)
  found = [own.active?(:chat), own.features, own.deactivate(:chat).nil?, own.active?(:chat), own.clear!.nil?]
  found[1..1] + [found[0], found[3]]
end
call("database 1") { ActiveSupport::Cache::RedisCacheStore.new(url: "redis://127.0.0.1:#{PORT}/1", error_handler: KEEP).write("a", 1) }

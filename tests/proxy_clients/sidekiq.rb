# What Sidekiq uses Redis for: the port. Each prints a line of JSON.
require "json"
require "sidekiq"
require "sidekiq/api"
require "sidekiq/fetch"
require "sidekiq/launcher"
$stdout.sync = true
Redis.silence_deprecations = true
Sidekiq.logger.level = Logger::FATAL
SETTINGS = { url: "redis://127.0.0.1:#{ARGV[0]}/0", timeout: 20 }.freeze
Sidekiq.redis = SETTINGS

class Job
  include Sidekiq::Worker
  sidekiq_options queue: "own"

  def perform(number)
    raise "refused" if number.negative?
    Sidekiq.redis { |own| own.set("done", number) }
  end
end

def call(name)
  return unless ENV.fetch("CALLS_ONLY", name) == name
  puts JSON.generate([name, yield])
rescue StandardError => fault
  puts JSON.generate([name, "ERROR #{fault.class} #{fault.message}"])
end

# A process of Sidekiq in this one, until a block is true.
def run_until(*queues)
  Sidekiq.redis = SETTINGS
  settings = Sidekiq.options.merge(queues: queues, strict: true, concurrency: 2, timeout: 2, poll_interval_average: 1)
  settings[:fetch] = Sidekiq::BasicFetch.new(settings)
  own = Sidekiq::Launcher.new(settings)
  own.run
  until_true(10) { yield }
ensure
  own&.stop
end

def until_true(seconds)
  (seconds * 20).times { return true if yield; sleep 0.05 }
  false
end

def done
  Sidekiq.redis { |own| own.get("done") }
end

call("push a job") { [Job.perform_async(1).size, Sidekiq::Queue.new("own").size, Sidekiq::Queue.new("own").first.args, Sidekiq::Queue.all.map(&:name)] }
call("push many jobs") { [Sidekiq::Client.push_bulk("class" => Job, "args" => [[2], [3]]).size, Sidekiq::Queue.new("own").size] }
call("a job of later") { [Job.perform_in(3600, 4).size, Sidekiq::ScheduledSet.new.size, Sidekiq::ScheduledSet.new.first.args] }
call("look for a job") { found = Sidekiq::Queue.new("own").find { |job| job.args == [2] }; [found.delete.nil?, Sidekiq::Queue.new("own").size] }
call("move the later jobs to their queue") { Sidekiq::ScheduledSet.new.each(&:add_to_queue); [Sidekiq::ScheduledSet.new.size, Sidekiq::Queue.new("own").size] }
call("clear the queues") { [Sidekiq::Queue.new("own").clear.nil?, Sidekiq::Queue.new("own").size] }
call("fetch of one queue") do
  Job.perform_async(5)
  work = Sidekiq::BasicFetch.new(queues: ["own"], strict: true).retrieve_work
  [work.queue_name, JSON.parse(work.job)["args"], work.requeue]
end
call("fetch of several queues") { Sidekiq::BasicFetch.new(queues: %w[own low], strict: true).retrieve_work&.queue_name }
call("a process, and its heartbeat") do
  Job.perform_async(6)
  found = nil
  run_until("own") { found = [done, Sidekiq::ProcessSet.new(false).size]; found == ["6", 1] }
  found
end
call("retries of a job that fails") { Job.perform_async(-1); run_until("own") { Sidekiq::RetrySet.new.size == 1 }; Sidekiq::RetrySet.new.map(&:args) }
call("figures") { found = Sidekiq::Stats.new; [found.retry_size, found.scheduled_size, found.enqueued, found.queues] }
call("clear the retries") { [Sidekiq::RetrySet.new.clear.nil?, Sidekiq::RetrySet.new.size, Sidekiq::DeadSet.new.size] }
exit!(0)

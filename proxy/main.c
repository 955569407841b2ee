/* A proxy before a Redis cluster: clients speak to it as to one server. README.md says what it does. */
#include "commands.h"
#include "listener.h"
#include "peer.h"
#include "tls.h"
#include "worker.h"

#include <errno.h>
#include <fcntl.h>
#include <pthread.h>
#include <signal.h>
#include <stdarg.h>
#include <stdio.h>
#include <string.h>
#include <sys/resource.h>
#include <time.h>
#include <unistd.h>

proxy the_proxy;

uint64_t clock_now(void) {
    struct timespec now;
    clock_gettime(CLOCK_MONOTONIC, &now);
    return (uint64_t)now.tv_sec * SECOND + (uint64_t)now.tv_nsec / 1000;
}

static void write_line(const char *level, const char *format, va_list words) {
    char line[700], when[32];
    struct timespec now;
    struct tm parts;
    clock_gettime(CLOCK_REALTIME, &now);
    gmtime_r(&now.tv_sec, &parts);
    strftime(when, sizeof when, "%Y-%m-%dT%H:%M:%S", &parts);
    int len = snprintf(line, sizeof line - 1, "%s.%03ldZ %s ", when, now.tv_nsec / 1000000, level);
    int more = vsnprintf(line + len, sizeof line - 1 - (size_t)len, format, words);
    size_t end = (size_t)len + (size_t)(more > 0 ? more : 0);
    end = end < sizeof line - 2 ? end : sizeof line - 2;
    for (size_t at = 0; at < end; at++)
        line[at] = line[at] == '\n' || line[at] == '\r' ? ' ' : line[at];
    line[end] = '\n';
    fwrite(line, 1, end + 1, stderr);
}

void say(const char *format, ...) {
    va_list words;
    if (the_proxy.settings.quiet)
        return;
    va_start(words, format);
    write_line("info", format, words);
    va_end(words);
}

void warn(const char *format, ...) {
    va_list words;
    va_start(words, format);
    write_line("warn", format, words);
    va_end(words);
}

static void raise_limits(void) {
    struct rlimit limit;
    rlim_t wanted = 2 * the_proxy.settings.max_clients + 1024; /* some have a connection to a node, too */
    if (getrlimit(RLIMIT_NOFILE, &limit) != 0)
        return;
    if (limit.rlim_cur < wanted) {
        limit.rlim_cur = limit.rlim_max < wanted ? limit.rlim_max : wanted;
        setrlimit(RLIMIT_NOFILE, &limit);
    }
    if (limit.rlim_cur < the_proxy.settings.max_clients + 256)
        warn("there are only %llu descriptors for %llu clients", (unsigned long long)limit.rlim_cur,
             (unsigned long long)the_proxy.settings.max_clients);
}

enum { APPENDING = O_WRONLY | O_APPEND | O_CLOEXEC };

/* Has standard error go to the file that `log` names. Threads may write meanwhile: then it goes to either. */
static bool open_log(void) {
    const char *path = the_proxy.settings.log;
    int fd = path == NULL ? STDERR_FILENO : open(path, APPENDING | O_CREAT, 0640);
    if (fd < 0 || dup2(fd, STDERR_FILENO) < 0) {
        warn("%s: %s", path, strerror(errno));
        return false;
    }
    if (fd != STDERR_FILENO)
        close(fd);
    return true;
}

/* Whether the log can be opened. No file is made, since it could belong to the wrong user then. */
static bool log_is_right(const char *path) {
    int fd = path == NULL ? -1 : open(path, APPENDING);
    if (fd >= 0)
        close(fd);
    if (path == NULL || fd >= 0 || (errno == ENOENT && path_can_be_made(path)))
        return true;
    warn("%s: %s", path, strerror(errno));
    return false;
}

/* Whether the log, addresses, paths and certificates are as they should be, and a line of the log if not. The
 * certificates are used from then on. */
static bool are_right(const settings *found) {
    if (!log_is_right(found->log) || !listeners_are_right(found))
        return false;
    const char *wrong = tls_start(found);
    if (wrong != NULL)
        warn("TLS: %s", wrong);
    return wrong == NULL;
}

/* Says whether the settings are right, and returns the status of the program. */
static int check(const sigset_t *signals) {
    pthread_sigmask(SIG_UNBLOCK, signals, NULL); /* they end it while an address is looked up */
    if (!are_right(&the_proxy.settings))
        return 2;
    puts("the settings are right");
    return 0;
}

/* The words that the program was started with. */
static int word_count;
static char **all_words;

/* Opens the log anew and takes the settings that may change. If one is wrong, all stay. */
static void renew(void) {
    settings found;
    open_log();
    const char *wrong = settings_again(&found, word_count, all_words);
    if (wrong != NULL) {
        warn("the settings stay as they are: %s", wrong);
    } else if (!are_right(&found)) {
        warn("the settings stay as they are");
    } else {
        settings_renew(&the_proxy.settings, &found);
        raise_limits();
    }
}

/* Signals come to this thread alone. The second one that ends the program does so at once. */
static void *wait_for_signals(void *given) {
    int signal = 0;
    for (;;) {
        if (sigwait(given, &signal) != 0)
            continue;
        if (signal == SIGTERM || signal == SIGINT) {
            int count = atomic_fetch_add(&the_proxy.draining, 1);
            say("signal %d: %s", signal, count == 0 ? "open requests are finished" : "the end");
        } else if (signal == SIGHUP) {
            renew();
        } else {
            say("signal %d: it does nothing", signal);
        }
    }
    return NULL;
}

static void block_signals(sigset_t *signals) {
    static const int all[] = {SIGTERM, SIGINT, SIGHUP, SIGUSR1, SIGUSR2};
    signal(SIGPIPE, SIG_IGN);
    sigemptyset(signals);
    for (size_t at = 0; at < sizeof all / sizeof *all; at++)
        sigaddset(signals, all[at]);
    pthread_sigmask(SIG_BLOCK, signals, NULL);
}

/* Waits for the first map. False if no node gives one in time. */
static bool find_map(worker *worker) {
    uint64_t until = worker->now + the_proxy.settings.timeout * MILLISECOND;
    while (!worker->map.has_map && worker->now < until && atomic_load(&the_proxy.draining) == 0)
        worker_round(worker);
    if (!worker->map.has_map)
        warn("no map of the cluster: %s",
             worker->map.why[0] != 0 ? worker->map.why : "no node answered in time");
    return worker->map.has_map;
}

/* Runs the threads until all are drained. The first one is this. */
static bool run(void) {
    pthread_t threads[MOST_THREADS];
    uint64_t count = the_proxy.settings.threads, started = 1;
    worker *first = the_proxy.workers[0];
    if (!find_map(first) || !listeners_open(first))
        return false;
    while (started < count &&
           pthread_create(&threads[started], NULL, worker_run, the_proxy.workers[started]) == 0)
        started++;
    say("listening at %s; threads: %llu", the_proxy.settings.listen, (unsigned long long)started);
    if (the_proxy.settings.split_transactions)
        say("split-transactions: a transaction over several slots is not atomic: one slot may take effect "
            "without another");
    if (started == count)
        worker_run(first);
    for (uint64_t at = 1; at < started; at++)
        pthread_join(threads[at], NULL);
    return started == count;
}

int main(int count, char **words) {
    static sigset_t signals;
    pthread_t waiter;
    word_count = count;
    all_words = words;
    block_signals(&signals);
    commands_start();
    if (!settings_read(&the_proxy.settings, count, words))
        return 2;
    if (the_proxy.settings.is_check)
        return check(&signals);
    if (!open_log() || !are_right(&the_proxy.settings))
        return 2;
    raise_limits();
    the_proxy.start = clock_now();
    for (unsigned at = 0; at < the_proxy.settings.threads; at++) {
        the_proxy.workers[at] = worker_new(at);
        if (the_proxy.workers[at] == NULL)
            return 1;
    }
    if (pthread_create(&waiter, NULL, wait_for_signals, &signals) != 0)
        return 1;
    bool ran_well = run();
    pthread_cancel(waiter);
    pthread_join(waiter, NULL);
    listeners_close(the_proxy.workers[0]);
    for (unsigned at = 0; at < the_proxy.settings.threads; at++)
        worker_free(the_proxy.workers[at]);
    if (ran_well)
        say("the end: no client is left without its replies");
    return ran_well ? 0 : 1;
}

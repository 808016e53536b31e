// The load of the benchmark: a server, and a client that reaches it through a forwarder and measures.
// Every byte is checked where it arrives.
//
//   load serve THREADS
//       Prints its port on 127.0.0.1. THREADS are for requests, and as many for all else. Ends when standard input
//       ends, with status 1 where a connection broke the rules.
//   load client PORT SECONDS THREADS KIND CONNECTIONS [KIND CONNECTIONS]
//       Opens its connections and prints "ready"; at a line on standard input it runs and prints a line of results;
//       when standard input ends it ends. A second load runs beside the first from the same start to the same
//       deadline, in threads of its own. KIND is
//         up       bytes one way, as fast as they go
//         both     bytes both ways
//         ask      requests and answers of 64 bytes, one at a time on each connection
//         connect  a connection for each answer, CONNECTIONS at a time
//         idle     connections that carry nothing until the line comes, and then 256 KiB each way
//         burst    a byte on each connection at once, by one thread, and each one's answer; after a pause, again
//       The results are the bytes, answers or bursts; bytes, or answers before the deadline, in a second; and the
//       median and the 99th percentile of the time of an answer or burst, in µs.
//
// A connection begins with a hello of the client. Then each direction is a stream: the pattern, from a place that the
// hello names; with its first 64 bytes the server answers the hello. A byte that is lost, doubled or another
// connection's differs from the pattern. A stream of bulk ends where the pattern does.

#define _GNU_SOURCE
#include <arpa/inet.h>
#include <errno.h>
#include <netinet/tcp.h>
#include <poll.h>
#include <pthread.h>
#include <stdatomic.h>
#include <stdbool.h>
#include <stdint.h>
#include <stdio.h>
#include <stdlib.h>
#include <string.h>
#include <sys/epoll.h>
#include <sys/param.h>
#include <sys/socket.h>
#include <time.h>
#include <unistd.h>

enum {
    PERIOD = 65521, // of the pattern: a prime, so that no buffer's size is a multiple of it
    MOST_SENT = 65536,
    MOST_READ = 262144,
    REQUEST = 64, // bytes of a request and of an answer, also to a hello
    BATCH = 256,  // events at a time
    MOST_THREADS = 64,
    MOST_TIMES = 1 << 24, // of a load
    PAUSE = 2000,         // µs between two bursts
};
static const uint64_t ENDLESS = 1ull << 60; // bytes, and also ns

enum kind { UP, BOTH, ASK, BURST, CONNECT, IDLE, KINDS };
static const struct {
    const char *name;
    enum kind served; // what it is to the server
    uint32_t size;    // of a request, or of what a stream is a multiple of
    bool early;       // whether its connections say their hello before it begins
} kinds[KINDS] = {{"up", UP, PERIOD, true},   {"both", BOTH, PERIOD, true},        {"ask", ASK, REQUEST, true},
                  {"burst", ASK, 1, true},    {"connect", CONNECT, REQUEST, false}, {"idle", ASK, MOST_READ, false}};

struct hello {
    uint32_t kind, size, seed;
};

// One direction of a connection.
struct stream {
    uint64_t place; // of the pattern, where it begins
    uint64_t at;    // bytes so far
    uint64_t end;   // bytes once all is sent that is owed, or all has come that the client waits for
};

struct connection {
    int fd, epoll;
    uint32_t events; // what epoll watches for
    struct hello hello;
    size_t greeted; // bytes of the hello that are known
    struct stream in, out;
    bool ended;     // the peer's end of input was read
    uint64_t since; // client: when the request went out, in ns
};

// What a client does.
struct load {
    enum kind kind;
    atomic_ullong units;  // bytes, answers or bursts done
    atomic_ullong timely; // answers that came before the deadline
    atomic_ullong done;   // when it was over, in ns
    atomic_size_t timed;
    uint32_t times[MOST_TIMES]; // how long each answer or burst took, in ns
};

struct thread {
    pthread_t id;
    int epoll;
    struct load *load; // client: what it has a part in
    int count;         // client: its connections
    int live;          // those that are waited for; a server's never end
};

static unsigned char pattern[PERIOD + MOST_READ];
static struct sockaddr_in address; // where the server listens, or the client connects
static struct thread threads[MOST_THREADS];
static int thread_count;

static void need(bool good, const char *what)
{
    if (!good) {
        fprintf(stderr, "load: %s: %s\n", what, errno != 0 ? strerror(errno) : "not as it should be");
        exit(1);
    }
}

static uint64_t now(void)
{
    struct timespec time;
    clock_gettime(CLOCK_MONOTONIC, &time);
    return time.tv_sec * 1000000000ull + time.tv_nsec;
}

static const unsigned char *next_bytes(const struct stream *s)
{
    return pattern + (s->place + s->at) % PERIOD;
}

static bool is_bulk(const struct connection *c)
{
    return c->hello.kind == UP || c->hello.kind == BOTH;
}

static bool passes(ssize_t result)
{
    return result >= 0 || errno == EAGAIN || errno == EINTR;
}

// Reads once. False where the connection failed or the peer broke the rules: it may end only where nothing is missing.
static bool receive(struct connection *c)
{
    static _Thread_local unsigned char buffer[MOST_READ];
    size_t missing = sizeof c->hello - c->greeted;
    errno = 0;
    ssize_t got = recv(c->fd, buffer, missing > 0 ? missing : sizeof buffer, MSG_DONTWAIT);
    c->ended = got == 0;
    if (got <= 0)
        return c->ended ? missing == 0 && c->in.at % c->hello.size == 0 : passes(got);
    if (missing > 0) {
        memcpy((char *)&c->hello + c->greeted, buffer, got);
        c->greeted += got;
        return true;
    }
    bool same = memcmp(buffer, next_bytes(&c->in), got) == 0;
    c->in.at += got;
    return same;
}

static void finish(struct stream *s)
{
    s->end = (s->at / PERIOD + 1) * PERIOD;
}

static bool watch(struct connection *c, int change, uint32_t events)
{
    struct epoll_event event = {.events = c->events = events, .data.ptr = c};
    return epoll_ctl(c->epoll, change, c->fd, &event) == 0;
}

// Writes once where there is something to write, or else its end, and watches for what is left to do.
static bool push(struct connection *c)
{
    struct stream *s = &c->out;
    if (s->at < s->end) {
        ssize_t sent = send(c->fd, next_bytes(s), MIN(s->end - s->at, MOST_SENT), MSG_DONTWAIT | MSG_NOSIGNAL);
        if (!passes(sent))
            return false;
        s->at += sent > 0 ? sent : 0;
        if (is_bulk(c) && s->at == s->end && s->at % PERIOD == 0 && shutdown(c->fd, SHUT_WR) != 0)
            return false;
    }
    uint32_t events = (c->ended ? 0 : EPOLLIN) | (s->at < s->end ? EPOLLOUT : 0);
    return events == c->events || watch(c, EPOLL_CTL_MOD, events);
}

static int tcp_socket(void)
{
    int fd = socket(AF_INET, SOCK_STREAM, 0), on = 1;
    need(setsockopt(fd, IPPROTO_TCP, TCP_NODELAY, &on, sizeof on) == 0, "socket");
    return fd;
}

static void start_threads(void *(*body)(void *))
{
    for (int i = 0; i < thread_count; i++)
        need((threads[i].epoll = epoll_create1(0)) >= 0, "epoll_create1");
    for (int i = 0; i < thread_count; i++)
        need((errno = pthread_create(&threads[i].id, NULL, body, &threads[i])) == 0, "pthread_create");
}

// Handles what comes until all of so many connections are done.
static void run(struct thread *t, int live, void (*handle)(struct thread *, struct connection *, uint32_t))
{
    struct epoll_event events[BATCH];
    t->live = live;
    while (t->live > 0) {
        int count = epoll_wait(t->epoll, events, BATCH, -1);
        for (int i = 0; i < count; i++)
            handle(t, events[i].data.ptr, events[i].events);
    }
}

// The server. The second half of its threads is for requests, so that these wait for the forwarder and not for
// the server's end of a load beside them.

static atomic_int faults;

// A hello that is not the client's gets an answer that the client does not know.
static uint64_t answer_place(const struct hello *h)
{
    return (uint64_t)h->seed + h->size + h->kind + PERIOD / 2;
}

// Goes on with a connection that has said its hello. False where it failed.
static bool serve_once(struct connection *c)
{
    const struct hello *h = &c->hello;
    if (h->kind > CONNECT || h->size == 0)
        return false;
    c->in.place = h->seed;
    c->out.place = answer_place(h);
    if (!is_bulk(c))
        c->out.end = REQUEST + c->in.at / h->size * h->size;
    else if (c->ended)
        finish(&c->out);
    else
        c->out.end = h->kind == BOTH && c->in.at > 0 ? ENDLESS : REQUEST;
    return push(c);
}

// Gives a connection whose kind is known to a thread for that kind, in turn. It is that thread's at once.
static void hand_over(struct connection *c)
{
    static atomic_uint turns[2];
    int half = thread_count / 2, asks = c->hello.kind == ASK;
    need(epoll_ctl(c->epoll, EPOLL_CTL_DEL, c->fd, NULL) == 0, "epoll_ctl");
    c->epoll = threads[asks * half + turns[asks]++ % half].epoll;
    need(watch(c, EPOLL_CTL_ADD, EPOLLIN), "epoll_ctl");
}

static void server_event(struct thread *t, struct connection *c, uint32_t ready)
{
    bool is_new = c->greeted < sizeof c->hello;
    bool good = !(ready & ~EPOLLOUT) || receive(c);
    if (good && c->greeted < sizeof c->hello)
        return;
    good = good && serve_once(c);
    if (good && c->hello.kind != CONNECT && !(c->ended && c->out.at == c->out.end)) {
        if (is_new)
            hand_over(c);
        return;
    }
    if (!good && c->greeted > 0) { // else someone looked whether the forwarder is up
        fprintf(stderr, "load: server: kind %u: %s\n", c->hello.kind, errno != 0 ? strerror(errno) : "wrong bytes");
        faults++;
    }
    close(c->fd);
    free(c);
}

static void *server_thread(void *thread)
{
    run(thread, 1, server_event);
    return NULL;
}

static int serve(int most_threads)
{
    int listener = tcp_socket();
    socklen_t length = sizeof address;
    need(bind(listener, (struct sockaddr *)&address, length) == 0, "bind");
    need(listen(listener, 4096) == 0, "listen");
    need(getsockname(listener, (struct sockaddr *)&address, &length) == 0, "getsockname");
    need(most_threads > 0 && most_threads <= MOST_THREADS / 2, "threads");
    thread_count = 2 * most_threads;
    start_threads(server_thread);
    printf("%d\n", ntohs(address.sin_port));
    struct pollfd watched[] = {{.fd = STDIN_FILENO, .events = POLLIN}, {.fd = listener, .events = POLLIN}};
    // The threads of the first half have new connections in turn, for their hello.
    for (unsigned turn = 0; poll(watched, 2, -1) > 0 && watched[0].revents == 0; turn++) {
        struct connection *c = calloc(1, sizeof *c);
        need(c != NULL && (c->fd = accept(listener, NULL, NULL)) >= 0, "accept");
        c->epoll = threads[turn % most_threads].epoll;
        need(watch(c, EPOLL_CTL_ADD, EPOLLIN), "epoll_ctl");
    }
    return faults != 0;
}

// The client.

static struct load loads[2];
static double seconds;
static uint64_t began, deadline = ENDLESS;
static pthread_barrier_t phase; // where the threads and main meet between two phases

static void open_connection(struct thread *t, struct connection *c)
{
    static atomic_uint opened;
    enum kind kind = t->load->kind;
    *c = (struct connection){.fd = tcp_socket(), .epoll = t->epoll, .greeted = sizeof c->hello};
    c->hello = (struct hello){.kind = kinds[kind].served, .size = kinds[kind].size, .seed = opened++ * 1009};
    c->out.place = c->hello.seed;
    c->in.place = answer_place(&c->hello);
    need(connect(c->fd, (struct sockaddr *)&address, sizeof address) == 0, "connect");
    need(watch(c, EPOLL_CTL_ADD, EPOLLIN), "epoll_ctl");
}

static void say_hello(struct connection *c)
{
    c->in.end = REQUEST;
    need(send(c->fd, &c->hello, sizeof c->hello, MSG_NOSIGNAL) == sizeof c->hello, "hello");
}

// Begins a request, a connection with its request, or a bulk stream.
static void begin(struct thread *t, struct connection *c)
{
    if (t->load->kind == CONNECT)
        open_connection(t, c);
    if (!kinds[t->load->kind].early)
        say_hello(c);
    c->since = now();
    if (c->hello.kind == ASK) {
        c->out.end += c->hello.size;
        c->in.end += c->hello.size;
    } else if (is_bulk(c)) {
        c->out.end = c->in.end = ENDLESS;
    }
    need(push(c), "client: write");
}

static void record(struct load *load, uint64_t took)
{
    size_t place = load->timed++;
    need(place < MOST_TIMES, "more times than there is room for");
    load->times[place] = MIN(took, UINT32_MAX);
    load->units++;
}

// Counts a request that has its answer, or a connection that is at its end. True where there is time for another. An
// answer after the deadline is no part of the rate, but its time counts: or the longest waits would be left out.
static bool complete(struct load *load, struct connection *c)
{
    uint64_t time = now();
    if (c->hello.kind != ASK)
        close(c->fd);
    if (is_bulk(c))
        load->units += c->out.at + (load->kind == BOTH ? c->in.at : 0);
    if (is_bulk(c) || load->kind == BURST || load->kind == IDLE)
        return false;
    record(load, time - c->since);
    load->timely += time < deadline;
    return time < deadline;
}

static bool is_answered(const struct connection *c)
{
    if (c->in.end == ENDLESS)
        return c->ended;
    return c->in.at == c->in.end && (c->ended || c->hello.kind != CONNECT);
}

static void client_event(struct thread *t, struct connection *c, uint32_t ready)
{
    need(!(ready & ~EPOLLOUT) || receive(c), "client: bytes or their end");
    if (c->out.end == ENDLESS && now() >= deadline)
        finish(&c->out);
    if (!is_answered(c))
        need(!c->ended && push(c), "client: end or write");
    else if (deadline == ENDLESS || !complete(t->load, c))
        t->live--;
    else
        begin(t, c);
}

// A client's thread: opens its connections, and runs on all of them. The time of a burst is that of its last answer.
static void *client_thread(void *argument)
{
    struct thread *t = argument;
    struct load *load = t->load;
    bool early = kinds[load->kind].early;
    struct connection *connections = calloc(t->count, sizeof *connections);
    need(connections != NULL, "memory");
    for (int i = 0; i < t->count && load->kind != CONNECT; i++) {
        open_connection(t, &connections[i]);
        if (early)
            say_hello(&connections[i]);
    }
    run(t, early ? t->count : 0, client_event);
    pthread_barrier_wait(&phase);
    pthread_barrier_wait(&phase);
    do {
        uint64_t start = now();
        for (int i = 0; i < t->count; i++)
            begin(t, &connections[i]);
        run(t, t->count, client_event);
        load->done = now();
        if (load->kind == BURST)
            record(load, load->done - start);
    } while (load->kind == BURST && load->done < deadline && usleep(PAUSE) == 0);
    return NULL;
}

static int by_value(const void *left, const void *right)
{
    uint32_t a = *(const uint32_t *)left, b = *(const uint32_t *)right;
    return (a > b) - (a < b);
}

static void print_results(struct load *load)
{
    bool is_timed = load->timed > 0;
    double rate = is_timed ? load->timely / seconds : load->units * 1e9 / (load->done - began);
    qsort(load->times, load->timed, sizeof *load->times, by_value);
    printf("%llu %.6g %.1f %.1f ", load->units, rate, load->times[load->timed / 2] / 1e3,
           load->times[load->timed * 99 / 100] / 1e3);
}

// Gives a load threads of its own, which share its connections. Bursts have one, so that each begins at once.
static void add_load(struct load *load, const char *name, int connections, int most_threads)
{
    while (load->kind < KINDS && strcmp(name, kinds[load->kind].name) != 0)
        load->kind++;
    int count = load->kind == BURST ? 1 : MIN(most_threads, connections);
    need(load->kind < KINDS && count > 0 && count <= MOST_THREADS - thread_count, "kind, connections or threads");
    for (int i = 0; i < count; i++)
        threads[thread_count++] =
            (struct thread){.load = load, .count = connections / count + (i < connections % count)};
}

static int run_client(int load_count, char **arguments, int most_threads)
{
    for (int i = 0; i < load_count; i++)
        add_load(&loads[i], arguments[2 * i], atoi(arguments[2 * i + 1]), most_threads);
    alarm(seconds + 60); // where it hangs
    pthread_barrier_init(&phase, NULL, thread_count + 1);
    start_threads(client_thread);
    pthread_barrier_wait(&phase);
    printf("ready\n");
    if (getchar() == EOF)
        return 1;
    began = now();
    deadline = began + seconds * 1e9;
    pthread_barrier_wait(&phase);
    for (int i = 0; i < thread_count; i++)
        pthread_join(threads[i].id, NULL);
    for (int i = 0; i < load_count; i++)
        print_results(&loads[i]);
    printf("\n");
    while (getchar() != EOF)
        ;
    return 0;
}

int main(int count, char **arguments)
{
    setlinebuf(stdout);
    for (size_t i = 0; i < sizeof pattern; i++)
        pattern[i] = i < PERIOD ? random() : pattern[i - PERIOD];
    address.sin_family = AF_INET;
    address.sin_addr.s_addr = htonl(INADDR_LOOPBACK);
    if (count == 3 && strcmp(arguments[1], "serve") == 0)
        return serve(atoi(arguments[2]));
    if ((count == 7 || count == 9) && strcmp(arguments[1], "client") == 0) {
        address.sin_port = htons(atoi(arguments[2]));
        seconds = atof(arguments[3]);
        return run_client((count - 5) / 2, arguments + 5, atoi(arguments[4]));
    }
    fprintf(stderr, "load: the arguments are not as the head of load.c says\n");
    return 2;
}

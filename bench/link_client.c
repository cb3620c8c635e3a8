/* Clients of a Unix stream socket, and servers to compare with, for bench/serve.
 *
 *   link_client ask PATH CONNECTIONS ROUNDS BATCH FIRST AGAIN
 *       Each connection has a thread. It sends the commands in FIRST once, each when the reply to the one
 *       before has come, and then those in AGAIN for ROUNDS rounds: BATCH of them at once, when all replies
 *       to those before have come. It prints the seconds from when all had sent the first ones to when all
 *       were done, and of the microseconds from where a batch is sent to its last reply the median, the 99th
 *       percentile and the most. FIRST and AGAIN are files of commands, one behind the other; FIRST may be
 *       empty. ROUNDS may be 0: then all that is measured is 0 too.
 *   link_client pass PATH CLIENTS ROUNDS AGAIN
 *       Each client has a thread. It opens a connection, sends the commands in AGAIN, each when the reply to
 *       the one before has come, and closes it: once, and then for ROUNDS rounds. It prints the seconds from
 *       when all had done so once to when all were done, and the same of the microseconds of a round.
 *   link_client hold PATH CONNECTIONS AGAIN
 *       Opens the connections, and asks on each, once all are open. It prints "held", and keeps them
 *       open until its input ends.
 *   link_client echo PATH CONNECTIONS
 *       Listens, prints "listening", and serves so many connections by a thread of their own: it writes a
 *       response of 20 bytes for each 12 bytes that it reads, until the connection ends.
 *   link_client line PATH CONNECTIONS
 *       As echo, by two threads a connection: one reads and cuts, a line with room for 16 requests
 *       brings these to the other, and it makes each response under one lock of all connections.
 *   link_client pool PATH CONNECTIONS
 *       As echo, by 256 threads that are there from the start: each serves one connection after another.
 *
 * It ends with 1, and says why, where anything fails or a reply isn't a success. */
#include <errno.h>
#include <pthread.h>
#include <stdint.h>
#include <stdio.h>
#include <stdlib.h>
#include <string.h>
#include <sys/socket.h>
#include <sys/un.h>
#include <time.h>
#include <unistd.h>

enum { MOST_BYTES = 4096, REQUEST_BYTES = 12, RESPONSE_BYTES = 20, LINE_ROOM = 16, POOL_THREADS = 256 };

static const char *socket_path;

/* ---- what clients and servers share */

static void fail(const char *what)
{
    fprintf(stderr, "link_client: %s: %s\n", what, errno ? strerror(errno) : "not as wanted");
    exit(1);
}

static struct sockaddr_un address_of(const char *path)
{
    struct sockaddr_un address = {.sun_family = AF_UNIX};
    if (strlen(path) >= sizeof address.sun_path)
        fail("a path that is too long");
    strcpy(address.sun_path, path);
    return address;
}

static void write_whole(int link, const unsigned char *bytes, size_t size)
{
    while (size > 0) {
        ssize_t sent = send(link, bytes, size, MSG_NOSIGNAL);
        if (sent <= 0)
            fail("send");
        bytes += sent;
        size -= (size_t)sent;
    }
}

/* ---- clients */

struct frames {
    unsigned char *bytes;
    size_t size, count;
};

struct asker {
    pthread_t thread;
    int link;
    double begun, ended;
    /* the seconds that each batch took */
    double *took;
    /* bytes that have come and weren't taken yet */
    unsigned char bytes[MOST_BYTES];
    size_t there;
};

static struct frames first, again;
static size_t rounds, batch;
static pthread_barrier_t ready;

static uint32_t word_at(const unsigned char *bytes)
{
    return (uint32_t)bytes[0] << 24 | (uint32_t)bytes[1] << 16 | (uint32_t)bytes[2] << 8 | bytes[3];
}

/* The commands in a file. */
static struct frames frames_of(const char *path)
{
    FILE *file = fopen(path, "rb");
    if (!file || fseek(file, 0, SEEK_END))
        fail(path);
    struct frames frames = {NULL, (size_t)ftell(file), 0};
    rewind(file);
    frames.bytes = malloc(frames.size + 1);
    if (fread(frames.bytes, 1, frames.size, file) != frames.size)
        fail(path);
    fclose(file);
    for (size_t at = 0; at < frames.size; at += word_at(frames.bytes + at + 2))
        frames.count++;
    return frames;
}

static int connect_to_socket(void)
{
    struct sockaddr_un address = address_of(socket_path);
    int link = socket(AF_UNIX, SOCK_STREAM | SOCK_CLOEXEC, 0);
    if (link < 0 || connect(link, (struct sockaddr *)&address, sizeof address) < 0)
        fail("connect");
    return link;
}

/* Waits until at least so many bytes are there. */
static void wait_for(struct asker *asker, size_t wanted)
{
    while (asker->there < wanted) {
        ssize_t came = recv(asker->link, asker->bytes + asker->there, MOST_BYTES - asker->there, 0);
        if (came <= 0)
            fail("recv");
        asker->there += (size_t)came;
    }
}

/* Takes the next reply, which has to be a success. */
static void take_reply(struct asker *asker)
{
    wait_for(asker, 10);
    uint32_t size = word_at(asker->bytes + 2);
    errno = 0;
    if (size < 10 || size > MOST_BYTES)
        fail("a reply's size");
    if (word_at(asker->bytes + 6) != 0)
        fail("a reply");
    wait_for(asker, size);
    asker->there -= size;
    memmove(asker->bytes, asker->bytes + size, asker->there);
}

static double now(void)
{
    struct timespec time;
    clock_gettime(CLOCK_MONOTONIC, &time);
    return (double)time.tv_sec + (double)time.tv_nsec / 1e9;
}

/* Sends the commands, so many at once, and takes their replies. It notes how long each batch took, where
 * that is wanted, and returns where the next note goes. */
static double *ask_all(struct asker *asker, struct frames frames, size_t at_once, double *took)
{
    for (size_t at = 0; at < frames.size;) {
        size_t from = at, count = 0;
        for (; count < at_once && at < frames.size; count++)
            at += word_at(frames.bytes + at + 2);
        double sent = now();
        write_whole(asker->link, frames.bytes + from, at - from);
        for (; count > 0; count--)
            take_reply(asker);
        if (took)
            *took++ = now() - sent;
    }
    return took;
}

static void *ask_rounds(void *of)
{
    struct asker *asker = of;
    double *took = asker->took;
    asker->link = connect_to_socket();
    ask_all(asker, first, 1, NULL);
    pthread_barrier_wait(&ready);
    asker->begun = now();
    for (size_t round = 0; round < rounds; round++)
        took = ask_all(asker, again, batch, took);
    asker->ended = now();
    return NULL;
}

/* Asks on a connection of its own. */
static void pass_once(struct asker *asker)
{
    asker->link = connect_to_socket();
    ask_all(asker, again, 1, NULL);
    close(asker->link);
}

static void *pass_rounds(void *of)
{
    struct asker *asker = of;
    pass_once(asker);
    pthread_barrier_wait(&ready);
    asker->begun = now();
    for (size_t round = 0; round < rounds; round++) {
        double opened = now();
        pass_once(asker);
        asker->took[round] = now() - opened;
    }
    asker->ended = now();
    return NULL;
}

static int by_length(const void *left, const void *right)
{
    double a = *(const double *)left, b = *(const double *)right;
    return (a > b) - (a < b);
}

/* The seconds of all, and three of the microseconds of each batch. */
static void tell(double seconds, double *took, size_t count)
{
    qsort(took, count, sizeof *took, by_length);
    printf("%.6f", seconds);
    for (size_t part = 0; part < 3; part++) {
        size_t places[] = {count / 2, count - 1 - count / 100, count - 1};
        printf(" %.2f", count ? took[places[part]] * 1e6 : 0);
    }
    putchar('\n');
}

/* Lets so many clients work at once, each of which notes how long so many things took. */
static void measure(size_t clients, size_t notes, void *(*work)(void *))
{
    struct asker *askers = calloc(clients, sizeof *askers);
    double *took = calloc(clients * notes + 1, sizeof *took);
    /* so that no page of it comes while it is measured */
    for (size_t at = 0; at < clients * notes; at++)
        took[at] = -1;
    if (pthread_barrier_init(&ready, NULL, (unsigned)clients))
        fail("a barrier");
    for (size_t at = 0; at < clients; at++) {
        askers[at].took = took + at * notes;
        if (pthread_create(&askers[at].thread, NULL, work, &askers[at]))
            fail("a thread");
    }
    double begun = 0, ended = 0;
    for (size_t at = 0; at < clients; at++) {
        pthread_join(askers[at].thread, NULL);
        if (at == 0 || askers[at].begun < begun)
            begun = askers[at].begun;
        if (askers[at].ended > ended)
            ended = askers[at].ended;
    }
    tell(rounds ? ended - begun : 0, took, clients * notes);
}

static void hold(size_t connections)
{
    struct asker *askers = calloc(connections, sizeof *askers);
    for (size_t at = 0; at < connections; at++)
        askers[at].link = connect_to_socket();
    for (size_t at = 0; at < connections; at++)
        ask_all(&askers[at], again, 1, NULL);
    puts("held");
    fflush(stdout);
    while (getchar() != EOF)
        ;
}

/* ---- servers */

/* The requests of a connection that wait. */
struct line {
    pthread_mutex_t lock;
    pthread_cond_t came, went;
    unsigned char requests[LINE_ROOM][REQUEST_BYTES];
    size_t from, count;
    int is_ended;
};

struct served {
    int link;
    struct line line;
};

static pthread_mutex_t device = PTHREAD_MUTEX_INITIALIZER;

static void respond(unsigned char *response, const unsigned char *request)
{
    static const unsigned char success[RESPONSE_BYTES] = {0x80, 0x01, 0, 0, 0, RESPONSE_BYTES};
    memcpy(response, success, RESPONSE_BYTES);
    memcpy(response + RESPONSE_BYTES - 2, request + REQUEST_BYTES - 2, 2);
}

/* Reads to the end, and hands each whole request on. */
static void read_requests(struct served *served, void (*take)(struct served *, const unsigned char *))
{
    unsigned char bytes[MOST_BYTES];
    size_t there = 0;
    for (;;) {
        ssize_t came = recv(served->link, bytes + there, sizeof bytes - there, 0);
        if (came <= 0)
            return;
        there += (size_t)came;
        size_t at = 0;
        for (; there - at >= REQUEST_BYTES; at += REQUEST_BYTES)
            take(served, bytes + at);
        there -= at;
        memmove(bytes, bytes + at, there);
    }
}

static void answer_at_once(struct served *served, const unsigned char *request)
{
    unsigned char response[RESPONSE_BYTES];
    respond(response, request);
    write_whole(served->link, response, sizeof response);
}

static void put_in_line(struct served *served, const unsigned char *request)
{
    struct line *line = &served->line;
    pthread_mutex_lock(&line->lock);
    while (line->count == LINE_ROOM)
        pthread_cond_wait(&line->went, &line->lock);
    memcpy(line->requests[(line->from + line->count++) % LINE_ROOM], request, REQUEST_BYTES);
    pthread_cond_signal(&line->came);
    pthread_mutex_unlock(&line->lock);
}

/* Takes the next request of a line; 0 where none comes any more. */
static int take_from_line(struct line *line, unsigned char *request)
{
    pthread_mutex_lock(&line->lock);
    while (line->count == 0 && !line->is_ended)
        pthread_cond_wait(&line->came, &line->lock);
    int is_there = line->count > 0;
    if (is_there) {
        memcpy(request, line->requests[line->from], REQUEST_BYTES);
        line->from = (line->from + 1) % LINE_ROOM;
        line->count--;
        pthread_cond_signal(&line->went);
    }
    pthread_mutex_unlock(&line->lock);
    return is_there;
}

static void *work(void *of)
{
    struct served *served = of;
    unsigned char request[REQUEST_BYTES], response[RESPONSE_BYTES];
    while (take_from_line(&served->line, request)) {
        pthread_mutex_lock(&device);
        respond(response, request);
        pthread_mutex_unlock(&device);
        write_whole(served->link, response, sizeof response);
    }
    return NULL;
}

static void *serve_by_one(void *of)
{
    struct served *served = of;
    read_requests(served, answer_at_once);
    close(served->link);
    return NULL;
}

static void *serve_by_two(void *of)
{
    struct served *served = of;
    struct line *line = &served->line;
    pthread_t worker;
    pthread_mutex_init(&line->lock, NULL);
    pthread_cond_init(&line->came, NULL);
    pthread_cond_init(&line->went, NULL);
    if (pthread_create(&worker, NULL, work, served))
        fail("a thread");
    read_requests(served, put_in_line);
    pthread_mutex_lock(&line->lock);
    line->is_ended = 1;
    pthread_cond_signal(&line->came);
    pthread_mutex_unlock(&line->lock);
    pthread_join(worker, NULL);
    close(served->link);
    return NULL;
}

static int listen_at_socket(void)
{
    struct sockaddr_un address = address_of(socket_path);
    int listener = socket(AF_UNIX, SOCK_STREAM | SOCK_CLOEXEC, 0);
    if (listener < 0 || bind(listener, (struct sockaddr *)&address, sizeof address) < 0
        || listen(listener, 256) < 0)
        fail("listen");
    puts("listening");
    fflush(stdout);
    return listener;
}

static int accept_from(int listener)
{
    int link = accept(listener, NULL, NULL);
    if (link < 0)
        fail("accept");
    return link;
}

static void serve(size_t connections, void *(*serve_one)(void *))
{
    pthread_t *threads = calloc(connections, sizeof *threads);
    struct served *served = calloc(connections, sizeof *served);
    int listener = listen_at_socket();
    for (size_t at = 0; at < connections; at++) {
        served[at].link = accept_from(listener);
        if (pthread_create(&threads[at], NULL, serve_one, &served[at]))
            fail("a thread");
    }
    for (size_t at = 0; at < connections; at++)
        pthread_join(threads[at], NULL);
    unlink(socket_path);
}

struct pool {
    int listener;
    /* how many connections no thread waits for or has had yet */
    long left;
};

static void *serve_many(void *of)
{
    struct pool *pool = of;
    while (__atomic_fetch_sub(&pool->left, 1, __ATOMIC_RELAXED) > 0) {
        struct served served = {.link = accept_from(pool->listener)};
        serve_by_one(&served);
    }
    return NULL;
}

static void serve_by_pool(size_t connections)
{
    pthread_t threads[POOL_THREADS];
    struct pool pool = {listen_at_socket(), (long)connections};
    for (size_t at = 0; at < POOL_THREADS; at++)
        if (pthread_create(&threads[at], NULL, serve_many, &pool))
            fail("a thread");
    for (size_t at = 0; at < POOL_THREADS; at++)
        pthread_join(threads[at], NULL);
    unlink(socket_path);
}

static size_t number_of(const char *word)
{
    return strtoul(word, NULL, 10);
}

int main(int count, char **words)
{
    const char *mode = count > 3 ? words[1] : "";
    size_t connections = count > 3 ? number_of(words[3]) : 0;
    socket_path = count > 3 ? words[2] : "";
    if (count == 8 && !strcmp(mode, "ask") && number_of(words[5]) > 0) {
        rounds = number_of(words[4]);
        batch = number_of(words[5]);
        first = frames_of(words[6]);
        again = frames_of(words[7]);
        measure(connections, rounds * ((again.count + batch - 1) / batch), ask_rounds);
    } else if (count == 6 && !strcmp(mode, "pass")) {
        rounds = number_of(words[4]);
        again = frames_of(words[5]);
        measure(connections, rounds, pass_rounds);
    } else if (count == 5 && !strcmp(mode, "hold")) {
        again = frames_of(words[4]);
        hold(connections);
    } else if (count == 4 && !strcmp(mode, "echo")) {
        serve(connections, serve_by_one);
    } else if (count == 4 && !strcmp(mode, "line")) {
        serve(connections, serve_by_two);
    } else if (count == 4 && !strcmp(mode, "pool")) {
        serve_by_pool(connections);
    } else {
        fputs("usage: link_client ask PATH CONNECTIONS ROUNDS BATCH FIRST AGAIN\n"
              "       link_client pass PATH CLIENTS ROUNDS AGAIN\n"
              "       link_client hold PATH CONNECTIONS AGAIN\n"
              "       link_client echo PATH CONNECTIONS\n"
              "       link_client line PATH CONNECTIONS\n"
              "       link_client pool PATH CONNECTIONS\n", stderr);
        return 2;
    }
    return 0;
}

// Load for a TURN server, over sockets that the script `run` has opened and that have allocations and channels.
//
// words: flood to-peer SECONDS PID CPU CPU     datagrams as fast as they go, in one direction
//        flood to-client SECONDS PID CPU CPU
//        flood .. CPU CPU WINDOW RATE          at most WINDOW of them in flight, and RATE a second (0: no such bound)
//        spray SECONDS CPU                     datagrams from the peer to the relayed ports, which nobody counts
//        spray SECONDS CPU RATE BURST          RATE of them a second, BURST to a port before the next one
//        ping RATE SECONDS CPU CPU             round trips over the first client's channel and an echo at the peer
//        ask COUNT                             requests, COUNT of them in flight
//        repeat RATE SECONDS CPU               requests in turn, RATE a second (0: as fast as they go); no answer is waited for
//
// PID is the server, the two CPUs are those on which datagrams are sent and received (-1: those of the process). Standard input
// has lines `peer FD`, `client FD CHANNEL PORT` (a socket connected to the server, its channel to the peer, its relayed port on
// 127.0.0.1) and, for `ask` and `repeat`, `request FD HEX`. The load begins when it is closed.
#define _GNU_SOURCE
#include <arpa/inet.h>
#include <errno.h>
#include <pthread.h>
#include <sched.h>
#include <stdatomic.h>
#include <stdio.h>
#include <stdlib.h>
#include <string.h>
#include <sys/epoll.h>
#include <sys/socket.h>
#include <time.h>
#include <unistd.h>

enum { PAYLOAD = 160, MOST = 1024, BATCH = 32, ROOM = 2048 };

struct client {
    int socket, channel, port;
};

struct request {
    int socket, size;
    unsigned char bytes[512];
    long sent, answered;
};

static struct client clients[MOST];
static struct request requests[MOST];
static int client_count, request_count, peer;
static atomic_long sent_count, received_count;
static atomic_int is_sent, is_over; // nothing more is sent; nothing more is received
static long window, rate, begun;    // of a flood with bounds
static int burst = 1;               // how many datagrams the peer sends to a port before the next one
static int mark;                    // the payload's first bytes in a flood, by which those of an earlier one aren't counted

static void fail(const char *what) {
    fprintf(stderr, "load: %s: %s\n", what, strerror(errno));
    exit(1);
}

static long nanos(void) {
    struct timespec now;
    clock_gettime(CLOCK_MONOTONIC, &now);
    return now.tv_sec * 1000000000L + now.tv_nsec;
}

static void run_on(int cpu) {
    if (cpu < 0) return;
    cpu_set_t set;
    CPU_ZERO(&set);
    CPU_SET(cpu, &set);
    if (pthread_setaffinity_np(pthread_self(), sizeof set, &set)) fail("a CPU to run on");
}

static void read_setup(void) {
    static char line[2048], hex[1200];
    while (fgets(line, sizeof line, stdin)) {
        int socket, channel, port;
        if (sscanf(line, "peer %d", &socket) == 1) {
            peer = socket;
        } else if (client_count < MOST && sscanf(line, "client %d %d %d", &socket, &channel, &port) == 3) {
            clients[client_count++] = (struct client){socket, channel, port};
        } else if (request_count < MOST && sscanf(line, "request %d %1100s", &socket, hex) == 2) {
            struct request *one = &requests[request_count++];
            one->socket = socket;
            for (const char *at = hex; at[0] && at[1] && one->size < 512; at += 2) {
                unsigned value;
                sscanf(at, "%2x", &value);
                one->bytes[one->size++] = value;
            }
        } else {
            fprintf(stderr, "load: a line that isn't known: %s", line);
            exit(1);
        }
    }
}

struct times {
    double user, system;
};

// The processor seconds of the server so far, of all its threads.
static struct times server_times(const char *pid) {
    char path[64], text[1024];
    snprintf(path, sizeof path, "/proc/%s/stat", pid);
    FILE *file = fopen(path, "r");
    if (!file) fail("the server's /proc/PID/stat");
    size_t size = fread(text, 1, sizeof text - 1, file);
    fclose(file);
    text[size] = 0;
    const char *rest = strrchr(text, ')');
    unsigned long user = 0, system = 0;
    if (!rest || sscanf(rest + 2, "%*c %*d %*d %*d %*d %*d %*u %*u %*u %*u %*u %lu %lu", &user, &system) != 2) fail("its times");
    double second = sysconf(_SC_CLK_TCK);
    return (struct times){user / second, system / second};
}

// Waits until the bounds of the flood let so many datagrams more go out. What is in flight when none has come for 200 ms is lost.
static void wait_for_room(int count) {
    static long lost, last, moment;
    while ((window || rate) && !is_sent) {
        long now = nanos(), in_flight = sent_count - received_count - lost;
        if (last != received_count || !moment) {
            last = received_count;
            moment = now;
        } else if (now - moment > 200000000) {
            lost += in_flight;
            moment = now;
        }
        if ((!window || in_flight + count <= window) && (!rate || sent_count + count <= (now - begun) / 1e9 * rate)) return;
        usleep(20);
    }
}

// Sends ChannelData on one client's socket after the other; many at once if there is one alone.
static void *send_from_clients(void *cpu) {
    run_on(*(int *)cpu);
    unsigned char bytes[4 + PAYLOAD] = {0};
    bytes[3] = PAYLOAD;
    memcpy(bytes + 4, &mark, sizeof mark);
    struct iovec part = {bytes, sizeof bytes};
    struct mmsghdr batch[BATCH] = {0};
    for (int i = 0; i < BATCH; i++) batch[i].msg_hdr = (struct msghdr){.msg_iov = &part, .msg_iovlen = 1};
    int size = client_count == 1 ? BATCH : 1;
    for (int at = 0; !is_sent; at = (at + 1) % client_count) {
        wait_for_room(size);
        bytes[0] = clients[at].channel >> 8;
        bytes[1] = clients[at].channel;
        int sent = sendmmsg(clients[at].socket, batch, size, 0);
        if (sent > 0) sent_count += sent;
    }
    return NULL;
}

// Sends from the peer to one relayed port after the other.
static void *send_from_peer(void *cpu) {
    run_on(*(int *)cpu);
    static unsigned char bytes[PAYLOAD];
    memcpy(bytes, &mark, sizeof mark);
    struct iovec part = {bytes, sizeof bytes};
    struct mmsghdr batch[BATCH] = {0};
    struct sockaddr_in to[BATCH];
    for (int at = 0; !is_sent;) {
        wait_for_room(BATCH);
        for (int i = 0; i < BATCH; i++, at = (at + 1) % (client_count * burst)) {
            to[i] = (struct sockaddr_in){.sin_family = AF_INET, .sin_port = htons(clients[at / burst].port)};
            to[i].sin_addr.s_addr = htonl(INADDR_LOOPBACK);
            batch[i].msg_hdr = (struct msghdr){.msg_name = &to[i], .msg_namelen = sizeof to[i], .msg_iov = &part, .msg_iovlen = 1};
        }
        int sent = sendmmsg(peer, batch, BATCH, 0);
        if (sent > 0) sent_count += sent;
    }
    return NULL;
}

// Takes what is there, and counts the relayed datagrams of this flood: they have that size, and its mark.
static void take(int socket, unsigned size) {
    static unsigned char bytes[BATCH][ROOM];
    struct iovec parts[BATCH];
    struct mmsghdr batch[BATCH] = {0};
    for (int i = 0; i < BATCH; i++) {
        parts[i] = (struct iovec){bytes[i], ROOM};
        batch[i].msg_hdr = (struct msghdr){.msg_iov = &parts[i], .msg_iovlen = 1};
    }
    int got = recvmmsg(socket, batch, BATCH, MSG_DONTWAIT, NULL);
    for (int i = 0; i < got; i++) {
        received_count += batch[i].msg_len == size && !memcmp(bytes[i] + size - PAYLOAD, &mark, sizeof mark);
    }
}

struct receiver {
    int cpu, is_peer;
};

static void *receive(void *word) {
    struct receiver *of = word;
    run_on(of->cpu);
    int waiting = epoll_create1(0);
    for (int i = 0; i < (of->is_peer ? 1 : client_count); i++) {
        int socket = of->is_peer ? peer : clients[i].socket;
        struct epoll_event event = {.events = EPOLLIN, .data.fd = socket};
        if (epoll_ctl(waiting, EPOLL_CTL_ADD, socket, &event)) fail("epoll");
    }
    struct epoll_event events[64];
    while (!is_over) {
        int count = epoll_wait(waiting, events, 64, 50);
        for (int i = 0; i < count; i++) take(events[i].data.fd, of->is_peer ? PAYLOAD : PAYLOAD + 4);
    }
    return NULL;
}

// Waits until nothing has come for 600 ms, at most 6 seconds.
static void drain(void) {
    long last = -1;
    for (int i = 0; i < 10 && last != received_count; i++) {
        last = received_count;
        usleep(600000);
    }
}

// Prints: datagrams sent, datagrams received, user and system seconds of the server, seconds; and in a flood with bounds, of which
// it waits for the last datagram, all that were sent and received.
static void flood(int to_peer, double seconds, const char *pid, int send_cpu, int receive_cpu) {
    struct receiver receiver = {receive_cpu, to_peer};
    pthread_t receiving, sending;
    begun = nanos();
    mark = getpid();
    pthread_create(&receiving, NULL, receive, &receiver);
    pthread_create(&sending, NULL, to_peer ? send_from_clients : send_from_peer, &send_cpu);
    usleep(500000);
    long start = nanos(), sent = sent_count, received = received_count;
    struct times before = server_times(pid);
    usleep((useconds_t)(seconds * 1e6));
    sent = sent_count - sent;
    received = received_count - received;
    struct times after = server_times(pid);
    double passed = (nanos() - start) / 1e9;
    printf("%ld %ld %.2f %.2f %.3f", sent, received, after.user - before.user, after.system - before.system, passed);
    is_sent = 1;
    pthread_join(sending, NULL);
    if (window || rate) drain();
    is_over = 1;
    pthread_join(receiving, NULL);
    if (window || rate) printf(" %ld %ld", sent_count, received_count);
    puts("");
}

static void spray(double seconds, int cpu) {
    pthread_t sending;
    begun = nanos();
    pthread_create(&sending, NULL, send_from_peer, &cpu);
    usleep((useconds_t)(seconds * 1e6));
    is_sent = 1;
    pthread_join(sending, NULL);
}

static void *echo(void *cpu) {
    run_on(*(int *)cpu);
    struct timeval wait = {.tv_usec = 100000};
    setsockopt(peer, SOL_SOCKET, SO_RCVTIMEO, &wait, sizeof wait);
    while (!is_over) {
        unsigned char bytes[ROOM];
        struct sockaddr_in from;
        socklen_t size = sizeof from;
        ssize_t got = recvfrom(peer, bytes, sizeof bytes, 0, (struct sockaddr *)&from, &size);
        if (got > 0) sendto(peer, bytes, got, 0, (struct sockaddr *)&from, size);
    }
    return NULL;
}

static int by_size(const void *left, const void *right) {
    long a = *(const long *)left, b = *(const long *)right;
    return (a > b) - (a < b);
}

struct pings {
    double rate;
    int count, cpu;
    long *sent;
};

// Sends each ping at its time, whether or not the ones before came back.
static void *send_pings(void *word) {
    struct pings *pings = word;
    run_on(pings->cpu);
    long next = nanos();
    for (int i = 0; i < pings->count; i++) {
        unsigned char bytes[4 + PAYLOAD] = {clients[0].channel >> 8, clients[0].channel, 0, PAYLOAD};
        memcpy(bytes + 4, &i, sizeof i);
        next += (long)(1e9 / pings->rate);
        struct timespec until = {next / 1000000000L, next % 1000000000L};
        clock_nanosleep(CLOCK_MONOTONIC, TIMER_ABSTIME, &until, NULL);
        pings->sent[i] = nanos();
        send(clients[0].socket, bytes, sizeof bytes, 0);
    }
    is_sent = 1;
    return NULL;
}

// Prints: round trips, lost ones, p50, p90, p99, p99.9 and the longest in nanoseconds. One is lost if it isn't back a second after the last was sent.
static void ping(double rate, double seconds, int send_cpu, int echo_cpu) {
    pthread_t echoing, sending;
    int count = (int)(rate * seconds), done = 0, socket = clients[0].socket;
    struct pings pings = {rate, count, send_cpu, calloc(count, sizeof(long))};
    long *times = calloc(count, sizeof *times);
    struct timeval wait = {.tv_usec = 100000};
    if (!times || !pings.sent || setsockopt(socket, SOL_SOCKET, SO_RCVTIMEO, &wait, sizeof wait)) fail("a ping");
    pthread_create(&echoing, NULL, echo, &echo_cpu);
    pthread_create(&sending, NULL, send_pings, &pings);
    run_on(send_cpu);
    unsigned char bytes[ROOM];
    for (long last = 0; done < count && (!last || nanos() - last < 1000000000);) {
        last = atomic_load(&is_sent) ? last ? last : nanos() : 0;
        if (recv(socket, bytes, sizeof bytes, 0) < 4 + PAYLOAD) continue;
        int i;
        memcpy(&i, bytes + 4, sizeof i);
        if (i >= 0 && i < count && pings.sent[i]) times[done++] = nanos() - pings.sent[i];
    }
    pthread_join(sending, NULL);
    is_over = 1;
    pthread_join(echoing, NULL);
    qsort(times, done, sizeof *times, by_size);
    printf("%d %d", done, count - done);
    static const long parts[] = {500, 900, 990, 999};
    for (int i = 0; i < 4; i++) printf(" %ld", done ? times[done * parts[i] / 1000] : 0);
    printf(" %ld\n", done ? times[done - 1] : 0);
}

static void send_request(struct request *one) {
    one->sent = nanos();
    if (send(one->socket, one->bytes, one->size, 0) != one->size) fail("a request");
}

// Prints: successes, other answers, nanoseconds, median nanoseconds of an answer.
static void ask(int in_flight) {
    int waiting = epoll_create1(0), next = 0, successes = 0, others = 0;
    for (int i = 0; i < request_count; i++) {
        struct epoll_event event = {.events = EPOLLIN, .data.u32 = i};
        if (epoll_ctl(waiting, EPOLL_CTL_ADD, requests[i].socket, &event)) fail("epoll");
    }
    long start = nanos();
    while (next < in_flight && next < request_count) send_request(&requests[next++]);
    while (successes + others < request_count) {
        struct epoll_event events[64];
        int count = epoll_wait(waiting, events, 64, 5000);
        if (count <= 0) {
            fprintf(stderr, "load: %d requests without an answer\n", request_count - successes - others);
            exit(1);
        }
        for (int i = 0; i < count; i++) {
            struct request *one = &requests[events[i].data.u32];
            unsigned char bytes[ROOM];
            ssize_t got = recv(one->socket, bytes, sizeof bytes, MSG_DONTWAIT);
            if (got < 20 || memcmp(bytes + 8, one->bytes + 8, 12) || one->answered) continue;
            one->answered = nanos() - one->sent;
            if (bytes[0] == 0x01 && bytes[1] == (one->bytes[1] & 0x0F)) successes++;
            else others++;
            if (next < request_count) send_request(&requests[next++]);
        }
    }
    long end = nanos(), times[MOST];
    for (int i = 0; i < request_count; i++) times[i] = requests[i].answered;
    qsort(times, request_count, sizeof *times, by_size);
    printf("%d %d %ld %ld\n", successes, others, end - start, request_count ? times[request_count / 2] : 0);
}

// Takes the answers to the requests, and counts them.
static void *receive_answers(void *none) {
    (void)none;
    int waiting = epoll_create1(0);
    for (int i = 0; i < request_count; i++) {
        struct epoll_event event = {.events = EPOLLIN, .data.fd = requests[i].socket};
        if (epoll_ctl(waiting, EPOLL_CTL_ADD, requests[i].socket, &event) && errno != EEXIST) fail("epoll");
    }
    struct epoll_event events[64];
    unsigned char bytes[ROOM];
    while (!is_over) {
        int count = epoll_wait(waiting, events, 64, 50);
        for (int i = 0; i < count; i++) {
            while (recv(events[i].data.fd, bytes, sizeof bytes, MSG_DONTWAIT) >= 0) received_count++;
        }
    }
    return NULL;
}

// Prints: requests sent, and answers.
static void repeat(double seconds, int cpu) {
    pthread_t receiving;
    pthread_create(&receiving, NULL, receive_answers, NULL);
    run_on(cpu);
    begun = nanos();
    for (int at = 0; nanos() - begun < seconds * 1e9; at = (at + 1) % request_count) {
        wait_for_room(1);
        struct request *one = &requests[at];
        if (send(one->socket, one->bytes, one->size, 0) == one->size) sent_count++;
    }
    is_over = 1;
    pthread_join(receiving, NULL);
    printf("%ld %ld\n", sent_count, received_count);
}

int main(int count, char **words) {
    read_setup();
    if ((count == 7 || count == 9) && !strcmp(words[1], "flood") && client_count) {
        if (count == 9) {
            window = atol(words[7]);
            rate = atol(words[8]);
        }
        flood(!strcmp(words[2], "to-peer"), atof(words[3]), words[4], atoi(words[5]), atoi(words[6]));
    } else if ((count == 4 || count == 6) && !strcmp(words[1], "spray") && client_count) {
        if (count == 6) {
            rate = atol(words[4]);
            burst = atoi(words[5]);
        }
        spray(atof(words[2]), atoi(words[3]));
    } else if (count == 6 && !strcmp(words[1], "ping") && client_count) {
        ping(atof(words[2]), atof(words[3]), atoi(words[4]), atoi(words[5]));
    } else if (count == 5 && !strcmp(words[1], "repeat") && request_count) {
        rate = atol(words[2]);
        repeat(atof(words[3]), atoi(words[4]));
    } else if (count == 3 && !strcmp(words[1], "ask")) {
        ask(atoi(words[2]));
    } else {
        fprintf(stderr, "load: see the head of load.c for its words\n");
        return 1;
    }
    return 0;
}

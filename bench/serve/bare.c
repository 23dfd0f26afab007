// What relaying costs at least: a server that makes the system calls of a relay and asks nothing. It takes any Allocate, the
// peer of any ChannelBind, and forwards between each client and its peer, with one channel number for all.
//
// words: PORT       on 127.0.0.1
#define _GNU_SOURCE
#include <arpa/inet.h>
#include <stdio.h>
#include <stdlib.h>
#include <string.h>
#include <sys/epoll.h>
#include <sys/socket.h>
#include <unistd.h>

enum { ALLOCATE = 3, CHANNEL_BIND = 9, PEER_ADDRESS = 0x0012, RELAYED_ADDRESS = 0x0016 };
enum { MOST = 1024, BURST = 16, ROOM = 2048, LISTENING = -1 };
static const unsigned char COOKIE[4] = {0x21, 0x12, 0xA4, 0x42};

struct call {
    int socket;
    struct sockaddr_in client, peer;
};

static struct call calls[MOST];
static struct call *call_of[65536]; // by the client's port: all clients have one address
static int call_count, waiting, listening;

static void fail(const char *what) {
    perror(what);
    exit(1);
}

static struct sockaddr_in local(int port) {
    return (struct sockaddr_in){.sin_family = AF_INET, .sin_port = htons(port), .sin_addr.s_addr = htonl(INADDR_LOOPBACK)};
}

// Opens a socket at a port, or at any where it is 0, and waits for it under a number.
static int open_at(int port, int number) {
    int one = socket(AF_INET, SOCK_DGRAM | SOCK_NONBLOCK, 0), size = 8 << 20;
    struct sockaddr_in at = local(port);
    struct epoll_event event = {.events = EPOLLIN, .data.u32 = number};
    if (one < 0 || bind(one, (struct sockaddr *)&at, sizeof at)) fail("a socket");
    setsockopt(one, SOL_SOCKET, SO_RCVBUF, &size, sizeof size);
    if (epoll_ctl(waiting, EPOLL_CTL_ADD, one, &event)) fail("epoll");
    return one;
}

// The address of an attribute's value, or the value of an address: exclusive or is its own inverse.
static void mask(unsigned char *port_and_ip) {
    for (int i = 0; i < 2; i++) port_and_ip[i] ^= COOKIE[i];
    for (int i = 0; i < 4; i++) port_and_ip[2 + i] ^= COOKIE[i];
}

static void take_peer(struct call *call, unsigned char *bytes, int size) {
    for (int at = 20, length; at + 12 <= size; at += 4 + (length + 3) / 4 * 4) {
        length = bytes[at + 2] << 8 | bytes[at + 3];
        if (bytes[at] || bytes[at + 1] != PEER_ADDRESS) continue;
        mask(bytes + at + 6);
        call->peer = local(0);
        memcpy(&call->peer.sin_port, bytes + at + 6, 2);
        memcpy(&call->peer.sin_addr, bytes + at + 8, 4);
    }
}

static void answer(unsigned char *bytes, int size, struct sockaddr_in from) {
    unsigned char response[32] = {1, bytes[1]};
    int length = 0;
    memcpy(response + 4, bytes + 4, 16);
    struct call *call = call_of[ntohs(from.sin_port)];
    if (bytes[1] == ALLOCATE && !call && call_count < MOST) {
        struct sockaddr_in at;
        socklen_t room = sizeof at;
        call = call_of[ntohs(from.sin_port)] = &calls[call_count];
        *call = (struct call){open_at(0, call_count++), from, local(9)};
        getsockname(call->socket, (struct sockaddr *)&at, &room);
        length = 12;
        memcpy(response + 20, (unsigned char[]){0, RELAYED_ADDRESS, 0, 8, 0, 1}, 6);
        memcpy(response + 26, &at.sin_port, 2);
        memcpy(response + 28, &at.sin_addr, 4);
        mask(response + 26);
    } else if (bytes[1] == CHANNEL_BIND && call) {
        take_peer(call, bytes, size);
    }
    response[3] = length;
    sendto(listening, response, 20 + length, 0, (struct sockaddr *)&from, sizeof from);
}

// One datagram of the listening socket; returns whether there was one.
static int from_client(void) {
    unsigned char bytes[ROOM];
    struct sockaddr_in from;
    socklen_t room = sizeof from;
    int size = recvfrom(listening, bytes, sizeof bytes, 0, (struct sockaddr *)&from, &room);
    if (size < 0) return 0;
    struct call *call = call_of[ntohs(from.sin_port)];
    if (size >= 20 && bytes[0] == 0) answer(bytes, size, from);
    else if (size >= 4 && (bytes[0] & 0xC0) == 0x40 && call)
        sendto(call->socket, bytes + 4, size - 4, 0, (struct sockaddr *)&call->peer, sizeof call->peer);
    return 1;
}

static int from_peer(struct call *call) {
    unsigned char bytes[4 + ROOM] = {0x40, 0};
    struct sockaddr_in from;
    socklen_t room = sizeof from;
    int size = recvfrom(call->socket, bytes + 4, ROOM, 0, (struct sockaddr *)&from, &room);
    if (size < 0) return 0;
    bytes[2] = size >> 8;
    bytes[3] = size;
    sendto(listening, bytes, 4 + size, 0, (struct sockaddr *)&call->client, sizeof call->client);
    return 1;
}

int main(int count, char **words) {
    if (count != 2 || (waiting = epoll_create1(0)) < 0) fail("bare PORT");
    listening = open_at(atoi(words[1]), LISTENING);
    for (;;) {
        struct epoll_event events[64];
        int ready = epoll_wait(waiting, events, 64, -1);
        for (int i = 0; i < ready; i++) {
            int number = (int)events[i].data.u32;
            for (int taken = 0; taken < BURST && (number == LISTENING ? from_client() : from_peer(&calls[number])); taken++) {}
        }
    }
}

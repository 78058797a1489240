/* locate [-v] SERVER[:PORT] TEXT..: where requests to these SIP URIs go, and the responses that these Vias name (RFC
 * 3263), asked of one DNS server. It prints a line for each target: the text, transport, address and port. With -v it
 * also tells each query. The status is 0 where each text has targets, 1 where one has none, 4 where nothing was asked.
 *
 * It is one thread in one loop around poll(2), as in a proxy. The library says what is to be sent, and when to come
 * again; the sockets and the clock are here. */
#define _GNU_SOURCE
#include <arpa/inet.h>
#include <errno.h>
#include <netdb.h>
#include <poll.h>
#include <stdio.h>
#include <stdlib.h>
#include <string.h>
#include <sys/random.h>
#include <sys/socket.h>
#include <time.h>
#include <unistd.h>
#include <wokhleas.h>

/* As many questions can be out over datagrams, and as many over streams. */
enum { REQUESTS = 64, QUESTIONS = 32, WIRES = 2 * QUESTIONS };

/* In milliseconds: what a request may take, and when a query that was not sent again is out no more. */
enum { PATIENCE = 10000, SILENCE = 3000 };

/* The socket of one query. Over UDP it has a port of its own: so who forges a reply has to guess it (RFC 5452 9.2). */
struct wire {
    int socket; /* -1: none */
    uint32_t query;
    uint8_t over;
    uint64_t heard_until;
    uint8_t out[2 + WOKHLEAS_QUERY_ROOM]; /* the length, which goes out over TCP alone, and the query */
    uint8_t in[2 + 65535];                /* no message is longer, and few are as long: a proxy has a pool for them */
    size_t length, sent, received;        /* of out, and of in */
};

struct locator {
    wokhleas_resolver resolver;
    struct addrinfo *server;
    struct wire wires[WIRES];
    char **texts;
    size_t count, begun, inside;
    bool verbose, all_found;
};

static void fail(const char *what, const char *why) {
    fprintf(stderr, "locate: %s: %s\n", what, why);
    exit(4);
}

static uint64_t now(void) {
    struct timespec time;
    clock_gettime(CLOCK_MONOTONIC, &time); /* a clock that can be set would end waits too early or too late */
    return (uint64_t)time.tv_sec * 1000 + (uint64_t)time.tv_nsec / 1000000;
}

static void close_wire(struct wire *wire) {
    if (wire->socket >= 0) close(wire->socket);
    wire->socket = -1;
}

/* A wire that failed. Where no server is there, requests need not wait until the query was sent three times: here it is
 * given up at once, and with more servers after the last of them. After any other fault, as a connection that was cut,
 * the library has the query sent again. */
static void drop_wire(struct locator *it, struct wire *wire, int error) {
    close_wire(wire);
    if (error == ECONNREFUSED || error == EHOSTUNREACH || error == ENETUNREACH)
        wokhleas_give_up(&it->resolver, wire->query);
}

static bool is_for_now(int error) { return error == EAGAIN || error == EINTR || error == EINPROGRESS; }

static void write_out(struct locator *it, struct wire *wire) {
    ssize_t count = send(wire->socket, wire->out + wire->sent, wire->length - wire->sent, MSG_NOSIGNAL);
    if (count >= 0) wire->sent += (size_t)count;
    else if (!is_for_now(errno)) drop_wire(it, wire, errno);
}

/* The wire of a query, a free one, or else the one that was silent the longest. */
static struct wire *wire_for(struct locator *it, uint32_t query) {
    struct wire *found = it->wires;
    for (struct wire *wire = it->wires; wire < it->wires + WIRES; wire++) {
        if (wire->socket >= 0 && wire->query == query) return wire;
        if (found->socket >= 0 && (wire->socket < 0 || wire->heard_until < found->heard_until)) found = wire;
    }
    close_wire(found);
    return found;
}

/* Opens a socket that is connected: so the system takes only what comes from the server (RFC 5452 9.1), and says where
 * nobody is there. */
static void open_wire(struct locator *it, struct wire *wire, const wokhleas_message *message) {
    int type = message->over == WOKHLEAS_STREAM ? SOCK_STREAM : SOCK_DGRAM;
    wire->query = message->query;
    wire->over = message->over;
    wire->received = 0;
    wire->socket = socket(it->server->ai_family, type | SOCK_NONBLOCK | SOCK_CLOEXEC, 0);
    if (wire->socket < 0) return; /* as with no descriptor left: the library has the query sent again */
    if (connect(wire->socket, it->server->ai_addr, it->server->ai_addrlen) != 0 && !is_for_now(errno))
        drop_wire(it, wire, errno);
}

static void send_query(struct locator *it, const uint8_t *octets, const wokhleas_message *message) {
    struct wire *wire = wire_for(it, message->query);
    wire->heard_until = now() + SILENCE;
    if (wire->socket >= 0 && wire->over == WOKHLEAS_STREAM) return; /* TCP itself sends it again */
    if (wire->socket < 0) open_wire(it, wire, message);
    wire->out[0] = (uint8_t)(message->length >> 8);
    wire->out[1] = (uint8_t)message->length;
    memcpy(wire->out + 2, octets, message->length);
    wire->length = 2 + message->length;
    wire->sent = message->over == WOKHLEAS_STREAM ? 0 : 2;
    if (wire->socket >= 0 && message->over == WOKHLEAS_DATAGRAM) write_out(it, wire);
}

static void send_all(struct locator *it) {
    uint8_t octets[WOKHLEAS_QUERY_ROOM];
    wokhleas_message message;
    while (wokhleas_transmit(&it->resolver, now(), octets, sizeof octets, &message) == WOKHLEAS_OK) {
        const char *over = message.over == WOKHLEAS_STREAM ? "TCP" : "UDP";
        if (it->verbose) fprintf(stderr, "query %u over %s, send %u\n", message.query & 0xffffu, over, message.send);
        send_query(it, octets, &message);
    }
}

/* Hands in a message. It has to have the id of this socket's query: else who knows one port could answer the queries of
 * all. What is no reply is passed over, since the right one may come yet; over TCP no other comes. */
static void take_message(struct locator *it, struct wire *wire, const uint8_t *octets, size_t length) {
    bool is_id = length >= 2 && (uint32_t)(octets[0] << 8 | octets[1]) == (wire->query & 0xffff);
    int status = is_id ? wokhleas_receive(&it->resolver, now(), wire->over, octets, length) : (int)WOKHLEAS_NOTHING;
    if (status == WOKHLEAS_OK || wire->over == WOKHLEAS_STREAM) close_wire(wire);
}

static void read_in(struct locator *it, struct wire *wire) {
    ssize_t count = recv(wire->socket, wire->in + wire->received, sizeof wire->in - wire->received, 0);
    if (count < 0 && is_for_now(errno)) return;
    if (count < 0 || (count == 0 && wire->over == WOKHLEAS_STREAM)) { /* an error, or the end of the connection */
        drop_wire(it, wire, count < 0 ? errno : 0);
    } else if (wire->over == WOKHLEAS_DATAGRAM) {
        take_message(it, wire, wire->in, (size_t)count);
    } else {
        wire->received += (size_t)count;
        size_t length = wire->received < 2 ? sizeof wire->in : (size_t)(wire->in[0] << 8 | wire->in[1]);
        if (wire->received >= 2 + length) take_message(it, wire, wire->in + 2, length);
    }
}

/* Waits for sockets, but not beyond what the library has to do next. */
static void wait_for_wires(struct locator *it) {
    struct pollfd ready[WIRES];
    uint64_t left = 0, time = now();
    for (size_t at = 0; at < WIRES; at++) {
        struct wire *wire = it->wires + at;
        if (wire->heard_until <= time) close_wire(wire);
        ready[at].fd = wire->socket; /* poll passes over -1 */
        ready[at].events = (short)(POLLIN | (wire->socket >= 0 && wire->sent < wire->length ? POLLOUT : 0));
    }
    wokhleas_timeout(&it->resolver, time, &left); /* at most PATIENCE, since each request has a time of its own */
    if (poll(ready, WIRES, (int)left) <= 0) return;
    for (size_t at = 0; at < WIRES; at++) {
        struct wire *wire = it->wires + at;
        if (wire->socket >= 0 && ready[at].revents & POLLOUT) write_out(it, wire);
        if (wire->socket >= 0 && ready[at].revents & (POLLIN | POLLERR | POLLHUP)) read_in(it, wire);
    }
}

/* Takes in as many texts as there is room for. The number of a request is its place among them. */
static void submit_texts(struct locator *it) {
    static const uint8_t transports[] = { WOKHLEAS_UDP, WOKHLEAS_TCP, WOKHLEAS_TLS };
    static const wokhleas_caps caps = { transports, 3, WOKHLEAS_V4_THEN_V6 };
    for (; it->begun < it->count; it->begun++) {
        const char *text = it->texts[it->begun];
        int status = wokhleas_submit(&it->resolver, it->begun, text, strlen(text), &caps, now() + PATIENCE);
        if (status == WOKHLEAS_EFULL) return;
        if (status != WOKHLEAS_OK) printf("%s %s\n", text, wokhleas_strerror(status));
        it->all_found = it->all_found && status == WOKHLEAS_OK;
        it->inside += status == WOKHLEAS_OK;
    }
}

/* A proxy tries the targets in their order, until one answers (wokhleas_failover_event). */
static void print_targets(struct locator *it, const char *text) {
    static const char *const names[] = { "", "udp", "tcp", "tls", "sctp" };
    char address[INET6_ADDRSTRLEN];
    wokhleas_target target;
    for (size_t at = 0; wokhleas_get_target(&it->resolver, at, &target) == WOKHLEAS_OK; at++) {
        inet_ntop(target.family == 4 ? AF_INET : AF_INET6, target.address, address, sizeof address);
        printf("%s %s %s %u\n", text, names[target.transport], address, target.port);
    }
}

static void print_outcome(struct locator *it, const wokhleas_outcome *outcome) {
    const char *text = it->texts[outcome->number];
    char name[1024];
    wokhleas_question question = { 0, 0 };
    print_targets(it, text);
    wokhleas_get_question(&it->resolver, name, sizeof name, &question); /* the length stays 0 where there is none */
    if (outcome->kind != WOKHLEAS_TARGETS) it->all_found = false;
    if (outcome->kind == WOKHLEAS_REFUSED) printf("%s refused: %s\n", text, wokhleas_strreason(outcome->detail));
    if (outcome->kind == WOKHLEAS_NO_ANSWER) printf("%s no answer: %.*s\n", text, (int)question.length, name);
    if (outcome->kind == WOKHLEAS_NO_SERVER) printf("%s no server: %.*s\n", text, (int)question.length, name);
    if (outcome->kind == WOKHLEAS_NO_MEMORY) printf("%s no memory\n", text);
    if (outcome->kind == WOKHLEAS_BAD_REPLY)
        printf("%s bad reply, RCODE %u: %.*s\n", text, (unsigned)outcome->detail, (int)question.length, name);
}

static void take_outcomes(struct locator *it) {
    wokhleas_outcome outcome;
    for (; wokhleas_next(&it->resolver, &outcome) == WOKHLEAS_OK; it->inside--) print_outcome(it, &outcome);
}

/* The server of a word: 192.0.2.53, 192.0.2.53:5353, [2001:db8::53] or [2001:db8::53]:5353. */
static struct addrinfo *server_of(char *word) {
    const struct addrinfo hints = { .ai_flags = AI_NUMERICHOST | AI_NUMERICSERV };
    struct addrinfo *server = NULL;
    char *host = *word == '[' ? word + 1 : word, *end = host + strcspn(host, *word == '[' ? "]" : ":");
    char *port = strchr(end, ':');
    int error;
    *end = 0;
    error = getaddrinfo(host, port != NULL ? port + 1 : "53", &hints, &server);
    if (error != 0) fail(word, gai_strerror(error));
    return server;
}

int main(int count, char **words) {
    static struct locator it = { .resolver = WOKHLEAS_RESOLVER_INIT, .all_found = true };
    const wokhleas_limits limits = { REQUESTS, QUESTIONS, true, 64 };
    uint8_t seed[32];
    int status, first = count > 1 && strcmp(words[1], "-v") == 0 ? 2 : 1;
    if (count < first + 2) fail("usage", "locate [-v] SERVER[:PORT] TEXT..");
    it.verbose = first == 2;
    it.server = server_of(words[first]);
    it.texts = words + first + 1;
    it.count = (size_t)(count - first - 1);
    for (size_t at = 0; at < WIRES; at++) it.wires[at].socket = -1;
    if (getrandom(seed, sizeof seed, 0) != (ssize_t)sizeof seed) fail("getrandom", strerror(errno));
    if ((status = wokhleas_open(&it.resolver, &limits, seed)) != WOKHLEAS_OK) fail("open", wokhleas_strerror(status));
    do {
        submit_texts(&it);
        send_all(&it);
        take_outcomes(&it);
        if (it.inside > 0) wait_for_wires(&it);
    } while (it.inside > 0 || it.begun < it.count);
    for (size_t at = 0; at < WIRES; at++) close_wire(it.wires + at);
    wokhleas_close(&it.resolver);
    freeaddrinfo(it.server);
    return it.all_found ? 0 : 1;
}

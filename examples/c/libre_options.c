/* libre_options SERVER[:PORT] URI: asks whether a SIP server is there, on the event loop and the SIP stack of libre.
 * The targets of the URI are located by one DNS server (RFC 3263 4), and OPTIONS goes to one after the other until one
 * answers (RFC 3263 4.3). It prints a line for each try. The status is 0 where a server answered, 1 where none did, 4
 * where nothing was asked.
 *
 * All happens in callbacks of libre: a reply of DNS, a timer or a response of SIP. Each hands over what came and then
 * takes what the library has. One request asks one question at a time, so one socket is enough here, and DNS goes over
 * UDP alone; locate.c has many requests, and TCP. */
#define _GNU_SOURCE
#include <inttypes.h>
#include <stdio.h>
#include <stdlib.h>
#include <string.h>
#include <strings.h>
#include <sys/random.h>
#include <time.h>
#include <re.h>
#include <wokhleas.h>

/* In milliseconds: what locating may take, and how long a target has for its final response. Its transaction would end
 * by itself after 32 seconds (RFC 3261 17.1.2.2); a caller with other targets to try need not wait so long. */
enum { LOCATING = 10000, PATIENCE = 4000 };

struct caller {
    wokhleas_resolver resolver;
    wokhleas_failover failover;
    const char *uri;
    struct sa server, local;
    struct udp_sock *wire; /* of the question that is out */
    uint32_t query;        /* its name */
    struct tmr due, patience;
    struct sip *sip;
    struct sip_request *request;
    char target[64]; /* that is tried, as a text */
    uint64_t call;   /* the Call-ID; the copies of a request for other targets differ by their branches alone */
    int status;
};

static void turn(void *arg);

static void fail(const char *what, const char *why) {
    fprintf(stderr, "libre_options: %s: %s\n", what, why);
    exit(4);
}

static void need(int error, const char *what) {
    if (error != 0) fail(what, strerror(error));
}

/* libre's own time may be that of a clock that can be set, which would end waits too early or too late. */
static uint64_t now(void) {
    struct timespec time;
    clock_gettime(CLOCK_MONOTONIC, &time);
    return (uint64_t)time.tv_sec * 1000 + (uint64_t)time.tv_nsec / 1000000;
}

static void end(struct caller *it, int status) {
    it->status = status;
    it->wire = mem_deref(it->wire);
    tmr_cancel(&it->due);
    tmr_cancel(&it->patience);
    re_cancel();
}

/* ---- DNS */

static void on_reply(const struct sa *source, struct mbuf *octets, void *arg) {
    struct caller *it = arg;
    (void)source; /* the socket is connected, so the system takes only what the server sends (RFC 5452 9.1) */
    wokhleas_receive(&it->resolver, now(), WOKHLEAS_DATAGRAM, mbuf_buf(octets), mbuf_get_left(octets));
    turn(it);
}

/* Nobody takes datagrams there: with more servers the query would go to the next one. */
static void on_wire_error(int error, void *arg) {
    struct caller *it = arg;
    fprintf(stderr, "libre_options: DNS: %s\n", strerror(error));
    wokhleas_give_up(&it->resolver, it->query);
    turn(it);
}

/* A question has a socket and so a port of its own, which who forges a reply has to guess (RFC 5452 9.2). */
static int open_wire(struct caller *it, uint32_t query) {
    struct sa any;
    int error;
    if (it->wire != NULL && it->query == query) return 0;
    it->wire = mem_deref(it->wire);
    it->query = query;
    sa_cpy(&any, &it->local);
    sa_set_port(&any, 0);
    if ((error = udp_listen(&it->wire, &any, on_reply, it)) != 0) return error;
    udp_error_handler_set(it->wire, on_wire_error);
    return udp_connect(it->wire, &it->server);
}

static void send_query(struct caller *it, const wokhleas_message *message, const uint8_t *octets) {
    struct mbuf *buffer = mbuf_alloc(message->length);
    int error = buffer == NULL ? ENOMEM : open_wire(it, message->query);
    if (error == 0) error = mbuf_write_mem(buffer, octets, message->length);
    if (error == 0) {
        mbuf_set_pos(buffer, 0);
        error = udp_send(it->wire, &it->server, buffer);
    }
    /* An error may pass: the library has the query sent again after a second, twice at most. */
    if (error != 0) fprintf(stderr, "libre_options: DNS: %s\n", strerror(error));
    mem_deref(buffer);
}

/* ---- SIP */

static bool try_target(struct caller *it);

/* What became of a try (RFC 3263 4.3): where it failed the next target is tried, until there is none. */
static void go_on(struct caller *it, bool failed) {
    int progress;
    tmr_cancel(&it->patience);
    while ((progress = wokhleas_failover_event(&it->failover, failed)) == WOKHLEAS_TRYING) {
        if (try_target(it)) return;
        failed = true;
    }
    end(it, progress == WOKHLEAS_ANSWERED ? 0 : 1);
}

/* Where a transport failed, or the time of a transaction ran out, libre tells an error in place of a message. */
static void on_response(int error, const struct sip_msg *message, void *arg) {
    struct caller *it = arg;
    if (error == 0 && message->scode < 200) return; /* a provisional response: the final one is to come */
    if (error != 0) printf("%s: %s\n", it->target, strerror(error));
    else printf("%s: %u %.*s\n", it->target, message->scode, (int)message->reason.l, message->reason.p);
    go_on(it, error != 0 || message->scode == 503);
}

static void on_silence(void *arg) {
    struct caller *it = arg;
    printf("%s: no response\n", it->target);
    it->request = mem_deref(it->request); /* its response, if one comes yet, is nobody's */
    go_on(it, true);
}

/* The target as the next hop of a request, which is how libre is told where to send it: it looks no name up then. The
 * hop points into the texts. */
static void make_hop(struct caller *it, const wokhleas_target *target, char *address, size_t size, struct uri *hop) {
    const char *transport = target->transport == WOKHLEAS_UDP ? "udp" : "tcp";
    inet_ntop(target->family == 4 ? AF_INET : AF_INET6, target->address, address, (socklen_t)size);
    memset(hop, 0, sizeof *hop);
    pl_set_str(&hop->scheme, "sip");
    pl_set_str(&hop->host, address);
    pl_set_str(&hop->params, target->transport == WOKHLEAS_UDP ? ";transport=udp" : ";transport=tcp");
    hop->af = target->family == 4 ? AF_INET : AF_INET6;
    hop->port = target->port;
    re_snprintf(it->target, sizeof it->target, "%s %s %u", transport, address, target->port);
}

/* Sends a copy of the request to the target that is to be tried, in a new transaction, and says whether it could. */
static bool try_target(struct caller *it) {
    char address[INET6_ADDRSTRLEN];
    wokhleas_target target;
    struct uri hop;
    int error;
    if (wokhleas_get_target(&it->resolver, it->failover.failures, &target) != WOKHLEAS_OK) return false;
    make_hop(it, &target, address, sizeof address, &hop);
    error = sip_requestf(&it->request, it->sip, true, "OPTIONS", it->uri, &hop, NULL, NULL, on_response, it,
                         "From: <sip:anonymous@anonymous.invalid>;tag=%08x\r\n"
                         "To: <%s>\r\n"
                         "Call-ID: %016llx\r\n"
                         "CSeq: 1 OPTIONS\r\n"
                         "Accept: application/sdp\r\n"
                         "Content-Length: 0\r\n"
                         "\r\n",
                         (uint32_t)it->call, it->uri, it->call);
    if (error == 0) tmr_start(&it->patience, PATIENCE, on_silence, it);
    else printf("%s: %s\n", it->target, strerror(error));
    return error == 0;
}

/* ---- the library */

/* What is read of an outcome, as its targets, stays until the next call of wokhleas_next: here to the end. */
static void take_outcome(struct caller *it, const wokhleas_outcome *outcome) {
    if (outcome->kind == WOKHLEAS_TARGETS) {
        it->failover = (wokhleas_failover)WOKHLEAS_FAILOVER_INIT(outcome->targets);
        if (!try_target(it)) go_on(it, true);
        return;
    }
    if (outcome->kind == WOKHLEAS_REFUSED) printf("%s: %s\n", it->uri, wokhleas_strreason(outcome->detail));
    else printf("%s: not located\n", it->uri);
    end(it, 1);
}

/* Sends all that is to be sent, and takes the outcome or says when to come again. */
static void turn(void *arg) {
    struct caller *it = arg;
    uint8_t octets[WOKHLEAS_QUERY_ROOM];
    wokhleas_message message;
    wokhleas_outcome outcome;
    uint64_t left;
    while (wokhleas_transmit(&it->resolver, now(), octets, sizeof octets, &message) == WOKHLEAS_OK)
        send_query(it, &message, octets);
    if (wokhleas_next(&it->resolver, &outcome) == WOKHLEAS_OK) {
        it->wire = mem_deref(it->wire);
        tmr_cancel(&it->due);
        take_outcome(it, &outcome);
    } else if (wokhleas_timeout(&it->resolver, now(), &left) == WOKHLEAS_OK) {
        tmr_start(&it->due, left, turn, it);
    }
}

/* What libre can do here; for TLS it would need certificates. Addresses are of one family, that of the server. */
static void submit(struct caller *it) {
    static const uint8_t transports[] = { WOKHLEAS_UDP, WOKHLEAS_TCP };
    const wokhleas_caps caps = { transports, 2, sa_af(&it->local) == AF_INET ? WOKHLEAS_V4 : WOKHLEAS_V6 };
    const wokhleas_limits limits = { 1, 2, false, 64 };
    uint8_t seed[32];
    int status;
    if (getrandom(seed, sizeof seed, 0) != (ssize_t)sizeof seed) fail("getrandom", strerror(errno));
    status = wokhleas_open(&it->resolver, &limits, seed);
    if (status == WOKHLEAS_OK)
        status = wokhleas_submit(&it->resolver, 1, it->uri, strlen(it->uri), &caps, now() + LOCATING);
    if (status != WOKHLEAS_OK) fail(it->uri, wokhleas_strerror(status));
}

/* The address that the way to the DNS server leaves from, which goes into the Via of requests. A host with several
 * networks would look at each target. */
static void find_local(struct caller *it) {
    struct udp_sock *probe = NULL; /* a socket that is connected has an address, though nothing was sent */
    struct sa any;
    sa_init(&any, sa_af(&it->server));
    need(udp_listen(&probe, &any, NULL, NULL), "socket");
    need(udp_connect(probe, &it->server), "way to the DNS server");
    need(udp_local_get(probe, &it->local), "local address");
    sa_set_port(&it->local, 0);
    mem_deref(probe);
}

/* The stack has no DNS client, since it is told addresses alone. */
static void open_stack(struct caller *it) {
    need(sip_alloc(&it->sip, NULL, 8, 8, 8, "libre_options", NULL, NULL), "SIP stack");
    need(sip_transp_add(it->sip, SIP_TRANSP_UDP, &it->local), "UDP");
    need(sip_transp_add(it->sip, SIP_TRANSP_TCP, &it->local), "TCP");
    it->call = rand_u64();
}

static void on_signal(int signal) {
    (void)signal;
    re_cancel();
}

/* The library also takes the value of a Via, to which no request goes. */
static bool is_uri(const char *text) {
    return strncasecmp(text, "sip:", 4) == 0 || strncasecmp(text, "sips:", 5) == 0;
}

int main(int count, char **words) {
    static struct caller it = { .resolver = WOKHLEAS_RESOLVER_INIT, .status = 4 };
    if (count != 3 || !is_uri(words[2])) fail("usage", "libre_options SERVER[:PORT] URI");
    it.uri = words[2];
    need(libre_init(), "libre");
    if (sa_decode(&it.server, words[1], strlen(words[1])) != 0) need(sa_set_str(&it.server, words[1], 53), words[1]);
    find_local(&it);
    open_stack(&it);
    submit(&it);
    tmr_start(&it.due, 0, turn, &it); /* inside the loop, which an outcome that is there at once has to end */
    need(re_main(on_signal), "loop");
    sip_close(it.sip, true);
    mem_deref(it.sip);
    wokhleas_close(&it.resolver);
    tmr_debug(); /* says which timers are left, and mem_debug what memory of libre */
    libre_close();
    mem_debug();
    return it.status;
}

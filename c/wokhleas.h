/* wokhleas: finds the servers of SIP requests (RFC 3263), inside a program that has an event loop of its own.
 *
 * The library does no input or output: it opens no socket, reads no clock, starts no thread, has no global state and
 * takes no callback. The caller hands it requests, octets that came in and times, and takes octets to send and
 * outcomes. It keeps the answers that it got while they live, and asks a question that many requests ask at once only
 * once. With so many groups as wokhleas_limits says, it has at most 96 answers for each when it goes on with those that
 * still live, where these are at most 64 for each, and else with none; requests that are inside end by those that it had.
 *
 * A loop over one resolver:
 *
 *     wokhleas_submit      for each request that is to be located
 *     wokhleas_transmit    until it gives WOKHLEAS_NOTHING; each message goes to a DNS server
 *     wokhleas_next        until it gives WOKHLEAS_NOTHING; each is the outcome of a request
 *     wokhleas_timeout     then wait so long for a reply, at most
 *     wokhleas_receive     for each reply that came
 *
 * Memory. The caller owns a wokhleas_resolver and every buffer. Nothing that a function is handed is kept after it
 * returns, and nothing that it gives has to be freed; a resolver that was opened is to be closed. What lies behind a
 * resolver is taken by malloc and realloc, and given back by free.
 *
 * Threads. One call at a time for each resolver, by any thread: where two threads have one, a lock is held around each
 * call. Different resolvers share nothing. No function may be called in a signal handler.
 *
 * Times are milliseconds of a clock that never goes back, as CLOCK_MONOTONIC; any start will do. Queries wait whole
 * seconds: a time at which something is due is rounded up, so nothing is sent again, given up or ended too early.
 *
 * Each function that returns an int, but wokhleas_failover_event, returns a wokhleas_status. NULL for a pointer gives
 * WOKHLEAS_EARGUMENT; but a buffer of length 0 may be NULL, and wokhleas_close takes NULL. A resolver that is closed
 * gives WOKHLEAS_ECLOSED. After any status but WOKHLEAS_OK, what the out parameters point to is as it was. */
#ifndef WOKHLEAS_H
#define WOKHLEAS_H

#include <stdbool.h>
#include <stddef.h>
#include <stdint.h>

#ifdef __cplusplus
extern "C" {
#endif

#define WOKHLEAS_VERSION "0.1.0"

/* The version of the library that is linked, as WOKHLEAS_VERSION is that of this header: a text that is never freed. */
const char *wokhleas_version(void);

typedef enum wokhleas_status {
    WOKHLEAS_OK = 0,
    WOKHLEAS_NOTHING = 1,   /* there is nothing of what was asked for */
    WOKHLEAS_EARGUMENT = 2, /* an argument is NULL or out of its range */
    WOKHLEAS_ECLOSED = 3,   /* the resolver is closed */
    WOKHLEAS_EOPEN = 4,     /* the resolver is open already */
    WOKHLEAS_ENOMEM = 5,    /* memory was refused */
    WOKHLEAS_ESYNTAX = 6,   /* the text is neither a URI nor a Via */
    WOKHLEAS_EFULL = 7,     /* as many requests are inside as can be */
    WOKHLEAS_ETAKEN = 8,    /* a request of this number is inside */
    WOKHLEAS_EROOM = 9      /* the buffer is too small */
} wokhleas_status;

/* What a status says, as a text that is never freed; of a number that is no status, "unknown status". */
const char *wokhleas_strerror(int status);

/* ---- a resolver */

/* A resolver, which the caller owns. One that is all zeros is closed. Don't look inside, don't copy one that is open,
 * and hand in none but those that are all zeros or that wokhleas_open opened: nothing can test that. */
typedef struct wokhleas_resolver {
    void *held;
    bool open;
} wokhleas_resolver;

#define WOKHLEAS_RESOLVER_INIT { NULL, false }

typedef struct wokhleas_limits {
    size_t requests;  /* the most requests that are inside, from 1 to 65,536 */
    size_t questions; /* the most questions that are out over datagrams, and over streams, from 2 to 8,192 */
    bool streams;     /* whether the caller asks over TCP where a reply was cut; else requests that need it end */
    size_t groups;    /* of how many groups the cache is, a power of two from 64 to 65,536: room for 64 answers that live
                       * in each, so for 4,096 to 4,194,304 */
} wokhleas_limits;

/* Half of the questions are kept for the time when the cache has begun anew, and requests with both are inside. */
#define WOKHLEAS_LIMITS_INIT { 1024, 512, true, 64 }

/* Opens a closed resolver. The 32 octets of the seed come from the system's source of random octets, as getrandom(2):
 * the ids of queries and the order of SRV records of one priority come of them (RFC 5452 9.2, RFC 2782).
 * EOPEN: it is open, and goes on as it was. EARGUMENT: a limit is out of its range. ENOMEM: it stays closed. */
int wokhleas_open(wokhleas_resolver *resolver, const wokhleas_limits *limits, const uint8_t seed[32]);

/* Closes a resolver, and lets go of all that is inside. NULL, or a closed one: does nothing. */
void wokhleas_close(wokhleas_resolver *resolver);

/* ---- requests */

typedef enum wokhleas_transport {
    WOKHLEAS_UDP = 1,
    WOKHLEAS_TCP = 2,
    WOKHLEAS_TLS = 3,
    WOKHLEAS_SCTP = 4
} wokhleas_transport;

typedef enum wokhleas_families {
    WOKHLEAS_V4 = 1,
    WOKHLEAS_V6 = 2,
    WOKHLEAS_V4_THEN_V6 = 3,
    WOKHLEAS_V6_THEN_V4 = 4
} wokhleas_families;

/* What the caller can do. */
typedef struct wokhleas_caps {
    const uint8_t *transports; /* numbers of wokhleas_transport, each once, most wanted first */
    size_t count;              /* from 1 to 4 */
    uint8_t families;          /* a number of wokhleas_families */
} wokhleas_caps;

/* For `until`: the request has no time of its own, and ends when its questions do. */
#define WOKHLEAS_NEVER UINT64_MAX

/* Takes a request in: the text of a SIP or SIPS URI, or the value of a Via header field (where a response goes that
 * could not be sent back over its connection, RFC 3263 5). The text needs no 0 behind it. The request is inside until
 * wokhleas_next tells its outcome or wokhleas_cancel withdraws it. Its outcome will have the number, which no other
 * request inside may have (say, the index of a transaction). A wokhleas_transmit at `until` or later, rounded up to a
 * second, ends it: by the answers that it has, or with WOKHLEAS_NO_ANSWER.
 * Else the request is not inside, and all is as it was; the first of these that is so is told: EARGUMENT, of the caps,
 * or a time of 2^48 seconds or more; ESYNTAX, ECLOSED, EFULL, ETAKEN, ENOMEM. */
int wokhleas_submit(wokhleas_resolver *resolver, uint64_t number, const char *text, size_t length,
                    const wokhleas_caps *caps, uint64_t until);

/* Withdraws the request of a number: no outcome of it comes. Its question goes on while another request waits for it.
 * NOTHING: none of this number is inside. */
int wokhleas_cancel(wokhleas_resolver *resolver, uint64_t number);

/* ---- messages */

typedef enum wokhleas_over {
    WOKHLEAS_DATAGRAM = 1,
    WOKHLEAS_STREAM = 2 /* two octets with the length go in front: the caller writes and takes them away (RFC 7766 8) */
} wokhleas_over;

/* So many octets a buffer for a query has at least. */
#define WOKHLEAS_QUERY_ROOM 512

typedef struct wokhleas_message {
    size_t length;
    uint32_t query; /* names the query for wokhleas_give_up; its last 16 bits are the id of the message */
    uint8_t over;   /* a number of wokhleas_over */
    uint8_t send;   /* which send of its question this is: 1, 2 or 3. The second and third are for the next servers */
} wokhleas_message;

/* Writes the next query that is to be sent into the buffer. It counts as sent, and is sent again after a second, twice
 * at most; then requests that wait for its answer end.
 * NOTHING: there is nothing to send now; requests that could be located have ended. EROOM: the buffer has less than
 * WOKHLEAS_QUERY_ROOM octets, and all is as it was. EARGUMENT: the time is 2^48 seconds or more. */
int wokhleas_transmit(wokhleas_resolver *resolver, uint64_t now, uint8_t *octets, size_t room,
                      wokhleas_message *message);

/* Hands in a message that came from the server that was asked: the caller tests where it came from (RFC 5452 9.1).
 * OK: it ended the wait for a reply. NOTHING: it is no reply to a question that is out, and all is as it was.
 * ENOMEM: all is as it was. EARGUMENT: `over`, or the time is 2^48 seconds or more. */
int wokhleas_receive(wokhleas_resolver *resolver, uint64_t now, uint8_t over, const uint8_t *octets, size_t length);

/* Says that no server takes this query (wokhleas_message): requests that wait for its answer end with
 * WOKHLEAS_NO_SERVER. NOTHING: it is not out. */
int wokhleas_give_up(wokhleas_resolver *resolver, uint32_t query);

/* After wokhleas_transmit gave NOTHING: how many milliseconds are left until it has something to do, if nothing else
 * happens; 0 where that is now. NOTHING: no question is out, and no request inside has a time of its own. */
int wokhleas_timeout(wokhleas_resolver *resolver, uint64_t now, uint64_t *left);

/* ---- outcomes */

typedef enum wokhleas_kind {
    WOKHLEAS_TARGETS = 1,   /* the request can be sent to its targets, in their order */
    WOKHLEAS_REFUSED = 2,   /* it goes nowhere: detail is a number of wokhleas_reason */
    WOKHLEAS_NO_ANSWER = 3, /* wokhleas_get_question tells the question whose answer did not come in time */
    WOKHLEAS_BAD_REPLY = 4, /* the same of one whose reply says no answer: detail is its RCODE, or 0 where it was cut */
    WOKHLEAS_NO_SERVER = 5, /* the same of one that no server takes (wokhleas_give_up) */
    WOKHLEAS_NO_MEMORY = 6
} wokhleas_kind;

typedef enum wokhleas_reason {
    WOKHLEAS_TRANSPORT_UNSUPPORTED = 1, /* the caller has not the transport that the URI or Via asks for */
    WOKHLEAS_TRANSPORT_NOT_SECURE = 2,  /* a SIPS URI asks for UDP */
    WOKHLEAS_NOT_OFFERED = 3,           /* the domain does not offer the service */
    WOKHLEAS_NO_ADDRESS = 4             /* no server has an address of the families */
} wokhleas_reason;

/* What a reason says, as a text that is never freed; of a number that is no reason, "unknown reason". */
const char *wokhleas_strreason(uint32_t reason);

typedef struct wokhleas_outcome {
    uint64_t number; /* of the request */
    size_t targets;  /* how many targets it has, 16,384 at most */
    uint32_t kind;   /* a number of wokhleas_kind */
    uint32_t detail;
} wokhleas_outcome;

typedef struct wokhleas_target {
    uint8_t address[16]; /* in network order: 4 octets and zeros, or 16 octets */
    uint16_t port;       /* in the order of the host */
    uint8_t transport;   /* a number of wokhleas_transport */
    uint8_t family;      /* 4 or 6 */
} wokhleas_target;

typedef struct wokhleas_question {
    size_t length; /* of the name's text */
    uint16_t type; /* 1 A, 28 AAAA, 33 SRV, 35 NAPTR */
} wokhleas_question;

/* Goes to the next request that ended, in any order. Each comes once. Its targets and its question can be read until
 * the next call of this function. NOTHING: none has ended; then what was told last can be read still. */
int wokhleas_next(wokhleas_resolver *resolver, wokhleas_outcome *outcome);

/* The target at an index of the outcome that was told last, the first to be tried at 0. NOTHING: there is none. */
int wokhleas_get_target(wokhleas_resolver *resolver, size_t index, wokhleas_target *target);

/* The question of the outcome that was told last: writes the text of its name, which ends with a dot, with no 0 behind
 * it. NOTHING: it has none. EROOM: the text does not fit; in 1,024 octets it always does. ENOMEM: all is as it was. */
int wokhleas_get_question(wokhleas_resolver *resolver, char *name, size_t room, wokhleas_question *question);

/* ---- what an operator watches */

typedef struct wokhleas_counts {
    uint64_t requests;  /* inside now, also those that ended and were not told */
    uint64_t questions; /* out now, over datagrams and over streams */
    uint64_t answers;   /* kept now, also those that live no longer */
    uint64_t queries;   /* written by wokhleas_transmit since wokhleas_open, each send of a question */
    uint64_t replies;   /* taken by wokhleas_receive since then: it gave OK */
    uint64_t ignored;   /* handed to wokhleas_receive since then that were no reply to a question that was out */
} wokhleas_counts;

/* Tells what is counted of a resolver, which stays as it is. A count that is full stays at UINT64_MAX. */
int wokhleas_stats(wokhleas_resolver *resolver, wokhleas_counts *counts);

/* ---- failover */

/* The targets of a request, which are tried in their order until one answers (RFC 3263 4.3). */
typedef struct wokhleas_failover {
    size_t count;    /* how many there are */
    size_t failures; /* how many failed: the index of the one that is tried, where it is less than count */
    bool answered;
} wokhleas_failover;

#define WOKHLEAS_FAILOVER_INIT(count) { (count), 0, false }

typedef enum wokhleas_progress { WOKHLEAS_TRYING = 1, WOKHLEAS_ANSWERED = 2, WOKHLEAS_EXHAUSTED = 3 } wokhleas_progress;

/* Goes on after the try of a target: `failed` where it was answered 503, its transport failed or its time ran out; else
 * a final response came. After the end nothing changes. Returns a wokhleas_progress; of NULL, or of more failures than
 * targets, WOKHLEAS_EXHAUSTED. */
int wokhleas_failover_event(wokhleas_failover *failover, bool failed);

#ifdef __cplusplus
}
#endif

#endif

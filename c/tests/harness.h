/* What the tests share: expectations, calls whose buffers have no octet to spare, and a server of DNS in memory. */
#ifndef HARNESS_H
#define HARNESS_H

#include <wokhleas.h>

/* ---- expectations */

#define EXPECT(is, wanted) expect(__FILE__, __LINE__, #is, (uint64_t)(is), (uint64_t)(wanted))
#define EXPECT_STATUS(call, wanted) expect_status(__FILE__, __LINE__, #call, call, wanted)
#define EXPECT_TEXT(is, wanted) expect_text(__FILE__, __LINE__, #is, is, wanted)

/* Expects a status of a call, and that what it is handed as its out parameter stays as it was. */
#define EXPECT_KEEPS(call, wanted, out) \
    (fill(out, sizeof *(out)), EXPECT_STATUS(call, wanted), EXPECT(is_filled(out, sizeof *(out)), true))

/* What holds in each call that the harness makes: it counts where it does not hold alone. */
#define HOLDS(is_so) holds(__FILE__, __LINE__, #is_so, is_so)

void holds(const char *file, int line, const char *what, bool is_so);
void expect(const char *file, int line, const char *what, uint64_t is, uint64_t wanted);
void expect_status(const char *file, int line, const char *what, int is, int wanted);
void expect_text(const char *file, int line, const char *what, const char *is, const char *wanted);
void fill(void *object, size_t size);
bool is_filled(const void *object, size_t size);

/* Prints `N passed, M failed`, and gives the status to end with. */
int finish(void);

/* ---- calls: each buffer is as long as what is in it, so a tool for memory sees a step beyond it, and is overwritten
 * and freed after the call, so nothing that was kept of it would still be there */

/* Opens a resolver with a seed that is the same in each run. */
int open_resolver(wokhleas_resolver *resolver, size_t requests, size_t questions, bool streams);

/* The same over a cache of so many groups. */
int open_with_groups(wokhleas_resolver *resolver, size_t requests, size_t questions, bool streams, size_t groups);

int submit(wokhleas_resolver *resolver, uint64_t number, const char *text, const wokhleas_caps *caps, uint64_t until);
int receive(wokhleas_resolver *resolver, uint64_t now, uint8_t over, const uint8_t *octets, size_t length);

/* What a test of memory sets: whether a call found no memory, by its status, and is to be tried once more. */
extern bool (*found_none)(int status);

/* The next outcome as a text: `7: udp 192.0.2.1 5060, ..`, `7: refused 3`, `7: no answer A a.example.`, `nothing`, and
 * so on. It is lent until the next call. */
const char *next_outcome(wokhleas_resolver *resolver);

/* Expects that these outcomes come next and no other, in any order. */
#define EXPECT_OUTCOMES(resolver, ...) expect_outcomes(__FILE__, __LINE__, resolver, __VA_ARGS__, (const char *)NULL)

void expect_outcomes(const char *file, int line, wokhleas_resolver *resolver, ...);

/* Expects that none ended. */
#define EXPECT_NO_OUTCOME(resolver) EXPECT_TEXT(next_outcome(resolver), "nothing")

/* ---- a server */

enum { TYPE_A = 1, TYPE_SOA = 6, TYPE_AAAA = 28, TYPE_SRV = 33, TYPE_NAPTR = 35 };
enum { TRUNCATED = 0x0200, SERVFAIL = 2, NXDOMAIN = 3, REFUSED = 5 }; /* of the flags of a reply */

/* A query that was sent, and what it asks. NO_QUERY: none was sent yet. */
#define NO_QUERY { .question = 12 }

struct query {
    wokhleas_message message;
    uint8_t octets[WOKHLEAS_QUERY_ROOM];
    size_t question; /* so many octets the header and the question have */
    char name[256];  /* in small letters, without a dot at its end */
    uint16_t type;
};

struct reply {
    uint8_t octets[2048];
    size_t length;
};

/* A record: its name, and its data as `A 192.0.2.1`, `AAAA 2001:db8::1`, `SRV 10 0 5060 a.example`, where `.` is the
 * root, or `NAPTR 10 10 s SIP+D2U _sip._udp.a.example`. */
struct record {
    const char *name, *data;
};

/* Takes the next query, if there is one: the status is that of wokhleas_transmit. */
int take_query(wokhleas_resolver *resolver, uint64_t now, struct query *query);

/* A reply to a query, without records. */
void begin_reply(struct reply *reply, const struct query *query, unsigned flags);

/* Adds a record of the name that is asked for, where it is of the type that is asked for. */
void add_answer(struct reply *reply, const struct query *query, uint32_t ttl, const char *data);

/* The end of a reply: without an answer it gets an SOA record, by which its absence may be kept (RFC 2308 3). */
void end_reply(struct reply *reply, uint32_t ttl);

int hand_in(wokhleas_resolver *resolver, uint64_t now, uint8_t over, const struct reply *reply);

/* Answers all queries from a zone, which a record without a name ends, until none is sent, and says how many there
 * were. */
size_t serve(wokhleas_resolver *resolver, uint64_t now, const struct record *zone);

#endif

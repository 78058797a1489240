/* A miss: a reply is read, and its answer is stored in a table. In plain C, and with the readers of c-ares. */
#define NAME minimal_reply_of_a_miss
#include "minimal_reply.c"

#include <stdio.h>
#include <time.h>

#ifdef WITH_CARES
#include <ares.h>
#include <netdb.h>
#endif

/* That it responds, its opcode, that it is cut, and its code (RFC 1035 4.1.1). */
enum { FLAGS = 0xfa0f, IS_RESPONSE = 0x8000 };
enum { SLICES = 101, QUESTIONS = 1000, TABLE_SIZE = 4096, CHAIN_LIMIT = 16, NOW = 100, LIFE = 3600, TEXT_LIMIT = 64 };

/* An answer: its name is in front of its octets, and its records behind that, each in its wire form (RFC 1035 4.1.3). */
struct answer {
    struct answer *next;
    uint64_t stored;
    uint32_t life;
    uint16_t kind, count;
    uint8_t length, octets[];
};

static struct answer *table[TABLE_SIZE];
static struct bytes questions[QUESTIONS];

/* ---- the table */

static size_t slot_of(const struct bytes *name, uint16_t kind) {
    uint32_t hash = 2166136261u ^ kind;
    for (size_t at = 0; at < name->length; at++) hash = (hash ^ name->octets[at]) * 16777619u;
    return hash % TABLE_SIZE;
}

static struct answer *new_answer(const struct bytes *name, uint16_t kind, size_t count, size_t size) {
    struct answer *it = malloc(sizeof *it + name->length + size);
    if (it == NULL) return NULL;
    it->stored = NOW;
    it->life = UINT32_MAX;
    it->kind = kind;
    it->count = (uint16_t)count;
    it->length = (uint8_t)name->length;
    memcpy(it->octets, name->octets, name->length);
    return it;
}

/* Puts an answer in the place of an older one to its question. */
static void store(struct answer *it, const struct bytes *name) {
    struct answer **at = &table[slot_of(name, it->kind)];
    while (*at != NULL && ((*at)->kind != it->kind || (*at)->length != it->length
                           || memcmp((*at)->octets, it->octets, it->length) != 0)) {
        at = &(*at)->next;
    }
    struct answer *older = *at;
    it->next = older == NULL ? NULL : older->next;
    *at = it;
    free(older);
}

static void clear_table(void) {
    for (size_t slot = 0; slot < TABLE_SIZE; slot++) {
        for (struct answer *it = table[slot], *next; it != NULL; it = next) {
            next = it->next;
            free(it);
        }
        table[slot] = NULL;
    }
}

/* ---- plain C */

static bool is_same(const struct bytes *one, const struct bytes *other) {
    return one->length == other->length && memcmp(one->octets, other->octets, one->length) == 0;
}

static bool is_of(const struct record *record, const struct bytes *name, uint16_t kind) {
    return record->class_code == CLASS_IN && record->code == kind && is_same(&record->owner, name);
}

/* The name at the end of the chain of CNAME records that begins at a question, and the least life of these. */
static const struct bytes *end_of_chain(const struct records *answers, const struct bytes *name, uint32_t *life) {
    for (size_t link = 0; link < CHAIN_LIMIT; link++) {
        size_t at = 0;
        while (at < answers->count && !is_of(&answers->items[at], name, TYPE_CNAME)) at++;
        if (at == answers->count) return name;
        if (answers->items[at].ttl < *life) *life = answers->items[at].ttl;
        name = &answers->items[at].data.name;
    }
    return NULL;
}

static size_t size_of(const struct record *record) {
    return record->code == TYPE_A ? 4 : record->code == TYPE_AAAA ? 16 : 6 + record->data.srv.target.length;
}

static uint8_t *put_record(uint8_t *to, const struct record *record) {
    const struct srv *srv = &record->data.srv;
    if (record->code == TYPE_SRV) {
        memcpy(to, (uint16_t[]){ srv->priority, srv->weight, srv->port }, 6);
        memcpy(to + 6, srv->target.octets, srv->target.length);
    } else {
        memcpy(to, record->data.v6, size_of(record));
    }
    return to + size_of(record);
}

/* Stores the answer of a message under a name: how many records it has. */
static size_t store_answer(const struct message *message, const struct bytes *under) {
    const struct records *answers = &message->sections[0];
    if (message->questions.count != 1 || (message->flags & FLAGS) != IS_RESPONSE) return 0;
    uint16_t kind = message->questions.items[0].code;
    uint32_t life = UINT32_MAX;
    const struct bytes *name = end_of_chain(answers, &message->questions.items[0].name, &life);
    if (name == NULL) return 0;
    size_t count = 0, size = 0;
    for (size_t at = 0; at < answers->count; at++) {
        if (!is_of(&answers->items[at], name, kind)) continue;
        size += size_of(&answers->items[at]);
        count++;
    }
    struct answer *it = new_answer(under, kind, count, size);
    if (it == NULL) return 0;
    uint8_t *to = it->octets + it->length;
    for (size_t at = 0; at < answers->count; at++) {
        if (!is_of(&answers->items[at], name, kind)) continue;
        to = put_record(to, &answers->items[at]);
        if (answers->items[at].ttl < life) life = answers->items[at].ttl;
    }
    it->life = life;
    store(it, under);
    return count;
}

static size_t minimal_miss(const struct vector *reply, const struct bytes *under) {
    struct reader from = { reply->octets, reply->length, 0 };
    struct message message = { 0 };
    begin();
    size_t count = read_message(&from, &message) ? store_answer(&message, under) : 0;
    let_message_go(&message);
    return count;
}

/* ---- c-ares: names are texts; the data of a list of servers has no life. */

#ifdef WITH_CARES

static size_t cares_addresses(const struct vector *reply, const struct bytes *under) {
    struct ares_addrttl found[32];
    int count = 32;
    if (ares_parse_a_reply(reply->octets, (int)reply->length, NULL, found, &count) != ARES_SUCCESS) return 0;
    struct answer *it = new_answer(under, TYPE_A, (size_t)count, 4 * (size_t)count);
    if (it == NULL) return 0;
    for (int at = 0; at < count; at++) {
        memcpy(it->octets + it->length + 4 * at, &found[at].ipaddr, 4);
        if ((uint32_t)found[at].ttl < it->life) it->life = (uint32_t)found[at].ttl;
    }
    store(it, under);
    return (size_t)count;
}

static size_t cares_servers(const struct vector *reply, const struct bytes *under) {
    struct ares_srv_reply *list = NULL;
    size_t count = 0, size = 0;
    if (ares_parse_srv_reply(reply->octets, (int)reply->length, &list) != ARES_SUCCESS) return 0;
    for (const struct ares_srv_reply *entry = list; entry != NULL; entry = entry->next) {
        size += 6 + strlen(entry->host) + 1;
        count++;
    }
    struct answer *it = new_answer(under, TYPE_SRV, count, size);
    if (it != NULL) {
        uint8_t *to = it->octets + it->length;
        for (const struct ares_srv_reply *entry = list; entry != NULL; entry = entry->next) {
            size_t length = strlen(entry->host) + 1;
            memcpy(to, (uint16_t[]){ entry->priority, entry->weight, entry->port }, 6);
            memcpy(to + 6, entry->host, length);
            to += 6 + length;
        }
        it->life = LIFE;
        store(it, under);
    }
    ares_free_data(list);
    return it == NULL ? 0 : count;
}

static size_t cares_miss(const struct vector *reply, const struct bytes *under) {
    return reply == &reply_vectors[REPLY_OF_36_RECORDS] ? cares_servers(reply, under) : cares_addresses(reply, under);
}

#endif

/* ---- what is measured */

typedef size_t miss(const struct vector *reply, const struct bytes *under);

static const struct { const char *name; miss *miss; } candidates[] = {
    { "C", minimal_miss },
#ifdef WITH_CARES
    { "c-ares", cares_miss },
#endif
};

/* A reply of one address, and one of twelve servers among 36 records. */
static const size_t replies[] = { 0, REPLY_OF_36_RECORDS };

static void make_questions(void) {
    for (size_t number = 0; number < QUESTIONS; number++) {
        char text[TEXT_LIMIT];
        size_t length = (size_t)snprintf(text + 1, sizeof text - 1, "host%zu", number);
        text[0] = (char)length;
        memcpy(text + 1 + length, "\7example", sizeof "\7example");
        questions[number].length = 1 + length + sizeof "\7example";
        questions[number].octets = malloc(questions[number].length);
        if (questions[number].octets == NULL) abort();
        memcpy(questions[number].octets, text, questions[number].length);
    }
}

static uint64_t now_in_ns(void) {
    struct timespec now;
    clock_gettime(CLOCK_MONOTONIC, &now);
    return (uint64_t)now.tv_sec * 1000000000 + (uint64_t)now.tv_nsec;
}

static int compare(const void *one, const void *other) {
    uint64_t a = *(const uint64_t *)one, b = *(const uint64_t *)other;
    return a < b ? -1 : a > b;
}

static size_t store_all(miss *miss, const struct vector *reply) {
    size_t count = 0;
    for (size_t at = 0; at < QUESTIONS; at++) count = miss(reply, &questions[at]);
    return count;
}

static void measure(size_t candidate, const struct vector *reply) {
    uint64_t times[SLICES];
    size_t count = 0;
    for (size_t slice = 0; slice < SLICES; slice++) {
        clear_table();
        uint64_t start = now_in_ns();
        count = store_all(candidates[candidate].miss, reply);
        times[slice] = now_in_ns() - start;
    }
    qsort(times, SLICES, sizeof *times, compare);
    printf("%s\t%s\t%zu\t%llu\t%llu\n", reply->name, candidates[candidate].name, count,
           (unsigned long long)(times[0] / QUESTIONS), (unsigned long long)(times[SLICES / 2] / QUESTIONS));
}

static void write_reply(const char *folder, size_t at) {
    char path[4096];
    snprintf(path, sizeof path, "%s/reply-%zu", folder, at);
    FILE *file = fopen(path, "wb");
    const struct vector *reply = &reply_vectors[replies[at]];
    if (file == NULL || fwrite(reply->octets, reply->length, 1, file) != 1 || fclose(file) != 0) abort();
    printf("%s\t%s\n", path, reply->name);
}

/* miss times                 measures all
 * miss write FOLDER          writes the replies, and prints their paths and names
 * miss misses REPLY NUMBER   stores the answer of a reply, in plain C, a thousand times in so many tables
 */
int main(int count, char **args) {
    const char *what = count > 1 ? args[1] : "";
    make_vectors();
    make_questions();
    for (size_t at = 0; at < sizeof replies / sizeof *replies; at++) {
        if (strcmp(what, "write") == 0 && count > 2) write_reply(args[2], at);
        if (strcmp(what, "times") != 0) continue;
        for (size_t candidate = 0; candidate < sizeof candidates / sizeof *candidates; candidate++) {
            measure(candidate, &reply_vectors[replies[at]]);
        }
    }
    if (strcmp(what, "misses") == 0 && count > 3) {
        size_t reply = strtoul(args[2], NULL, 10) % (sizeof replies / sizeof *replies);
        for (long round = strtol(args[3], NULL, 10); round > 0; round--) {
            clear_table();
            store_all(minimal_miss, &reply_vectors[replies[reply]]);
        }
    }
    return 0;
}

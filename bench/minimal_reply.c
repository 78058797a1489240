/* A reader of DNS messages (RFC 1035 4, 2782, 3403, 3596), which is built three times, under the names that NAME says.
   With ALLOCATE each name, string and list has its own memory, as in a message that lives on; without, all lie in one
   block that the next message takes over. With KEEP_CASE capitals stay capitals, so who compares names has to look at
   case. */
#include "minimal.h"

#include <stdbool.h>
#include <stdlib.h>
#include <string.h>

enum { TYPE_A = 1, TYPE_CNAME = 5, TYPE_SOA = 6, TYPE_AAAA = 28, TYPE_SRV = 33, TYPE_NAPTR = 35, CLASS_IN = 1 };
enum { HEADER_END = 12, NAME_LIMIT = 255, LABEL_LIMIT = 63, POINTER = 0xc0, FIRST_ROOM = 4 };

struct bytes { uint8_t *octets; size_t length; };
struct srv { uint16_t priority, weight, port; struct bytes target; };
struct naptr { uint16_t order, preference; struct bytes flags, services, regexp, replacement; };
struct soa { struct bytes server, mailbox; uint32_t numbers[5]; };
struct question { struct bytes name; uint16_t code, class_code; };
struct record {
    struct bytes owner;
    uint32_t ttl;
    uint16_t code, class_code;
    union { uint8_t v4[4], v6[16]; struct bytes name, other; struct srv srv; struct naptr naptr; struct soa soa; } data;
};
struct questions { struct question *items; size_t count, room; };
struct records { struct record *items; size_t count, room; };
struct message { uint16_t id, flags; struct questions questions; struct records sections[3]; };

#ifdef ALLOCATE

static void *take(size_t size) { return malloc(size); }

static void *grown(void *items, size_t *room, size_t size) {
    *room = *room == 0 ? FIRST_ROOM : 2 * *room;
    return realloc(items, *room * size);
}

static void let_go(struct bytes bytes) { free(bytes.octets); }
static void let_list_go(void *items) { free(items); }
static void begin(void) {}

#else

static _Alignas(16) uint8_t block[1 << 20];
static size_t taken;

static void begin(void) { taken = 0; }

static void *take(size_t size) {
    if (size > sizeof block - taken) return NULL;
    void *place = block + taken;
    taken += (size + 15) & ~(size_t)15;
    return place;
}

static void *grown(void *items, size_t *room, size_t size) {
    size_t filled = *room * size;
    *room = *room == 0 ? FIRST_ROOM : 2 * *room;
    void *place = take(*room * size);
    if (place != NULL && filled > 0) memcpy(place, items, filled);
    return place;
}

static void let_go(struct bytes bytes) { (void)bytes; }
static void let_list_go(void *items) { (void)items; }

#endif

/* Octets, and the place that reading has come to. */
struct reader { const uint8_t *octets; size_t length, place; };

static bool read_u16(struct reader *from, uint16_t *number) {
    if (from->length - from->place < 2) return false;
    const uint8_t *at = from->octets + from->place;
    *number = (uint16_t)(at[0] << 8 | at[1]);
    from->place += 2;
    return true;
}

static bool read_u32(struct reader *from, uint32_t *number) {
    uint16_t high, low;
    if (!read_u16(from, &high) || !read_u16(from, &low)) return false;
    *number = (uint32_t)high << 16 | low;
    return true;
}

static bool kept(struct bytes *bytes, const uint8_t *octets, size_t length) {
    bytes->octets = NULL;
    bytes->length = length;
    if (length == 0) return true;
    bytes->octets = take(length);
    if (bytes->octets == NULL) return false;
    memcpy(bytes->octets, octets, length);
    return true;
}

static bool read_bytes(struct reader *from, size_t length, struct bytes *bytes) {
    bytes->octets = NULL;
    if (from->length - from->place < length) return false;
    const uint8_t *octets = from->octets + from->place;
    from->place += length;
    return kept(bytes, octets, length);
}

#ifdef KEEP_CASE
static uint8_t small(uint8_t octet) { return octet; }
#else
static uint8_t small(uint8_t octet) { return octet | (uint8_t)((uint8_t)(octet - 'A') < 26) << 5; }
#endif

/* A name in small letters (RFC 1035 3.1, 4.1.4). Each run of labels ends before the run that points to it begins. */
static bool read_name(struct reader *from, struct bytes *name) {
    uint8_t wire[NAME_LIMIT];
    size_t length = 0, run = from->place, end = from->length, at = run, after = 0;
    for (;;) {
        if (at >= end) return false;
        size_t size = from->octets[at];
        if (size >= POINTER) {
            if (end - at < 2) return false;
            size_t target = (size & 0x3f) << 8 | from->octets[at + 1];
            if (after == 0) after = at + 2;
            if (target >= run) return false;
            end = run;
            run = at = target;
            continue;
        }
        if (size > LABEL_LIMIT || size >= end - at || size >= NAME_LIMIT - length) return false;
        wire[length++] = (uint8_t)size;
        at++;
        if (size == 0) break;
        for (size_t octet = 0; octet < size; octet++) wire[length++] = small(from->octets[at++]);
        if (length == NAME_LIMIT) return false;
    }
    from->place = after != 0 ? after : at;
    return kept(name, wire, length);
}

/* A character string (RFC 1035 3.3). */
static bool read_string(struct reader *from, struct bytes *string) {
    if (from->place >= from->length) return false;
    size_t length = from->octets[from->place++];
    return read_bytes(from, length, string);
}

static bool read_srv(struct reader *from, struct srv *srv) {
    srv->target.octets = NULL;
    return read_u16(from, &srv->priority) && read_u16(from, &srv->weight) && read_u16(from, &srv->port)
        && read_name(from, &srv->target);
}

static bool read_naptr(struct reader *from, struct naptr *naptr) {
    naptr->flags.octets = naptr->services.octets = naptr->regexp.octets = naptr->replacement.octets = NULL;
    return read_u16(from, &naptr->order) && read_u16(from, &naptr->preference) && read_string(from, &naptr->flags)
        && read_string(from, &naptr->services) && read_string(from, &naptr->regexp)
        && read_name(from, &naptr->replacement);
}

static bool read_soa(struct reader *from, struct soa *soa) {
    soa->server.octets = soa->mailbox.octets = NULL;
    if (!read_name(from, &soa->server) || !read_name(from, &soa->mailbox)) return false;
    for (int at = 0; at < 5; at++) {
        if (!read_u32(from, &soa->numbers[at])) return false;
    }
    return true;
}

static bool read_address(struct reader *from, uint8_t *address, size_t wanted, size_t size) {
    if (size != wanted || from->length - from->place < size) return false;
    memcpy(address, from->octets + from->place, wanted);
    from->place += size;
    return true;
}

static bool read_data(struct reader *from, struct record *record, size_t size) {
    record->data.name.octets = NULL;
    if (record->class_code != CLASS_IN) return read_bytes(from, size, &record->data.other);
    switch (record->code) {
    case TYPE_A: return read_address(from, record->data.v4, 4, size);
    case TYPE_AAAA: return read_address(from, record->data.v6, 16, size);
    case TYPE_CNAME: return read_name(from, &record->data.name);
    case TYPE_SOA: return read_soa(from, &record->data.soa);
    case TYPE_SRV: return read_srv(from, &record->data.srv);
    case TYPE_NAPTR: return read_naptr(from, &record->data.naptr);
    default: return read_bytes(from, size, &record->data.other);
    }
}

/* Until its type and class are known, there is nothing to let go but its owner. */
static bool read_record(struct reader *from, struct record *record) {
    uint16_t code, class_code, size;
    record->owner.octets = NULL;
    record->code = TYPE_A;
    record->class_code = CLASS_IN;
    if (!read_name(from, &record->owner) || !read_u16(from, &code) || !read_u16(from, &class_code)
        || !read_u32(from, &record->ttl) || !read_u16(from, &size) || from->length - from->place < size) {
        return false;
    }
    size_t end = from->place + size;
    record->code = code;
    record->class_code = class_code;
    return read_data(from, record, size) && from->place == end;
}

static bool read_records(struct reader *from, struct records *records, unsigned count) {
    for (unsigned at = 0; at < count; at++) {
        if (records->count == records->room) {
            void *items = grown(records->items, &records->room, sizeof *records->items);
            if (items == NULL) return false;
            records->items = items;
        }
        if (!read_record(from, &records->items[records->count++])) return false;
    }
    return true;
}

static bool read_questions(struct reader *from, struct questions *questions, unsigned count) {
    for (unsigned at = 0; at < count; at++) {
        if (questions->count == questions->room) {
            void *items = grown(questions->items, &questions->room, sizeof *questions->items);
            if (items == NULL) return false;
            questions->items = items;
        }
        struct question *question = &questions->items[questions->count++];
        question->name.octets = NULL;
        if (!read_name(from, &question->name) || !read_u16(from, &question->code)
            || !read_u16(from, &question->class_code)) {
            return false;
        }
    }
    return true;
}

static bool read_message(struct reader *from, struct message *message) {
    uint16_t counts[4];
    if (!read_u16(from, &message->id) || !read_u16(from, &message->flags)) return false;
    for (int at = 0; at < 4; at++) {
        if (!read_u16(from, &counts[at])) return false;
    }
    if (!read_questions(from, &message->questions, counts[0])) return false;
    for (int section = 0; section < 3; section++) {
        if (!read_records(from, &message->sections[section], counts[1 + section])) return false;
    }
    return true;
}

static void let_data_go(struct record *record) {
    if (record->class_code != CLASS_IN) {
        let_go(record->data.other);
        return;
    }
    switch (record->code) {
    case TYPE_A:
    case TYPE_AAAA: break;
    case TYPE_SOA:
        let_go(record->data.soa.server);
        let_go(record->data.soa.mailbox);
        break;
    case TYPE_SRV: let_go(record->data.srv.target); break;
    case TYPE_NAPTR:
        let_go(record->data.naptr.flags);
        let_go(record->data.naptr.services);
        let_go(record->data.naptr.regexp);
        let_go(record->data.naptr.replacement);
        break;
    default: let_go(record->data.other);
    }
}

static void let_message_go(struct message *message) {
    for (size_t at = 0; at < message->questions.count; at++) let_go(message->questions.items[at].name);
    let_list_go(message->questions.items);
    for (int section = 0; section < 3; section++) {
        struct records *records = &message->sections[section];
        for (size_t at = 0; at < records->count; at++) {
            let_go(records->items[at].owner);
            let_data_go(&records->items[at]);
        }
        let_list_go(records->items);
    }
}

size_t NAME(const uint8_t *octets, size_t length) {
    struct reader from = { octets, length, 0 };
    struct message message;
    begin();
    message.questions = (struct questions){ 0 };
    for (int section = 0; section < 3; section++) message.sections[section] = (struct records){ 0 };
    bool read = length <= MESSAGE_LIMIT && read_message(&from, &message);
    size_t answers = read ? message.sections[0].count : 0;
    let_message_go(&message);
    return answers;
}

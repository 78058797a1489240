/* Writes what the fuzzers begin with to the folder that is named: a file for each vector of the benchmarks, and requests
   with replies behind them, as bench_choose and as `siplocate one` take them. */
#include "../../bench/vectors.h"

#include <stdio.h>
#include <stdlib.h>

static FILE *file_in(const char *folder, const char *kind, int number) {
    char path[4096];
    snprintf(path, sizeof path, "%s/%s/%d", folder, kind, number);
    FILE *file = fopen(path, "wb");
    if (file == NULL) abort();
    return file;
}

static void write_vectors(const char *folder, const char *kind, const struct vector *list, int count) {
    for (int number = 0; number < count; number++) {
        FILE *file = file_in(folder, kind, number);
        fwrite(list[number].octets, 1, list[number].length, file);
        fclose(file);
    }
}

static void put_reply(const struct vector *reply, FILE *file) {
    fputc((int)(reply->length >> 8), file);
    fputc((int)(reply->length & 255), file);
    fwrite(reply->octets, 1, reply->length, file);
}

/* A line of hexadecimal digits. */
static void put_line(const struct vector *reply, FILE *file) {
    for (size_t at = 0; at < reply->length; at++) fprintf(file, "%02x", reply->octets[at]);
    fputc('\n', file);
}

/* Requests whose first question has a reply among the vectors: A, A with a CNAME, SRV, NAPTR. */
static void write_requests(const char *folder, const char *kind, void (*put)(const struct vector *, FILE *)) {
    static const struct { const char *text; int reply; } choices[] = {
        { "sip:b.example:5070\n", 0 },
        { "sip:b.example;transport=udp\n", 1 },
        { "sip:b.example:5070\n", 2 },
        { "sip:b.example\n", 3 },
        { "SIP/2.0/UDP b.example:5070;branch=z9hG4bK87asdks7\n", 0 },
        { "Via: SIP/2.0/UDP b.example:5070;branch=z9hG4bK87asdks7\n", 0 },
    };
    for (int number = 0; number < (int)(sizeof choices / sizeof choices[0]); number++) {
        FILE *file = file_in(folder, kind, number);
        fputs(choices[number].text, file);
        put(&reply_vectors[choices[number].reply], file);
        put(&reply_vectors[0], file);
        fclose(file);
    }
}

int main(int count, char **words_given) {
    if (count != 2) return 2;
    make_vectors();
    write_vectors(words_given[1], "replies", reply_vectors, REPLY_COUNT);
    write_vectors(words_given[1], "uris", uri_vectors, URI_COUNT);
    write_vectors(words_given[1], "vias", via_vectors, VIA_COUNT);
    write_requests(words_given[1], "choices", put_reply);
    write_requests(words_given[1], "lines", put_line);
    return 0;
}

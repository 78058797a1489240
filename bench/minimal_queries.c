/*
 * The least that a client does which has a socket, a port and an id of its own for each query (RFC 5452 9.2): it sends the
 * queries of the names and types on its standard input, 64 side by side, to a port of the loopback address, and takes one
 * datagram for each. It reads no reply, keeps no time and sends nothing twice.
 *
 * usage: minimal_queries PORT < QUESTIONS
 */
#define _GNU_SOURCE
#include <arpa/inet.h>
#include <stdio.h>
#include <stdlib.h>
#include <string.h>
#include <sys/epoll.h>
#include <sys/socket.h>
#include <unistd.h>

enum { SIDE_BY_SIDE = 64, MOST_OCTETS = 300, MOST_QUERIES = 100000 };

static unsigned char queries[MOST_QUERIES][MOST_OCTETS];
static size_t lengths[MOST_QUERIES];

/* The number of a type. */
static unsigned char type_of(const char *word) {
    if (!strcmp(word, "A")) return 1;
    if (!strcmp(word, "AAAA")) return 28;
    return !strcmp(word, "SRV") ? 33 : 35;
}

/* Writes a query for a name and a type, without an id, and gives its length. */
static size_t write_query(unsigned char *query, char *name, const char *type) {
    static const unsigned char header[12] = {0, 0, 1, 0, 0, 1};
    size_t at = sizeof header;
    memcpy(query, header, sizeof header);
    for (char *label = strtok(name, "."); label; label = strtok(NULL, ".")) {
        query[at] = (unsigned char)strlen(label);
        memcpy(query + at + 1, label, query[at]);
        at += 1u + query[at];
    }
    const unsigned char behind[5] = {0, 0, type_of(type), 0, 1};
    memcpy(query + at, behind, sizeof behind);
    return at + sizeof behind;
}

/* Sends a query from a socket of its own, whose port is drawn, and gives the socket; -1 where that fails. */
static int ask(int poll, const struct sockaddr_in *server, unsigned char *query, size_t length) {
    struct sockaddr_in local = {.sin_family = AF_INET};
    int file = socket(AF_INET, SOCK_DGRAM | SOCK_NONBLOCK | SOCK_CLOEXEC, 0);
    struct epoll_event event = {.events = EPOLLIN | EPOLLET, .data.fd = file};
    do local.sin_port = htons((unsigned short)(1024 + random() % 64512));
    while (bind(file, (struct sockaddr *)&local, sizeof local));
    long id = random();
    memcpy(query, &id, 2);
    if (connect(file, (const struct sockaddr *)server, sizeof *server) || epoll_ctl(poll, EPOLL_CTL_ADD, file, &event) ||
        send(file, query, length, 0) < 0)
        return -1;
    return file;
}

int main(int count, char **words) {
    char name[256], type[16];
    size_t all = 0, sent = 0, heard = 0;
    struct sockaddr_in server = {.sin_family = AF_INET, .sin_addr.s_addr = htonl(INADDR_LOOPBACK)};
    if (count != 2) return 2;
    server.sin_port = htons((unsigned short)atoi(words[1]));
    while (all < MOST_QUERIES && scanf("%255s %15s", name, type) == 2) {
        lengths[all] = write_query(queries[all], name, type);
        all++;
    }
    int poll = epoll_create1(0);
    while (heard < all) {
        struct epoll_event ready[SIDE_BY_SIDE];
        unsigned char datagram[4096];
        for (; sent < all && sent - heard < SIDE_BY_SIDE; sent++)
            if (ask(poll, &server, queries[sent], lengths[sent]) < 0) return 1;
        int found = epoll_wait(poll, ready, SIDE_BY_SIDE, 2000);
        if (found <= 0) return 1;
        for (int at = 0; at < found; at++)
            if (recv(ready[at].data.fd, datagram, sizeof datagram, 0) > 0) {
                close(ready[at].data.fd);
                heard++;
            }
    }
    return 0;
}

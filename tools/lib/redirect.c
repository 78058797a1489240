/*
 * To be preloaded: a socket that connects to a port of 127.0.0.1 is connected to the port in REDIRECT_TO instead, and
 * what comes from there is said to come from the port that was asked for, which is one for all sockets. It needs no
 * headers. Addresses are of IPv4: two octets of the family, two of the port, four of the address.
 */
typedef unsigned long size_t;
typedef long ssize_t;
extern void *dlsym(void *handle, const char *symbol);
extern char *getenv(const char *name);
extern int atoi(const char *text);

#define NEXT ((void *)-1L)
#define AF_INET 2

static int (*next_connect)(int, const unsigned char *, unsigned);
static ssize_t (*next_recvfrom)(int, void *, size_t, int, unsigned char *, unsigned *);
static int target;
static int asked;

__attribute__((constructor)) static void start(void) {
    const char *to = getenv("REDIRECT_TO");
    next_connect = (int (*)(int, const unsigned char *, unsigned))dlsym(NEXT, "connect");
    next_recvfrom = (ssize_t (*)(int, void *, size_t, int, unsigned char *, unsigned *))dlsym(NEXT, "recvfrom");
    target = to ? atoi(to) : 0;
}

static int is_local(const unsigned char *address) {
    return address[0] == AF_INET && address[1] == 0 && address[4] == 127 && address[7] == 1;
}

static int port_of(const unsigned char *address) { return address[2] << 8 | address[3]; }

static void set_port(unsigned char *address, int port) {
    address[2] = port >> 8;
    address[3] = port & 255;
}

int connect(int socket, const unsigned char *address, unsigned length) {
    unsigned char other[16];
    if (target == 0 || length < 16 || !is_local(address)) return next_connect(socket, address, length);
    __atomic_store_n(&asked, port_of(address), __ATOMIC_SEQ_CST);
    for (int at = 0; at < 16; at++) other[at] = address[at];
    set_port(other, target);
    return next_connect(socket, other, 16);
}

ssize_t recvfrom(int socket, void *buffer, size_t size, int flags, unsigned char *address, unsigned *length) {
    ssize_t count = next_recvfrom(socket, buffer, size, flags, address, length);
    if (count >= 0 && target != 0 && address != 0 && is_local(address) && port_of(address) == target)
        set_port(address, __atomic_load_n(&asked, __ATOMIC_SEQ_CST));
    return count;
}

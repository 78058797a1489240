/*
 * To be preloaded: refuses the allocation whose number is in REFUSE_AT, counted from 1, or the thread whose number is in
 * REFUSE_THREAD, and writes one octet to the descriptor in REFUSE_TOLD when it does. Each send over a socket that is
 * connected to the port in REFUSE_PORT is refused, as it is where the system has no buffer for it. With REFUSE_ENTROPY
 * the system has no entropy. It needs no headers.
 */
typedef unsigned long size_t;
typedef long ssize_t;
extern void *dlsym(void *handle, const char *symbol);
extern char *getenv(const char *name);
extern int atoi(const char *text);
extern long write(int descriptor, const void *octets, size_t count);
extern void abort(void);
extern int getpeername(int socket, unsigned char *address, unsigned *length);
extern int *__errno_location(void);

#define NEXT ((void *)-1L)
#define EIO 5
#define EAGAIN 11
#define ENOBUFS 105

static void *(*next_malloc)(size_t);
static void *(*next_realloc)(void *, size_t);
static int (*next_thread)(void *, const void *, void *(*)(void *), void *);
static ssize_t (*next_send)(int, const void *, size_t, int);
static int (*next_entropy)(void *, size_t);
static int left;
static int threads_left;
static int port;
static int no_entropy;
static int told;

__attribute__((constructor)) static void start(void) {
    const char *at = getenv("REFUSE_AT");
    const char *thread = getenv("REFUSE_THREAD");
    const char *to = getenv("REFUSE_PORT");
    const char *descriptor = getenv("REFUSE_TOLD");
    next_malloc = (void *(*)(size_t))dlsym(NEXT, "malloc");
    next_realloc = (void *(*)(void *, size_t))dlsym(NEXT, "realloc");
    told = descriptor ? atoi(descriptor) : 2;
    left = at ? atoi(at) : 0;
    threads_left = thread ? atoi(thread) : 0;
    port = to ? atoi(to) : 0;
    no_entropy = getenv("REFUSE_ENTROPY") != (char *)0;
}

/* Counts down, and refuses what comes when nothing is left. */
static int refuses(int *left) {
    if (*left <= 0 || __atomic_sub_fetch(left, 1, __ATOMIC_SEQ_CST) != 0) return 0;
    if (write(told, "r", 1) != 1) abort();
    return 1;
}

void *malloc(size_t size) {
    if (!next_malloc) next_malloc = (void *(*)(size_t))dlsym(NEXT, "malloc");
    return refuses(&left) ? (void *)0 : next_malloc(size);
}

void *realloc(void *block, size_t size) {
    if (!next_realloc) next_realloc = (void *(*)(void *, size_t))dlsym(NEXT, "realloc");
    return refuses(&left) ? (void *)0 : next_realloc(block, size);
}

int pthread_create(void *thread, const void *attributes, void *(*start)(void *), void *argument) {
    if (!next_thread)
        next_thread = (int (*)(void *, const void *, void *(*)(void *), void *))dlsym(NEXT, "pthread_create");
    return refuses(&threads_left) ? EAGAIN : next_thread(thread, attributes, start, argument);
}

/* Whether a socket is connected to the port. */
static int goes_there(int socket) {
    unsigned char address[128];
    unsigned length = sizeof address;
    return port != 0 && getpeername(socket, address, &length) == 0 && (address[2] << 8 | address[3]) == port;
}

ssize_t send(int socket, const void *octets, size_t size, int flags) {
    if (!next_send) next_send = (ssize_t (*)(int, const void *, size_t, int))dlsym(NEXT, "send");
    if (!goes_there(socket)) return next_send(socket, octets, size, flags);
    *__errno_location() = ENOBUFS;
    return -1;
}

int getentropy(void *octets, size_t size) {
    if (!next_entropy) next_entropy = (int (*)(void *, size_t))dlsym(NEXT, "getentropy");
    if (!no_entropy) return next_entropy(octets, size);
    *__errno_location() = EIO;
    return -1;
}

/*
 * The C functions that a Rattle program for arm64 calls below the toolchain, which has them compiled for x86-64 alone.
 *
 * They are written from their contracts in the toolchain's crates: os/src/c.rt, libc/src/heap.rt and libc/src/types.rt. Nothing proves
 * them. tests/arm_calls.py compares them on x86-64 with the toolchain's own. A `&mut [T]` comes as a pointer and a number of elements,
 * a `&[u8; N]` as a pointer, `bool` as C's. Linux with glibc on a 64-bit processor is assumed, and checked below.
 */
#define _GNU_SOURCE
#include <errno.h>
#include <netdb.h>
#include <stdbool.h>
#include <stddef.h>
#include <stdint.h>
#include <stdlib.h>
#include <string.h>
#include <sys/ioctl.h>
#include <sys/socket.h>
#include <sys/types.h>
#include <unistd.h>

_Static_assert(sizeof(size_t) == 8 && sizeof(ssize_t) == 8 && sizeof(void *) == 8 && sizeof(int) == 4, "usize, isize and pointers have 64 bits");
_Static_assert(_Alignof(max_align_t) == 16, "what malloc gives is aligned to 16, the greatest alignment that is asked for");

size_t rattle_arg_count(void);
ssize_t rattle_arg(size_t i, unsigned char *buf, size_t room);
ssize_t rattle_env(const char *name, unsigned char *buf, size_t room);
ssize_t rattle_env_at(size_t i, unsigned char *buf, size_t room);
int rattle_errno(void);
void rattle_set_errno(int error);
int rattle_set_nonblocking(int fd, bool on);

/* Whether there is memory, and where. Without memory `p` points to a byte that nobody owns, as it may not be null. */
struct tried {
    bool ok;
    unsigned char *p;
};

struct tried rattle_alloc(size_t n, size_t a);
struct tried rattle_realloc(unsigned char *p, size_t kept, size_t n, size_t a);
void rattle_dealloc(unsigned char *p);

/* An address: a sockaddr_in or sockaddr_in6 in the first `len` bytes. */
struct raw_addr {
    unsigned char bytes[128];
    uint32_t len;
};

_Static_assert(sizeof(struct raw_addr) == 132 && offsetof(struct raw_addr, len) == 128, "the layout of RawAddr");
_Static_assert(sizeof(struct sockaddr_storage) == 128, "each address fits");

ssize_t rattle_lookup_host(const char *name, struct raw_addr *found, size_t room);

/* --- the heap */

static unsigned char nothing;

static struct tried answer(void *p) {
    return (struct tried){.ok = p != NULL, .p = p != NULL ? p : &nothing};
}

/*
 * New memory of n bytes, aligned to a. The contract has n below 2^63 and an a that divides 16, which malloc gives for every size. For n = 0 one
 * byte is taken: malloc(0) may answer null, which would read as out of memory. errno is not part of the contract.
 */
struct tried rattle_alloc(size_t n, size_t a) {
    (void)a;
    return answer(malloc(n != 0 ? n : 1));
}

/*
 * The block at p with n bytes; it may move. realloc keeps all bytes that fit, and so the first `kept`, which are at most n. If it fails, the block
 * is as it was. For n = 0 one byte is taken: realloc(p, 0) would free the block and answer null.
 */
struct tried rattle_realloc(unsigned char *p, size_t kept, size_t n, size_t a) {
    (void)kept;
    (void)a;
    return answer(realloc(p, n != 0 ? n : 1));
}

/* Frees what one of the two gave. */
void rattle_dealloc(unsigned char *p) {
    free(p);
}

/* --- the arguments and the environment */

static int arg_number;
static char **args;

/* glibc calls what is in .init_array with the arguments of main, before main. The texts stay where they are until the process ends. */
static void keep_args(int argc, char **argv, char **environment) {
    (void)environment;
    arg_number = argc;
    args = argv;
}

__attribute__((section(".init_array"), used)) static void (*const at_start)(int, char **, char **) = keep_args;

/* How many arguments there are; the program's name is one. */
size_t rattle_arg_count(void) {
    return arg_number > 0 ? (size_t)arg_number : 0;
}

/*
 * Puts a text, without its final 0, at the start of buf, and answers its length. -1: there is no such text, and buf is as it was. -2: it is longer
 * than `room`, and buf holds its first bytes. A length fits ssize_t, as no object has 2^63 bytes.
 */
static ssize_t copy(const char *text, unsigned char *buf, size_t room) {
    if (text == NULL) return -1;
    size_t length = strlen(text);
    memcpy(buf, text, length < room ? length : room);
    return length <= room ? (ssize_t)length : -2;
}

/* Argument i of the program, by `copy`. */
ssize_t rattle_arg(size_t i, unsigned char *buf, size_t room) {
    return copy(i < rattle_arg_count() ? args[i] : NULL, buf, room);
}

/* The value of an environment variable, by `copy`. */
ssize_t rattle_env(const char *name, unsigned char *buf, size_t room) {
    return copy(getenv(name), buf, room);
}

/* Entry i of the environment, NAME=value, by `copy`. The list ends with a null, and may be missing. */
ssize_t rattle_env_at(size_t i, unsigned char *buf, size_t room) {
    size_t n = 0;
    while (environ != NULL && environ[n] != NULL && n < i) n++;
    return copy(environ != NULL ? environ[n] : NULL, buf, room);
}

/* --- errno of the calling thread */

int rattle_errno(void) {
    return errno;
}

void rattle_set_errno(int error) {
    errno = error;
}

/* --- descriptors and names */

/*
 * Sets or clears O_NONBLOCK of the open file of fd. 0, or -1 with errno. FIONBIO does it in one system call: fcntl would read the flags and then
 * write them all, and lose what another thread changes between the two.
 */
int rattle_set_nonblocking(int fd, bool on) {
    int value = on;
    return ioctl(fd, FIONBIO, &value) == 0 ? 0 : -1;
}

/*
 * Puts the first addresses of a host, at most `room`, at the start of found, and answers how many. A failure is the code of getaddrinfo, which is
 * negative in glibc; at EAI_SYSTEM errno says why. Asking for streams gives each address once, and asking for no service gives port 0. Addresses
 * other than IPv4 and IPv6 are passed over. What lies behind an address stays as it was.
 */
ssize_t rattle_lookup_host(const char *name, struct raw_addr *found, size_t room) {
    struct addrinfo wanted = {.ai_family = AF_UNSPEC, .ai_socktype = SOCK_STREAM}, *first = NULL;
    int error = getaddrinfo(name, NULL, &wanted, &first);
    if (error != 0) return error;
    size_t n = 0;
    for (const struct addrinfo *it = first; it != NULL && n < room; it = it->ai_next) {
        bool is_ip = it->ai_family == AF_INET || it->ai_family == AF_INET6;
        if (!is_ip || it->ai_addrlen > sizeof found[n].bytes) continue;
        memcpy(found[n].bytes, it->ai_addr, it->ai_addrlen);
        found[n].len = it->ai_addrlen;
        n++;
    }
    freeaddrinfo(first);
    return (ssize_t)n;
}

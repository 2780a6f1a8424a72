/* Calls the C functions below the toolchain, and prints what each gives, one line a call. tests/arm_calls.py links it with either set of them. */
#define _GNU_SOURCE
#include <errno.h>
#include <fcntl.h>
#include <pthread.h>
#include <stdbool.h>
#include <stdint.h>
#include <stdio.h>
#include <stdlib.h>
#include <string.h>
#include <sys/types.h>
#include <unistd.h>

struct tried {
    bool ok;
    unsigned char *p;
};
struct raw_addr {
    unsigned char bytes[128];
    uint32_t len;
};
struct tried rattle_alloc(size_t n, size_t a);
struct tried rattle_realloc(unsigned char *p, size_t kept, size_t n, size_t a);
void rattle_dealloc(unsigned char *p);
size_t rattle_arg_count(void);
ssize_t rattle_arg(size_t i, unsigned char *buf, size_t room);
ssize_t rattle_env(const char *name, unsigned char *buf, size_t room);
ssize_t rattle_env_at(size_t i, unsigned char *buf, size_t room);
int rattle_errno(void);
void rattle_set_errno(int error);
int rattle_set_nonblocking(int fd, bool on);
ssize_t rattle_lookup_host(const char *name, struct raw_addr *found, size_t room);

#define HUGE ((size_t)1 << 62)

static void arg(size_t i, size_t room) {
    unsigned char buf[16];
    memset(buf, '.', sizeof buf);
    ssize_t length = rattle_arg(i, buf, room);
    printf("arg %zu room %zu: %zd %.16s\n", i, room, length, (const char *)buf);
}

static void variable(const char *name, size_t room) {
    char path[4096] = "";
    unsigned char buf[16];
    snprintf(path, sizeof path, "%s", name);
    memset(buf, '.', sizeof buf);
    ssize_t length = rattle_env(path, buf, room);
    printf("variable %s room %zu: %zd %.16s\n", name, room, length, (const char *)buf);
}

static void entry(size_t i, size_t room) {
    unsigned char buf[16];
    memset(buf, '.', sizeof buf);
    ssize_t length = rattle_env_at(i, buf, room);
    printf("entry %zu room %zu: %zd %.16s\n", i, room, length, (const char *)buf);
}

static void environment(void) {
    char one[] = "A=xyz", two[] = "B=", *all[] = {one, two, NULL};
    environ = all;
    variable("A", 16);
    variable("A", 3);
    variable("A", 2);
    variable("A", 0);
    variable("B", 16);
    variable("C", 16);
    entry(0, 16);
    entry(0, 4);
    entry(1, 16);
    entry(2, 16);
    entry((size_t)-1, 16);
    environ = NULL;
    variable("A", 16);
    entry(0, 16);
}

static void block(const char *what, struct tried it, size_t n, size_t filled, unsigned char byte) {
    size_t same = 0;
    for (size_t i = 0; it.ok && i < filled; i++) same += it.p[i] == byte;
    if (it.ok && n != 0) memset(it.p, byte, n); /* all of it may be written */
    printf("%s: ok %d, null %d, off by %d, kept %zu\n", what, it.ok, it.p == NULL, it.ok ? (int)((uintptr_t)it.p % 16) : 0, same);
}

static void heap(void) {
    const size_t sizes[] = {0, 1, 24, 1048576};
    for (int i = 0; i < 4; i++) {
        char name[32];
        snprintf(name, sizeof name, "alloc %zu", sizes[i]);
        struct tried it = rattle_alloc(sizes[i], 16);
        block(name, it, sizes[i], 0, 0);
        rattle_dealloc(it.p);
    }
    block("alloc too much", rattle_alloc(HUGE, 8), 0, 0, 0);
    struct tried it = rattle_alloc(100, 8);
    block("a block", it, 100, 0, 'x');
    struct tried failed = rattle_realloc(it.p, 100, HUGE, 8);
    printf("realloc too much: ok %d, null %d\n", failed.ok, failed.p == NULL);
    block("as it was", it, 100, 100, 'x');
    it = rattle_realloc(it.p, 100, 100000, 8);
    block("realloc to more", it, 100000, 100, 'x');
    it = rattle_realloc(it.p, 10, 10, 8);
    block("realloc to less", it, 10, 10, 'x');
    it = rattle_realloc(it.p, 0, 0, 8);
    block("realloc to nothing", it, 0, 0, 'x');
    it = rattle_realloc(it.p, 0, 8, 8);
    block("and back", it, 8, 0, 'x');
    rattle_dealloc(it.p);
}

static void *set_other(void *_) {
    (void)_;
    rattle_set_errno(5);
    return NULL;
}

static void errors(void) {
    pthread_t other;
    rattle_set_errno(7);
    pthread_create(&other, NULL, set_other, NULL);
    pthread_join(other, NULL);
    printf("errno: %d, C's %d\n", rattle_errno(), errno);
    errno = 9;
    printf("errno of C: %d\n", rattle_errno());
}

static void nonblocking(void) {
    int ends[2];
    if (pipe(ends) != 0 || fcntl(ends[1], F_SETFL, O_WRONLY | O_APPEND) != 0) exit(3);
    int before = fcntl(ends[1], F_GETFL);
    int on = rattle_set_nonblocking(ends[1], true), flags = fcntl(ends[1], F_GETFL);
    printf("nonblocking: %d, adds %d, drops %d\n", on, (flags & ~before) == O_NONBLOCK, (before & ~flags) != 0);
    int off = rattle_set_nonblocking(ends[1], false);
    printf("blocking: %d, as before %d\n", off, fcntl(ends[1], F_GETFL) == before);
    int bad = rattle_set_nonblocking(-1, true);
    printf("no descriptor: %d, errno %d\n", bad, rattle_errno());
}

static void host(const char *name, size_t room) {
    struct raw_addr found[4];
    char path[4096] = "";
    snprintf(path, sizeof path, "%s", name);
    memset(found, 0xee, sizeof found);
    ssize_t n = rattle_lookup_host(path, found, room);
    printf("host %.20s room %zu: %zd", name, room, n);
    for (ssize_t i = 0; i < n; i++) {
        uint16_t family;
        size_t sum = 0, after = 0;
        memcpy(&family, found[i].bytes, 2);
        for (size_t at = 2; at < found[i].len; at++) sum += found[i].bytes[at];
        for (size_t at = found[i].len; at < 128; at++) after += found[i].bytes[at] == 0xee;
        printf(", family %d len %u port %d sum %zu after %zu", family, found[i].len, found[i].bytes[2] + found[i].bytes[3], sum, after);
    }
    printf(", next %s\n", room < 4 && found[n > 0 ? n : 0].len != 0xeeeeeeee ? "written" : "as it was");
}

int main(void) {
    printf("arguments: %zu\n", rattle_arg_count());
    for (size_t room = 0; room <= 4; room++) arg(1, room);
    arg(2, 0);
    arg(2, 16);
    arg(3, 16);
    arg((size_t)-1, 16);
    environment();
    heap();
    errors();
    nonblocking();
    host("127.0.0.1", 3);
    host("::1", 3);
    host("127.0.0.1", 0);
    host("::1", 1);
    host("", 3);
    host("127.0.0.1:80", 3);
    return 0;
}

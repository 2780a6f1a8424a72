/* Of the C program that bench.py builds: the quantities of notes, their epochs, and the lines of fixes and skies. */
#include <stdint.h>
#include <stdio.h>
#include <stdlib.h>
#include <string.h>
#include <unistd.h>

typedef const unsigned char *Text;
typedef struct { Text at, end; } Field;
typedef struct { int has; int64_t is; } Num; /* a number that may be absent */
enum { GGA, RMC, GLL, GSA, GSV, VTG, ZDA, PVT, SAT, DOP, EOE, OTHER };

typedef struct { uint32_t prn; int el, az, ss, system, svid, signal; char used; } Satellite; /* -1000 or -1: absent */
typedef struct { uint32_t id; int system; } Used;
/* the quantities of a note, and of the running epoch */
typedef struct { Num status, dim, lat, lon, alt_hae, alt_msl, geoid_sep, track, speed, climb, pdop, hdop, vdop, tod, day, itow; int kind; } Said;

static Said now;
static Num tod_tag, itow_tag, epoch_second, known_day, last_tod;
static int64_t epoch_nsec;
static int has_fix, has_sky;
static Satellite *sats;
static size_t sats_len, sats_room;
static Used *used;
static size_t used_len, used_room;

static const Num none = {0, 0};
static const int64_t DAY = 86400LL * 1000000000;
static Num some(int64_t is) { Num n = {1, is}; return n; }

/* ---- output */

static unsigned char out[1 << 16];
static size_t out_len;

static void flush(void) {
    for (size_t at = 0; at < out_len;) {
        ssize_t n = write(1, out + at, out_len - at);
        if (n <= 0) exit(4);
        at += (size_t)n;
    }
    out_len = 0;
}

#define PUT(text) (memcpy(p, text, sizeof(text) - 1), p += sizeof(text) - 1)

#ifdef WIDE
#include "decode_wide.h"
#else
static unsigned char *put_number(unsigned char *p, uint64_t n) {
    unsigned char digits[20];
    int at = 20;
    do digits[--at] = '0' + n % 10; while (n /= 10);
    while (at < 20) *p++ = digits[at++];
    return p;
}

static unsigned char *put_digits(unsigned char *p, uint64_t n, int count) {
    for (int k = count; k--; n /= 10) p[k] = '0' + n % 10;
    return p + count;
}
#endif

static unsigned char *put_scaled(unsigned char *p, int64_t value, int decimals, uint64_t unit) {
    uint64_t n = value < 0 ? -(uint64_t)value : (uint64_t)value;
    if (value < 0) *p++ = '-';
    p = put_number(p, n / unit);
    *p++ = '.';
    return put_digits(p, n % unit, decimals);
}

#define PUT_SCALED_IF(key, n, decimals, unit) if ((n).has) { PUT(",\"" key "\":"); p = put_scaled(p, (n).is, decimals, unit); }
#define PUT_NUMBER(key, n) (PUT(",\"" key "\":"), p = put_number(p, n))

static unsigned char *put_time(unsigned char *p) {
    if (!epoch_second.has) return p;
    int64_t days = epoch_second.is / 86400, s = epoch_second.is % 86400;
    int64_t z = days + 719468, era = z / 146097, doe = z % 146097;
    int64_t yoe = (doe - doe / 1460 + doe / 36524 - doe / 146096) / 365, doy = doe - (365 * yoe + yoe / 4 - yoe / 100);
    int64_t mp = (5 * doy + 2) / 153, month = mp < 10 ? mp + 3 : mp - 9;
    PUT(",\"time\":\"");
    p = put_digits(p, yoe + era * 400 + (month <= 2), 4); *p++ = '-';
    p = put_digits(p, month, 2); *p++ = '-';
    p = put_digits(p, doy - (153 * mp + 2) / 5 + 1, 2); *p++ = 'T';
    p = put_digits(p, s / 3600, 2); *p++ = ':';
    p = put_digits(p, s / 60 % 60, 2); *p++ = ':';
    p = put_digits(p, s % 60, 2); *p++ = '.';
    p = put_digits(p, epoch_nsec / 1000000, 3);
    PUT("Z\"");
    return p;
}

/* ---- epochs */

static void write_fix(void) {
    int mode = 1;
    if (now.lat.has && !(now.status.has && !now.status.is) && !(now.dim.has && now.dim.is == 1))
        mode = now.dim.has ? (int)now.dim.is : now.alt_msl.has || now.alt_hae.has ? 3 : 2;
    if (out_len + 1024 > sizeof out) flush();
    unsigned char *p = out + out_len;
    PUT("{\"class\":\"TPV\",\"device\":\"stdin\",\"mode\":");
    *p++ = '0' + mode;
    p = put_time(p);
    if (mode > 1) {
        PUT_SCALED_IF("lat", now.lat, 9, 1000000000);
        PUT_SCALED_IF("lon", now.lon, 9, 1000000000);
        if (mode > 2) {
            PUT_SCALED_IF("altHAE", now.alt_hae, 3, 1000);
            PUT_SCALED_IF("altMSL", now.alt_msl, 3, 1000);
            PUT_SCALED_IF("geoidSep", now.geoid_sep, 3, 1000);
        }
        PUT_SCALED_IF("track", now.track, 4, 10000);
        PUT_SCALED_IF("speed", now.speed, 3, 1000);
        if (mode > 2) PUT_SCALED_IF("climb", now.climb, 3, 1000);
    }
    PUT("}\r\n");
    out_len = (size_t)(p - out);
}

static int is_used(const Satellite *s) {
    if (s->used) return 1;
    for (size_t k = 0; k < used_len; k++)
        if (used[k].id == s->prn && (used[k].system < 0 || s->system < 0 || used[k].system == s->system)) return 1;
    return 0;
}

static void write_sky(void) {
    size_t count = 0;
    for (size_t k = 0; k < sats_len; k++) count += (size_t)(sats[k].used = (char)is_used(&sats[k]));
    if (out_len + 1024 > sizeof out) flush();
    unsigned char *p = out + out_len;
    PUT("{\"class\":\"SKY\",\"device\":\"stdin\"");
    p = put_time(p);
    PUT_SCALED_IF("pdop", now.pdop, 2, 100);
    PUT_SCALED_IF("hdop", now.hdop, 2, 100);
    PUT_SCALED_IF("vdop", now.vdop, 2, 100);
    PUT_NUMBER("nSat", sats_len);
    PUT_NUMBER("uSat", count);
    PUT(",\"satellites\":[");
    for (size_t k = 0; k < sats_len; k++) {
        const Satellite *s = &sats[k];
        if (k) *p++ = ',';
        PUT("{\"PRN\":"); p = put_number(p, s->prn);
        if (s->el > -1000) { PUT(",\"el\":"); if (s->el < 0) *p++ = '-'; p = put_number(p, (uint64_t)abs(s->el)); }
        if (s->az >= 0) PUT_NUMBER("az", (uint64_t)s->az);
        if (s->ss >= 0) PUT_NUMBER("ss", (uint64_t)s->ss);
        if (s->used) PUT(",\"used\":true"); else PUT(",\"used\":false");
        if (s->system >= 0) { PUT_NUMBER("gnssid", (uint64_t)s->system); PUT_NUMBER("svid", (uint64_t)s->svid); }
        if (s->signal >= 0) PUT_NUMBER("sigid", (uint64_t)s->signal);
        *p++ = '}';
        out_len = (size_t)(p - out);
        if (out_len + 1024 > sizeof out) { flush(); p = out; }
    }
    PUT("]}\r\n");
    out_len = (size_t)(p - out);
}

static void begin_epoch(void) {
    memset(&now, 0, sizeof now);
    tod_tag = itow_tag = epoch_second = none;
    has_fix = has_sky = 0;
    sats_len = used_len = 0;
}

static void close_epoch(void) {
    if (has_fix) write_fix();
    if (has_sky) write_sky();
    begin_epoch();
}

static void add_satellite(Satellite s) {
    for (size_t k = 0; k < sats_len; k++)
        if (sats[k].prn == s.prn && sats[k].system == s.system && sats[k].signal == s.signal) return;
    if (sats_len == sats_room) {
        sats_room = sats_room ? 2 * sats_room : 64;
        if (!(sats = realloc(sats, sats_room * sizeof *sats))) exit(7);
    }
    sats[sats_len++] = s;
}

static void add_used(uint32_t id, int system) {
    for (size_t k = 0; k < used_len; k++)
        if (used[k].id == id && used[k].system == system) return;
    if (used_len == used_room) {
        used_room = used_room ? 2 * used_room : 64;
        if (!(used = realloc(used, used_room * sizeof *used))) exit(7);
    }
    used[used_len].id = id;
    used[used_len++].system = system;
}

/* the calendar goes on, and an epoch closes if this note begins another */
static void meet(const Said *note) {
    if (!note->day.has) {
        if (last_tod.has && note->tod.has && last_tod.is - note->tod.is > DAY / 2 && known_day.has)
            known_day = known_day.is < 47482 ? some(known_day.is + 1) : none;
    } else known_day = note->day;
    if (note->tod.has) last_tod = note->tod;
    Num tag = note->itow.has ? itow_tag : tod_tag, own = note->itow.has ? note->itow : note->kind <= GLL && note->kind != GSA ? note->tod : note->kind == ZDA ? note->tod : none;
    if (own.has && tag.has && tag.is != own.is) close_epoch();
    if (own.has) { if (note->itow.has) itow_tag = own; else tod_tag = own; }
}

#define RENEW(quantity) if (note->quantity.has) now.quantity = note->quantity
static void grow(const Said *note) {
    has_fix |= note->kind == GGA || note->kind == RMC || note->kind == GLL || note->kind == ZDA || note->kind == PVT;
    has_sky |= note->kind == GSV || note->kind == SAT;
    if (note->tod.has) {
        epoch_second = known_day.has ? some(86400 * known_day.is + note->tod.is / 1000000000) : none;
        epoch_nsec = note->tod.is % 1000000000;
    }
    RENEW(status); RENEW(dim); RENEW(lat); RENEW(lon); RENEW(alt_hae); RENEW(alt_msl); RENEW(geoid_sep);
    RENEW(track); RENEW(speed); RENEW(climb); RENEW(pdop); RENEW(hdop); RENEW(vdop);
}

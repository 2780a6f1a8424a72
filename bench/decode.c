/* The work of `gpsrelay decode` as a careful C program does it: a yardstick for bench.py, which builds it with `cc -O2`.
 *
 * It cuts sentences of NMEA 0183 and u-blox frames with right checksums out of standard input, reads GGA, RMC, GLL, GSA, GSV, VTG, ZDA,
 * NAV-PVT, NAV-SAT, NAV-DOP and NAV-EOE, groups them into epochs, and writes the same lines for the fixes and skies. With `-DWIDE` its inner
 * loops take sixteen bytes at a time, which makes a second program to compare with (decode_wide.h, for x86-64). Left out: the limit
 * of the history, and any care for hostile input (an epoch with many satellites takes quadratic time). At a failed read it writes the
 * epoch that is open, too. tests/rows_c.py runs the rows of `decode` over it.
 */
#include "decode_epochs.h"

/* ---- dates */

static Num day_of(int64_t y, int64_t m, int64_t d) {
    static const int lengths[] = {31, 28, 31, 30, 31, 30, 31, 31, 30, 31, 30, 31};
    if (y < 1980 || y > 2099 || m < 1 || m > 12 || d < 1) return none;
    if (d > lengths[m - 1] + (m == 2 && y % 4 == 0)) return none;
    y -= m <= 2;
    int64_t era = y / 400, yoe = y % 400, doy = (153 * (m + (m > 2 ? -3 : 9)) + 2) / 5 + d - 1;
    return some(era * 146097 + yoe * 365 + yoe / 4 - yoe / 100 + doy - 719468);
}

/* ---- sentences */

#ifndef WIDE
static Field next(Text *rest, Text end) {
    Field field = {*rest, *rest};
    if (*rest == end) return field;
    field.at = field.end = *rest + 1;
    while (field.end < end && *field.end != ',') field.end++;
    *rest = field.end;
    return field;
}
#endif

static int is_text(Field f, const char *text) { return f.end - f.at == (long)strlen(text) && !memcmp(f.at, text, strlen(text)); }

/* at most nine digits, and behind a point any number: the value times 10^decimals; counts of digits before and behind, -1 without a point */
#ifdef WIDE
static int numeral_by_bytes
#else
static int numeral
#endif
    (Text at, Text end, int decimals, int64_t *value, int *before, int *behind) {
    int64_t n = 0;
    Text start = at;
    while (at < end && (unsigned)(*at - '0') < 10) n = 10 * n + *at++ - '0';
    if (at - start > 9) return 0;
    *before = (int)(at - start);
    *behind = -1;
    int left = decimals;
    if (at < end) {
        if (*at++ != '.') return 0;
        for (start = at; at < end; at++) {
            if ((unsigned)(*at - '0') >= 10) return 0;
            if (left) n = 10 * n + *at - '0', left--;
        }
        *behind = (int)(at - start);
    }
    while (left--) n *= 10;
    *value = n;
    return 1;
}

static Num scaled(Field f, int decimals) {
    int64_t n;
    int before, behind, minus = f.at < f.end && *f.at == '-';
    if (!numeral(f.at + minus, f.end, decimals, &n, &before, &behind) || before + (behind > 0) == 0) return none;
    return some(minus ? -n : n);
}

static Num digits(Field f, int count, int decimals) {
    int64_t n;
    int before, behind;
    return numeral(f.at, f.end, decimals, &n, &before, &behind) && before == count && behind ? some(n) : none;
}

static Num up_to(Field f, int64_t most, int decimals) {
    Num n = scaled(f, decimals);
    return n.has && n.is >= 0 && n.is <= most ? n : none;
}

static Num angle(Field f, int count, int64_t most, Field side, const char *plus, const char *minus) {
    Num n = digits(f, count, 7);
    int west = is_text(side, minus);
    if (!n.has || !(west || is_text(side, plus))) return none;
    int64_t minutes = n.is % 1000000000, is = n.is - minutes + (10 * minutes + 3) / 6;
    return minutes < 600000000 && is <= most * 1000000000 ? some(west ? -is : is) : none;
}

static void position(Said *note, Field lat, Field north, Field lon, Field east) {
    Num a = angle(lat, 4, 90, north, "N", "S"), b = angle(lon, 5, 180, east, "E", "W");
    if (a.has && b.has) note->lat = a, note->lon = b;
}

/* nanoseconds since the day began; second 60 may pass its end */
static Num clock_of(Field f) {
    Num n = digits(f, 6, 9);
    if (!n.has) return none;
    int64_t t = n.is / 1000000000, h = t / 10000, m = t / 100 % 100, s = t % 100;
    return h <= 23 && m <= 59 && s <= 60 ? some((h * 3600 + m * 60 + s) * 1000000000 + n.is % 1000000000) : none;
}

static void timed(Said *note, Num clock, Num day) {
    if (clock.has) note->tod = some(clock.is % DAY);
    if (day.has) note->day = some(day.is + (clock.has ? clock.is / DAY : 0));
}

static Num plain(Field f, int count) { return f.end - f.at == count ? digits(f, count, 0) : none; }

static Num knots(Field f) {
    Num n = up_to(f, 1000000000, 3);
    return n.has ? some((2 * n.is * 463 + 900) / 1800) : none;
}

static Num status_letter(Field f) { return is_text(f, "A") ? some(1) : is_text(f, "V") ? some(0) : none; }
static int hex_value(int c) { return c >= '0' && c <= '9' ? c - '0' : c >= 'A' && c <= 'F' ? c - 'A' + 10 : c >= 'a' && c <= 'f' ? c - 'a' + 10 : -1; }

static int kind_of(Text a) {
    for (int k = 0; k < 5; k++) if (a[k] < 'A' || a[k] > 'Z') return OTHER;
    if (a[0] == 'P') return OTHER;
    static const char names[] = "GGARMCGLLGSAGSVVTGZDA";
    for (int k = 0; k < 7; k++) if (!memcmp(a + 2, names + 3 * k, 3)) return k;
    return OTHER;
}

static void read_sentence(Text body, Text end) {
#ifdef WIDE
    Text rest = begin_fields(body);
#else
    Text rest = body;
    while (rest < end && *rest != ',') rest++;
#endif
    Said note;
    memset(&note, 0, sizeof note);
    note.kind = rest - body == 5 ? kind_of(body) : OTHER;
    Field f[9];
#define FIELDS(n) for (int k = 0; k < (n); k++) f[k] = next(&rest, end)
    switch (note.kind) {
    case GGA: {
        FIELDS(6);
        next(&rest, end);
        Field hdop = next(&rest, end), alt = next(&rest, end);
        next(&rest, end);
        Field sep = next(&rest, end);
        timed(&note, clock_of(f[0]), none);
        if (f[5].end - f[5].at == 1 && *f[5].at >= '0' && *f[5].at <= '8') note.status = some(*f[5].at != '0');
        if (note.status.is) {
            position(&note, f[1], f[2], f[3], f[4]);
            note.hdop = up_to(hdop, 9999, 2); note.alt_msl = scaled(alt, 3); note.geoid_sep = scaled(sep, 3);
        }
        break;
    }
    case RMC: {
        FIELDS(9);
        Num date = plain(f[8], 6);
        int64_t yy = date.is % 100;
        timed(&note, clock_of(f[0]), date.has ? day_of(yy < 80 ? 2000 + yy : 1900 + yy, date.is / 100 % 100, date.is / 10000) : none);
        note.status = status_letter(f[1]);
        if (note.status.is) {
            position(&note, f[2], f[3], f[4], f[5]);
            note.speed = knots(f[6]); note.track = up_to(f[7], 3600000, 4);
        }
        break;
    }
    case GLL:
        FIELDS(6);
        timed(&note, clock_of(f[4]), none);
        note.status = status_letter(f[5]);
        if (note.status.is) position(&note, f[0], f[1], f[2], f[3]);
        break;
    case VTG:
        FIELDS(5);
        note.track = up_to(f[0], 3600000, 4); note.speed = knots(f[4]);
        break;
    case ZDA: {
        FIELDS(4);
        Num y = plain(f[3], 4), m = up_to(f[2], 12, 0), d = up_to(f[1], 31, 0);
        timed(&note, clock_of(f[0]), y.has && m.has && d.has ? day_of(y.is, m.is, d.is) : none);
        break;
    }
    case GSA: {
        FIELDS(2);
        uint32_t ids[12], count = 0;
        for (int k = 0; k < 12; k++) {
            Num id = up_to(next(&rest, end), 999, 0);
            if (id.has && id.is) ids[count++] = (uint32_t)id.is;
        }
        if (f[1].end - f[1].at == 1 && *f[1].at >= '1' && *f[1].at <= '3') note.dim = some(*f[1].at - '0');
        note.pdop = up_to(next(&rest, end), 9999, 2); note.hdop = up_to(next(&rest, end), 9999, 2); note.vdop = up_to(next(&rest, end), 9999, 2);
        Field system = next(&rest, end);
        static const int systems[] = {0, 6, 2, 3};
        int named = system.end - system.at == 1 && *system.at >= '1' && *system.at <= '4' ? systems[*system.at - '1'] : -1;
        for (uint32_t k = 0; k < count; k++) add_used(ids[k], named);
        break;
    }
    case GSV: {
        FIELDS(3);
        int system = !memcmp(body, "GP", 2) ? 0 : !memcmp(body, "GL", 2) ? 6 : !memcmp(body, "GA", 2) ? 2 : !memcmp(body, "GB", 2) ? 3 : -1, signal = -1;
        size_t count = 0;
#ifdef WIDE
        count = fields_left(&f[8].at);
#else
        for (Text at = rest; at < end; at++) if (*at == ',') count++, f[8].at = at + 1;
#endif
        if (count % 4 == 1 && end - f[8].at == 1) signal = hex_value(*f[8].at);
        for (size_t k = 0; k < count / 4; k++) {
            Num id = up_to(next(&rest, end), 999, 0), el = scaled(next(&rest, end), 0), az = up_to(next(&rest, end), 360, 0), ss = up_to(next(&rest, end), 99, 0);
            if (!id.has || !id.is) continue;
            Satellite s = {(uint32_t)id.is, el.has && el.is >= -90 && el.is <= 90 ? (int)el.is : -1000, az.has ? (int)az.is : -1, ss.has ? (int)ss.is : -1, system, (int)id.is, signal, 0};
            add_satellite(s);
        }
        break;
    }
    }
    meet(&note);
    grow(&note);
}

/* ---- frames */

static uint32_t u4(Text p) { uint32_t n; memcpy(&n, p, 4); return n; } /* the least byte first, as here */
static int32_t i4(Text p) { return (int32_t)u4(p); }
static uint16_t u2(Text p) { uint16_t n; memcpy(&n, p, 2); return n; }

static void pvt(Said *note, Text p) {
    if ((p[11] & 3) == 3) {
        Num date = day_of(u2(p + 4), p[6], p[7]);
        int32_t nano = i4(p + 16);
        if (date.has && p[8] <= 23 && p[9] <= 59 && p[10] <= 60 && nano >= -1000000000 && nano <= 1000000000) {
            int64_t since = DAY + (3600LL * p[8] + 60 * p[9] + p[10]) * 1000000000 + nano, day = date.is + since / DAY - 1;
            if (day >= 3652 && day <= 47481) note->tod = some(since % DAY), note->day = some(day);
        }
    }
    int mode = !(p[21] & 1) ? 1 : p[20] == 2 ? 2 : p[20] == 3 || p[20] == 4 ? 3 : 1;
    note->status = some(mode != 1);
    note->dim = some(mode);
    note->pdop = some(u2(p + 76));
    if (mode == 1) return;
    int64_t lon = i4(p + 24), lat = i4(p + 28), heading = i4(p + 64);
    if (lat >= -900000000 && lat <= 900000000 && lon >= -1800000000 && lon <= 1800000000) note->lat = some(100 * lat), note->lon = some(100 * lon);
    note->alt_hae = some(i4(p + 32));
    note->alt_msl = some(i4(p + 36));
    note->geoid_sep = some((int64_t)i4(p + 32) - i4(p + 36));
    if (heading >= -18000000 && heading <= 36000000) note->track = some(((heading < 0 ? heading + 36000000 : heading) + 5) / 10);
    if (i4(p + 60) >= 0) note->speed = some(i4(p + 60));
    note->climb = some(-(int64_t)i4(p + 56));
}

static void read_frame(Text frame, size_t len) {
    Text p = frame + 6;
    size_t size = len - 8;
    Said note;
    memset(&note, 0, sizeof note);
    note.kind = OTHER;
    if (frame[2] == 1) {
        if (frame[3] == 0x07 && size == 92) note.kind = PVT, pvt(&note, p);
        if (frame[3] == 0x35 && size >= 6 && size == 8 + 12 * (size_t)p[5]) note.kind = SAT;
        if (frame[3] == 0x04 && size == 18) note.kind = DOP, note.pdop = some(u2(p + 6)), note.vdop = some(u2(p + 10)), note.hdop = some(u2(p + 12));
        if (frame[3] == 0x61 && size == 4) note.kind = EOE;
    }
    if (note.kind == PVT || note.kind == SAT || note.kind == DOP) note.itow = some(u4(p));
    meet(&note);
    if (note.kind == SAT)
        for (Text g = p + 8; g < p + size; g += 12) {
            int el = (signed char)g[3], az = (int16_t)u2(g + 4);
            Satellite s = {g[1] + 100u * g[0], el >= -90 && el <= 90 ? el : -1000, az >= 0 && az <= 360 ? az : -1, g[2], g[0], g[1], -1, g[8] >> 3 & 1};
            add_satellite(s);
        }
    grow(&note);
    if (note.kind == EOE) close_epoch();
}

/* ---- packets: the bytes that are taken from `at` on, 0 if more must come first */

#ifdef WIDE
static unsigned char in[INPUT_SIZE + INPUT_BEHIND];
#endif

static size_t take_sentence(Text at, size_t left) {
    size_t len = 0;
    unsigned sum = 0;
    Text body = at + 1;
#ifdef WIDE
    len = body_length(body, left - 1, &sum);
    if (len > LONGEST_BODY) return 1;
#else
    while (len + 1 < left && body[len] >= ' ' && body[len] <= '~' && body[len] != '$' && body[len] != '*') {
        if (len == 123) return 1;
        sum ^= body[len++];
    }
#endif
    if (len + 1 == left) return 0;
    if (body[len] != '*' || !len) return 1;
    Text p = body + len + 1;
    size_t behind = left - len - 2;
    if (behind == 0) return 0;
    if (hex_value(p[0]) < 0) return 1;
    if (behind == 1) return 0;
    if (hex_value(p[1]) < 0) return 1;
    if (behind == 2) return 0;
    size_t returns = p[2] == '\r' && len < 123;
    if (returns && behind == 3) return 0;
    if (p[2 + returns] != '\n' || (unsigned)(16 * hex_value(p[0]) + hex_value(p[1])) != sum) return 1;
    read_sentence(body, body + len);
    return len + 5 + returns;
}

static size_t take_frame(Text at, size_t left) {
    if (left < 2) return 0;
    if (at[1] != 0x62) return 1;
    if (left < 6) return 0;
    size_t len = u2(at + 4);
    if (len > 2048) return 1;
    if (left < len + 8) return 0;
    unsigned char a = 0, b = 0;
#ifdef WIDE
    sums_of(in, (size_t)(at - in) + 2, len + 4, &a, &b);
#else
    for (size_t k = 2; k < len + 6; k++) b += a += at[k];
#endif
    if (a != at[len + 6] || b != at[len + 7]) return 1;
    read_frame(at, len + 8);
    return len + 8;
}

int main(void) {
#ifdef WIDE
    const size_t room = INPUT_SIZE;
    begin_loops();
#else
    static unsigned char in[1 << 15];
    const size_t room = sizeof in;
#endif
    size_t len = 0;
    ssize_t n;
    begin_epoch();
    while ((n = read(0, in + len, room - len)) > 0) {
        len += (size_t)n;
        size_t at = 0;
#ifdef WIDE
        begin_input();
#endif
        while (at < len) {
            size_t took = in[at] == '$' ? take_sentence(in + at, len - at) : in[at] == 0xB5 ? take_frame(in + at, len - at) : 1;
            if (!took) break;
            at += took;
        }
        memmove(in, in + at, len -= at);
    }
    close_epoch();
    flush();
    return n < 0 ? 3 : 0;
}

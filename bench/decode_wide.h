/* Inner loops for decode.c by sixteen bytes and by tables, for x86-64, in place of its own byte by byte: for `cc -O2 -DWIDE`.
 *
 * Up to sixteen bytes behind the input are read, and none of them counts. Up to four bytes behind a number are written over.
 */
#include <emmintrin.h>

#define LONGEST_BODY 123 /* of a sentence */
#define INPUT_SIZE (1 << 15)
#define INPUT_BEHIND 32 /* bytes that may be read behind the input */

static int numeral_by_bytes(Text at, Text end, int decimals, int64_t *value, int *before, int *behind);

/* ---- input */

static unsigned char commas[LONGEST_BODY + 17]; /* where a body's commas are; behind them its length */
static int comma_count, comma;                  /* how many, and the next one */
static Text comma_body;
static unsigned char sum_a[INPUT_SIZE + 1], sum_b[INPUT_SIZE + 1]; /* the sums of the first bytes of the input, as many as were needed */
static size_t summed;

static char numbers[1000][4], pairs[100][2]; /* 0 to 999 from the left, 00 to 99 */
static unsigned char number_length[1000];

static void begin_loops(void) {
    for (int n = 0; n < 1000; n++) {
        char text[8];
        number_length[n] = (unsigned char)sprintf(text, "%d", n);
        memcpy(numbers[n], text, 4);
    }
    for (int n = 0; n < 100; n++) pairs[n][0] = (char)('0' + n / 10), pairs[n][1] = (char)('0' + n % 10);
}

/* the input is another one */
static void begin_input(void) { summed = 0; }

static unsigned mask_of(__m128i bytes, char wanted) { return (unsigned)_mm_movemask_epi8(_mm_cmpeq_epi8(bytes, _mm_set1_epi8(wanted))); }

/* a bit for each byte that is none of a body: below ' ' as signed bytes, so those from 128 on too, and three more */
static unsigned mask_of_end(__m128i bytes) {
    unsigned below = (unsigned)_mm_movemask_epi8(_mm_cmplt_epi8(bytes, _mm_set1_epi8(' ')));
    return below | mask_of(bytes, 127) | mask_of(bytes, '$') | mask_of(bytes, '*');
}

/* the bytes of a sentence's body from here on, at most one more than are allowed, and their sum */
static size_t body_length(Text body, size_t left, unsigned *sum) {
    static const unsigned char ones[32] = {255, 255, 255, 255, 255, 255, 255, 255, 255, 255, 255, 255, 255, 255, 255, 255};
    __m128i all = _mm_setzero_si128();
    size_t len = 0;
    unsigned end = 0;
    comma_count = 0;
    comma_body = body;
    while (!end && len <= LONGEST_BODY && len < left) {
        __m128i bytes = _mm_loadu_si128((const void *)(body + len));
        unsigned found = mask_of(bytes, ','), count = 16;
        end = mask_of_end(bytes);
        if (end) {
            count = (unsigned)__builtin_ctz(end);
            found &= (1u << count) - 1;
            bytes = _mm_and_si128(bytes, _mm_loadu_si128((const void *)(ones + 16 - count)));
        }
        all = _mm_xor_si128(all, bytes);
        for (; found; found &= found - 1) commas[comma_count++] = (unsigned char)(len + (unsigned)__builtin_ctz(found));
        len += count;
    }
    uint64_t sums = (uint64_t)_mm_cvtsi128_si64(_mm_xor_si128(all, _mm_srli_si128(all, 8)));
    sums ^= sums >> 32;
    sums ^= sums >> 16;
    *sum = (unsigned)((sums ^ sums >> 8) & 255);
    if (len > left) len = left;
    if (len > LONGEST_BODY) return LONGEST_BODY + 1;
    commas[comma_count] = (unsigned char)len;
    return len;
}

/* From the sums of the first bytes come those of any stretch. So a false head costs the same, however long it says that it is. */
static void sums_of(Text input, size_t at, size_t n, unsigned char *a, unsigned char *b) {
    for (; summed < at + n; summed++) {
        sum_a[summed + 1] = sum_a[summed] + input[summed];
        sum_b[summed + 1] = sum_b[summed] + sum_a[summed + 1];
    }
    *a = sum_a[at + n] - sum_a[at];
    *b = (unsigned char)(sum_b[at + n] - sum_b[at] - n * sum_a[at]);
}

/* ---- fields */

/* where the first comma of a body is, or its end */
static Text begin_fields(Text body) {
    comma = 0;
    return body + commas[0];
}

static Field next(Text *rest, Text end) {
    Field field = {end, end};
    if (comma == comma_count) return field;
    field.at = comma_body + commas[comma++] + 1;
    field.end = comma_body + commas[comma];
    *rest = field.end;
    return field;
}

/* how many fields are left, and where the last one begins */
static size_t fields_left(Text *last) {
    if (comma_count) *last = comma_body + commas[comma_count - 1] + 1;
    return (size_t)(comma_count - comma);
}

static const uint64_t ZEROS = 0x3030303030303030; /* eight times '0' */

static uint64_t eight(Text at) { uint64_t bytes; memcpy(&bytes, at, 8); return bytes; }

/* n digits behind zeros, and before zeros; eight in all, the first in the lowest byte */
static uint64_t behind_zeros(Text at, unsigned n) { return n ? eight(at) << 8 * (8 - n) | (n < 8 ? ZEROS >> 8 * n : 0) : ZEROS; }
static uint64_t before_zeros(Text at, unsigned n) {
    uint64_t theirs = n < 8 ? ((uint64_t)1 << 8 * n) - 1 : ~(uint64_t)0;
    return (eight(at) & theirs) | (ZEROS & ~theirs);
}

static int are_digits(uint64_t bytes) {
    return !(((bytes ^ ZEROS) | ((bytes ^ ZEROS) + 0x0606060606060606)) & 0xF0F0F0F0F0F0F0F0);
}

/* the number of eight digits: pairs, then fours, then all */
static int64_t value_of(uint64_t bytes) {
    bytes = (bytes & 0x0F0F0F0F0F0F0F0F) * (1 + (10 << 8)) >> 8;
    bytes = (bytes & 0x00FF00FF00FF00FF) * (1 + (100 << 16)) >> 16;
    return (int64_t)((bytes & 0x0000FFFF0000FFFF) * (1 + ((uint64_t)10000 << 32)) >> 32);
}

static int numeral(Text at, Text end, int decimals, int64_t *value, int *before, int *behind) {
    static const int64_t powers[] = {1, 10, 100, 1000, 10000, 100000, 1000000, 10000000, 100000000, 1000000000};
    size_t len = (size_t)(end - at);
    if (len > 16) return numeral_by_bytes(at, end, decimals, value, before, behind);
    unsigned point = mask_of(_mm_loadu_si128((const void *)at), '.') & ((1u << len) - 1);
    unsigned whole = point ? (unsigned)__builtin_ctz(point) : (unsigned)len, rest = point ? (unsigned)len - whole - 1 : 0;
    if (whole > 8 || rest > 8) return numeral_by_bytes(at, end, decimals, value, before, behind);
    uint64_t left = behind_zeros(at, whole), right = before_zeros(at + whole + 1, rest);
    if (!are_digits(left) || !are_digits(right)) return 0;
    *value = value_of(left) * powers[decimals];
    if (rest) *value += decimals > 8 ? value_of(right) * powers[decimals - 8] : value_of(right) / powers[8 - decimals];
    *before = (int)whole;
    *behind = point ? (int)rest : -1;
    return 1;
}

/* ---- output */

static unsigned char *put_number(unsigned char *p, uint64_t n) {
    if (n > 999) {
        p = put_number(p, n / 1000);
        *p++ = (unsigned char)('0' + n / 100 % 10);
        memcpy(p, pairs[n % 100], 2);
        return p + 2;
    }
    memcpy(p, numbers[n], 4);
    return p + number_length[n];
}

static unsigned char *put_digits(unsigned char *p, uint64_t n, int count) {
    int k = count;
    for (; k > 1; n /= 100) memcpy(p + (k -= 2), pairs[n % 100], 2);
    if (k) *p = (unsigned char)('0' + n % 10);
    return p + count;
}

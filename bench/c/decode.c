/* `decode` as fast as plain C does it, by hand and with nothing proved: what rdsrt's decode is measured against. It
 * writes what `rdsrt decode --pi PI --m M` writes, except that each fault is one line of standard output.
 *
 * usage: decode PI M < LOG     built by bench/all: cc -O3 -march=x86-64-v2
 */
#include <stdint.h>
#include <stdio.h>
#include <stdlib.h>
#include <string.h>
#include <unistd.h>
#include <immintrin.h>

#define CHUNK 65536
#define ROOM 65536
static unsigned char in[64 + CHUNK + 128];     /* what a read left over of a line stands before the chunk */
static unsigned char out[ROOM + 4096];
static size_t out_at;
static uint64_t slot;

struct held { uint8_t bytes[64]; uint64_t end; uint32_t mask; uint32_t flag; int whole; };
static struct held text, name;
static uint64_t next_end = UINT64_MAX;          /* the least of both ends */
static uint32_t pi, dwell;
static struct { int is, toggle, running, c1, s1, e1, c2, s2, e2; } pair;
static int knows;

/* what was shown */
static struct view { int text_n, name_n, item, one_n, one_c, two_n, two_c; uint8_t text[64], name[8], one[64], two[64]; } shown = {-1,-1,-1,-1,0,-1,0};

static void flush(void) {
    size_t at = 0;
    while (at < out_at) { ssize_t n = write(1, out + at, out_at - at); if (n <= 0) exit(1); at += (size_t)n; }
    out_at = 0;
}

static void puts_(const char *s) { size_t n = strlen(s); memcpy(out + out_at, s, n); out_at += n; }
static void number(uint64_t n) { char b[24]; int i = 24; do b[--i] = '0' + n % 10; while (n /= 10); memcpy(out + out_at, b + i, 24 - i); out_at += 24 - i; }
static void quoted(const uint8_t *b, int n) {
    puts_(" \"");
    for (int i = 0; i < n; i++) {
        if (b[i] >= 32 && b[i] < 127 && b[i] != '"' && b[i] != '\\' && b[i] != '$' && b[i] != '^' && b[i] != '`' && b[i] != '~') out[out_at++] = b[i];
        else { static const char h[] = "0123456789ABCDEF"; out[out_at++] = '\\'; out[out_at++] = 'x'; out[out_at++] = h[b[i] >> 4]; out[out_at++] = h[b[i] & 15]; }
    }
    puts_("\"");
}
static void line(const char *part) { number(slot); puts_(" "); puts_(part); }

static int text_length(const struct held *h) {
    __m128i cr = _mm_set1_epi8(13);
    uint64_t m = 0;
    for (int i = 0; i < 4; i++)
        m |= (uint64_t)(uint16_t)_mm_movemask_epi8(_mm_cmpeq_epi8(_mm_loadu_si128((const __m128i *)(h->bytes + 16 * i)), cr)) << (16 * i);
    uint64_t x = h->mask;
    x = (x | x << 24) & 0x000000FF000000FFull; x = (x | x << 12) & 0x000F000F000F000Full;
    x = (x | x << 6) & 0x0303030303030303ull; x = (x | x << 3) & 0x1111111111111111ull;
    x |= x << 1; x |= x << 2;
    uint64_t place = (m & x) ? (uint64_t)__builtin_ctzll(m & x) : 64, ones = ~x ? (uint64_t)__builtin_ctzll(~x) : 64;
    return place <= ones ? (int)place : -1;
}

static void piece(int c, int s, int e, struct view *v, int second) {
    int n = -1;
    uint8_t *to = second ? v->two : v->one;
    if (v->text_n >= 0 && pair.is && c && s + e + 1 <= v->text_n) { n = e + 1; memcpy(to, v->text + s, (size_t)n); }
    if (second) { v->two_n = n; v->two_c = n < 0 ? 0 : c; } else { v->one_n = n; v->one_c = n < 0 ? 0 : c; }
}
static const char *classes[12] = {0, "ITEM.TITLE", "ITEM.ALBUM", "ITEM.TRACKNUMBER", "ITEM.ARTIST", "ITEM.COMPOSITION", "ITEM.MOVEMENT",
    "ITEM.CONDUCTOR", "ITEM.COMPOSER", "ITEM.BAND", "ITEM.COMMENT", "ITEM.GENRE"};

static __attribute__((noinline)) void show(void) {
    struct view v;
    v.text_n = text.whole; if (v.text_n >= 0) memcpy(v.text, text.bytes, 64);
    v.name_n = name.whole; memcpy(v.name, name.bytes, 8);
    v.item = v.text_n >= 0 && pair.is ? pair.toggle * 2 + pair.running : -1;
    piece(pair.c1, pair.s1, pair.e1, &v, 0); piece(pair.c2, pair.s2, pair.e2, &v, 1);
    if (v.text_n != shown.text_n || (v.text_n > 0 && memcmp(v.text, shown.text, (size_t)v.text_n))) {
        line("text"); if (v.text_n < 0) puts_(" none"); else quoted(v.text, v.text_n); puts_("\n"); }
    if (v.name_n != shown.name_n || (v.name_n > 0 && memcmp(v.name, shown.name, 8))) {
        line("name"); if (v.name_n < 0) puts_(" none"); else quoted(v.name, 8); puts_("\n"); }
    if (v.item != shown.item) { line("item"); if (v.item < 0) puts_(" none"); else { puts_(v.item & 2 ? " 1" : " 0"); puts_(v.item & 1 ? " 1" : " 0"); } puts_("\n"); }
    for (int t = 0; t < 2; t++) {
        int n = t ? v.two_n : v.one_n, c = t ? v.two_c : v.one_c, n0 = t ? shown.two_n : shown.one_n, c0 = t ? shown.two_c : shown.one_c;
        uint8_t *b = t ? v.two : v.one, *b0 = t ? shown.two : shown.one;
        if (n == n0 && c == c0 && (n <= 0 || !memcmp(b, b0, (size_t)n))) continue;
        line(t ? "tag2" : "tag1");
        if (n < 0) puts_(" none");
        else { puts_(" "); if (c < 12) puts_(classes[c]); else number((uint64_t)c); quoted(b, n); }
        puts_("\n");
    }
    shown = v;
    if (out_at > ROOM - 4096) flush();
}

static __attribute__((noinline)) int expire(void) {
    int gone = 0;
    if (slot >= text.end) { gone |= text.whole >= 0; text.mask = 0; text.whole = -1; text.end = UINT64_MAX; pair.is = 0; }
    if (slot >= name.end) { gone |= name.whole >= 0; name.mask = 0; name.whole = -1; name.end = UINT64_MAX; }
    next_end = text.end < name.end ? text.end : name.end;
    return gone;
}
static inline void renew(struct held *h, uint64_t other) { h->end = slot + dwell; next_end = h->end < other ? h->end : other; }

static inline int take(struct held *h, uint32_t address, uint32_t bytes, uint32_t flag, int is_text) {
    uint32_t at;
    memcpy(&at, h->bytes + 4 * address, 4);
    h->end = slot + dwell;
    if (__builtin_expect(at == bytes && h->flag == flag && (h->mask >> address & 1), 1)) return 0;
    int was = h->whole;
    if (h->flag != flag) { h->mask = 0; h->flag = flag; if (is_text) pair.is = 0; }
    memcpy(h->bytes + 4 * address, &bytes, 4);
    h->mask |= 1u << address;
    h->whole = is_text ? text_length(h) : (h->mask & 3) == 3 ? 8 : -1;
    return was >= 0 || h->whole >= 0;
}

/* Takes a slot that brought four words; the first is in the low bits of w. Returns whether the view can have changed. */
static inline int hear(uint64_t w) {
    uint32_t second = w >> 16 & 0xFFFF, c = w >> 32 & 0xFFFF, d = w >> 48;
    switch (second >> 11) {
    case 4: { int r = take(&text, second & 15, __builtin_bswap32(c << 16 | d), second >> 4 & 1, 1); next_end = text.end < name.end ? text.end : name.end; return r; }
    case 20: { int r = take(&name, second & 1, __builtin_bswap32(c << 16 | d), second >> 4 & 1, 0); next_end = text.end < name.end ? text.end : name.end; return r; }
    case 6: { int code = (second & 31) == 22, aid = d == 0x4BD7;
        if (code && aid) { knows = 1; return 0; }
        if (code || aid) { knows = 0; pair.is = 0; return 1; }
        return 0; }
    case 22: if (knows && text.end != UINT64_MAX) {
        uint64_t b = (uint64_t)(second & 31) << 32 | c << 16 | d;
        int toggle = b >> 36 & 1, running = b >> 35 & 1, c1 = b >> 29 & 63, s1 = b >> 23 & 63, e1 = b >> 17 & 63, c2 = b >> 11 & 63, s2 = b >> 5 & 63, e2 = b & 31;
        if (!c1) s1 = e1 = 0;
        if (!c2) s2 = e2 = 0;
        if (pair.is && pair.toggle == toggle && pair.running == running && pair.c1 == c1 && pair.s1 == s1 && pair.e1 == e1 && pair.c2 == c2 && pair.s2 == s2 && pair.e2 == e2) return 0;
        pair.is = 1; pair.toggle = toggle; pair.running = running; pair.c1 = c1; pair.s1 = s1; pair.e1 = e1; pair.c2 = c2; pair.s2 = s2; pair.e2 = e2;
        return 1; }
        return 0;
    }
    return 0;
}

/* constants that gcc would make anew from immediates in each line; so it reads them from memory */
static __m128i C_ZERO, C_NINE, C_A, C_FIVE, C_LOWER, C_LETTER;
__attribute__((constructor)) static void constants(void) {
    C_ZERO = _mm_set1_epi8('0'); C_NINE = _mm_set1_epi8(9); C_A = _mm_set1_epi8('a'); C_FIVE = _mm_set1_epi8(5);
    C_LOWER = _mm_set1_epi8(32); C_LETTER = _mm_set1_epi8('a' - 10);
}
/* Reads the four blocks at p, p + 5, p + 10 and p + 15. Returns 1 if all are digits, with the first word in the low bits
 * of words, 2 if all are dashes, and 0 else. */
static inline int digits(const unsigned char *p, uint64_t *words) {
#ifdef __SSSE3__
    __m128i a = _mm_loadu_si128((const __m128i *)p), b = _mm_loadu_si128((const __m128i *)(p + 3));
    __m128i x = _mm_or_si128(_mm_shuffle_epi8(a, _mm_setr_epi8(0, 1, 2, 3, 5, 6, 7, 8, 10, 11, 12, 13, -1, -1, -1, -1)),
                             _mm_shuffle_epi8(b, _mm_setr_epi8(-1, -1, -1, -1, -1, -1, -1, -1, -1, -1, -1, -1, 12, 13, 14, 15)));
#else
    uint32_t u[4];
    memcpy(u, p, 4); memcpy(u + 1, p + 5, 4); memcpy(u + 2, p + 10, 4); memcpy(u + 3, p + 15, 4);
    __m128i x = _mm_setr_epi32((int)u[0], (int)u[1], (int)u[2], (int)u[3]);
#endif
    __m128i d = _mm_sub_epi8(x, C_ZERO);                                             /* 0..9 of a digit */
    __m128i lower = _mm_or_si128(x, C_LOWER), l = _mm_sub_epi8(lower, C_A);             /* 0..5 of a letter */
    __m128i is_d = _mm_cmpeq_epi8(_mm_min_epu8(d, C_NINE), d), is_l = _mm_cmpeq_epi8(_mm_min_epu8(l, C_FIVE), l);
    if (__builtin_expect(_mm_movemask_epi8(_mm_or_si128(is_d, is_l)) != 0xFFFF, 0))
        return _mm_movemask_epi8(_mm_cmpeq_epi8(x, _mm_set1_epi8('-'))) == 0xFFFF ? 2 : 0;
    __m128i v = _mm_or_si128(_mm_and_si128(is_d, d), _mm_andnot_si128(is_d, _mm_sub_epi8(lower, C_LETTER)));
#ifdef __SSSE3__
    __m128i bytes = _mm_maddubs_epi16(v, _mm_set1_epi16(0x0110));                                  /* 16 * first + second */
    /* bytes: eight 16-bit lanes, high byte of word 0, low byte of word 0, ..: 256 * high + low */
    __m128i w = _mm_madd_epi16(bytes, _mm_set1_epi32(0x00010100));
    w = _mm_shuffle_epi8(w, _mm_setr_epi8(0, 1, 4, 5, 8, 9, 12, 13, -1, -1, -1, -1, -1, -1, -1, -1));
    *words = (uint64_t)_mm_cvtsi128_si64(w);
#else
    __m128i bytes = _mm_and_si128(_mm_or_si128(_mm_slli_epi16(v, 4), _mm_srli_epi16(v, 8)), _mm_set1_epi16(0xFF));
    __m128i w = _mm_and_si128(_mm_or_si128(_mm_slli_epi32(bytes, 8), _mm_srli_epi32(bytes, 16)), _mm_set1_epi32(0xFFFF));
    __m128i s = _mm_or_si128(w, _mm_srli_epi64(w, 16));                                           /* words 0|1<<16 in each half */
    uint64_t lo = (uint64_t)_mm_cvtsi128_si64(s) & 0xFFFFFFFF, hi = (uint64_t)_mm_cvtsi128_si64(_mm_unpackhi_epi64(s, s)) & 0xFFFFFFFF;
    *words = lo | hi << 32;
#endif
    return 1;
}

/* Returns the first line feed at or after p; there is one. */
static inline const unsigned char *line_feed(const unsigned char *p) {
#ifdef __AVX2__
    __m256i nl = _mm256_set1_epi8('\n');
    for (;; p += 32) {
        uint32_t m = (uint32_t)_mm256_movemask_epi8(_mm256_cmpeq_epi8(_mm256_loadu_si256((const __m256i *)p), nl));
        if (m) return p + __builtin_ctz(m);
    }
#else
    __m128i nl = _mm_set1_epi8('\n');
    for (;; p += 16) {
        uint32_t m = (uint32_t)_mm_movemask_epi8(_mm_cmpeq_epi8(_mm_loadu_si128((const __m128i *)p), nl));
        if (m) return p + __builtin_ctz(m);
    }
#endif
}

static int hex(unsigned char c) { return c - '0' < 10u ? c - '0' : (c | 32) - 'a' < 6u ? (c | 32) - 'a' + 10 : -1; }
static __attribute__((noinline)) int slow(const unsigned char *p, size_t n, uint64_t *words) { /* 0: no slot, 1: a group, 2: no group, -1: bad */
    if (n && p[n - 1] == '\r') n--;
    if (!n || *p == '<' || *p == '#' || *p == '%') return 0;
    if (n < 19 || p[4] != ' ' || p[9] != ' ' || p[14] != ' ' || (n > 19 && p[19] != ' ')) return -1;
    int missing = 0; *words = 0;
    for (int i = 0; i < 4; i++) {
        const unsigned char *q = p + 5 * i; uint32_t w = 0; int ok = 1;
        for (int j = 0; j < 4; j++) { int h = hex(q[j]); if (h < 0) ok = 0; else w = w << 4 | (uint32_t)h; }
        if (ok) *words |= (uint64_t)w << 16 * i; else if (!memcmp(q, "----", 4)) missing = 1; else return -1;
    }
    return missing ? 2 : 1;
}

int main(int argc, char **argv) {
    pi = (uint32_t)strtoul(argv[1], 0, 16); dwell = (uint32_t)atoi(argv[2]); (void)argc;
    text.end = name.end = UINT64_MAX; text.whole = name.whole = -1;
    size_t kept = 0; uint64_t lines = 0;
    unsigned char *base = in + 64;
    for (;;) {
        flush();
        ssize_t n = read(0, base, CHUNK);
        if (n < 0) { puts_("fault read\n"); flush(); return 1; }
        const unsigned char *p = base - kept, *end = base + n;
        int last = 0;
        if (n == 0) { if (!kept) { flush(); return 0; } base[0] = '\n'; end = base + 1; last = 1; }
        else memset(base + n, '\n', 64);           /* a feed stands behind the chunk, so that a search ends */
        for (;;) {
            /* what stands at p: four blocks and a space or an end? A feed inside the first 20 bytes fails one of the tests. */
            uint64_t w; int kind; const unsigned char *feed;
            if (__builtin_expect((p[19] == ' ' || p[19] == '\n') && p[4] == ' ' && p[9] == ' ' && p[14] == ' ' && (kind = digits(p, &w)), 1)) {
                feed = line_feed(p + 19);
                if (__builtin_expect(feed >= end, 0)) break;
            } else {
                feed = line_feed(p);
                if (feed >= end) break;
                kind = slow(p, (size_t)(feed - p), &w);
            }
            lines++;
            p = feed + 1;
            if (__builtin_expect(kind <= 0, 0)) {
                if (!kind) continue;
                puts_("fault line "); number(lines); puts_("\n"); flush(); return 1;
            }
            int changed = 0;
            if (__builtin_expect(slot >= next_end, 0)) changed = expire();
            if (kind == 1 && (w & 0xFFFF) == pi) changed |= hear(w);
            if (__builtin_expect(changed, 0)) show();
            slot++;
        }
        if (last) { flush(); return 0; }
        /* bytes of a line that is begun: only the first 21 and a marker of more would do; long lines are cut to 32 here */
        kept = (size_t)(end - p);
        if (kept > 64) kept = 64;
        memmove(base - kept, p, kept);
    }
}

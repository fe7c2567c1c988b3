// The CAMAC rehearsal in plain C, written from document 01 and requests L1, L3, L4, L6, L7 and L9 of document 02, read as docs/RULES.md has them.
// It shares no code with the proved program, so that the two can be compared, in what they print and in how fast they are.
// Build: gcc -O3 -DSTDIO plain.c has the C library read lines and print numbers, as a C program mostly does; gcc -O3 plain.c does both by hand, to be quick.
// It reads crate.txt and run.txt in the current folder, or the two files named, and prints the sheet.
#define _GNU_SOURCE
#include <errno.h>
#include <fcntl.h>
#include <stdbool.h>
#include <stdint.h>
#include <stdio.h>
#include <stdlib.h>
#include <string.h>
#include <unistd.h>

enum { STATIONS = 23, LAST_LINE = 99999, LONGEST_LINE = 80, MODULUS = 1 << 24, WORD_MAX = MODULUS - 1, MOST_WORDS = 512 };
enum { ADDRESSED = 24, EVERY = 26, COMMON = 28, INTERNAL = 30 }; // the N of a command that is no station's
enum { ALL_STATIONS = (1 << STATIONS) - 1 };
enum { EMPTY, SCALER, OUTPUT, INPUT, BUFFER, COUNTER };
enum {
    GARBLED = 1,
    NO_SUCH_STATION,
    NO_SUCH_SUBADDRESS,
    NO_SUCH_FUNCTION,
    OVERWIDE_WORD,
    CROSSED_RANGE,
    BAD_LENGTH,
    BAD_MODULE = 10,
    OUT_OF_ORDER,
    COVERED_STATION,
    CROSSED_WINDOW = 14
};

struct station {
    uint32_t kind, r, wide, s, status, mask, head, fill, word[16];
};

struct reply {
    uint32_t x, q, r;
};

static struct station crate[STATIONS + 1]; // crate[0], left of station 1, stays empty
static uint32_t inhibit;
static uint32_t station_numbers; // the Station Number Register: bit N-1 for station N

// ---- the sheet ----

#ifdef STDIO
static void flush(void) { fflush(stdout); }
static void make_room(void) {}
#define PUT(text) fputs(text, stdout)
#define PUT_FIELD(key, n) printf(key "%u", (unsigned)(n))
#else
static char sheet[1 << 16];
static char *out = sheet;

static void flush(void)
{
    for (char *from = sheet; from < out;) {
        ssize_t n = write(STDOUT_FILENO, from, out - from);
        if (n < 0 && errno != EINTR) {
            perror("cannot write the sheet");
            exit(1);
        }
        from += n > 0 ? n : 0;
    }
    out = sheet;
}

// Before a line is put: no line has 80 bytes.
static inline void make_room(void)
{
    if (out > sheet + sizeof sheet - 80)
        flush();
}

static const char pairs[] = "0001020304050607080910111213141516171819202122232425262728293031323334353637383940414243444546474849"
                            "5051525354555657585960616263646566676869707172737475767778798081828384858687888990919293949596979899";

static inline int places(uint32_t n)
{
    return n < 10 ? 1 : n < 100 ? 2 : n < 1000 ? 3 : n < 10000 ? 4 : n < 100000 ? 5 : n < 1000000 ? 6 : n < 10000000 ? 7 : 8;
}

static inline void put_number(uint32_t n)
{
    char *p = out += places(n);
    for (; n >= 100; n /= 100)
        memcpy(p -= 2, pairs + n % 100 * 2, 2);
    if (n >= 10)
        memcpy(p - 2, pairs + n * 2, 2);
    else
        p[-1] = '0' + n;
}

#define PUT(text) (memcpy(out, text, sizeof text - 1), out += sizeof text - 1)
#define PUT_FIELD(key, n) (PUT(key), put_number(n))
#endif

// ---- one station ----

// F0, F2 and F3: Q, and the word that is read. X is 1 where A is below r.
static inline bool read_word(struct station *m, uint32_t a, uint32_t f, uint32_t *word)
{
    *word = 0;
    if (a >= m->r || (m->kind == BUFFER && m->fill == 0))
        return false;
    uint32_t *place = &m->word[m->kind == BUFFER ? m->head : a];
    *word = f == 3 ? WORD_MAX - *place : *place;
    if (f == 2) {
        *place = 0;
        if (m->kind == BUFFER) {
            m->head = (m->head + 1) % 16;
            if (--m->fill == 0)
                m->status &= ~1u;
        }
    }
    return true;
}

// F16: whether the module takes it, which is X and Q.
static inline bool write_word(struct station *m, uint32_t a, uint32_t w)
{
    if (a >= m->r || (m->kind != OUTPUT && m->kind != COUNTER))
        return false;
    m->word[a] = w;
    return true;
}

// F9 at A below r.
static void clear(struct station *m, uint32_t a)
{
    if (m->kind == BUFFER) {
        memset(m->word, 0, sizeof m->word);
        m->head = m->fill = 0;
        m->status &= ~1u;
    } else
        m->word[a] = 0;
}

// A scaler's sum, with the carry into its status bit.
static void count(struct station *m, uint32_t a, uint32_t v)
{
    uint32_t sum = m->word[a] + v;
    m->word[a] = sum % MODULUS;
    m->status |= (sum >= MODULUS) << a;
}

static struct reply command(struct station *m, uint32_t a, uint32_t f, uint32_t w)
{
    const struct reply none = {0, 0, 0};
    struct reply reply = {1, 1, 0};
    bool below_r = a < m->r, below_s = a < m->s;
    uint32_t sources = (1u << m->s) - 1; // a mask of the bits that belong to sources

    switch (f) {
    case 0:
    case 2:
    case 3:
        reply.x = below_r;
        reply.q = read_word(m, a, f, &reply.r);
        return reply;
    case 9:
        if (!below_r)
            return none;
        clear(m, a);
        return reply;
    case 16:
        return write_word(m, a, w) ? reply : none;
    case 18:
    case 21:
        if (!below_r || m->kind != OUTPUT)
            return none;
        m->word[a] = f == 18 ? m->word[a] | w : m->word[a] & ~w;
        return reply;
    case 25:
        if (!below_r || m->kind != SCALER)
            return none;
        count(m, a, 1);
        return reply;
    case 8:
        if (!below_s)
            return none;
        reply.q = (m->status & m->mask) >> a & 1;
        return reply;
    case 27:
        if (!below_s)
            return none;
        reply.q = m->status >> a & 1;
        return reply;
    case 10:
        if (!below_s)
            return none;
        m->status &= ~(1u << a);
        return reply;
    case 24:
        if (!below_s)
            return none;
        m->mask &= ~(1u << a);
        return reply;
    case 26:
        if (!below_s)
            return none;
        m->mask |= 1u << a;
        return reply;
    case 1:
        if (!m->s || a < 12 || a > 14)
            return none;
        reply.r = a == 12 ? m->status : a == 13 ? m->mask : m->status & m->mask;
        return reply;
    case 11:
    case 23: // F11 clears all that F23 would with a W of ones
        if (!m->s || a < 12 || a > 13)
            return none;
        *(a == 12 ? &m->status : &m->mask) &= f == 11 ? 0 : ~w;
        return reply;
    case 17:
    case 19:
        if (!m->s || a != 13)
            return none;
        m->mask = (f == 17 ? 0 : m->mask) | (w & sources);
        return reply;
    default:
        return none;
    }
}

// A 24-bit word as a signed number.
static int32_t as_signed(uint32_t word)
{
    return word < MODULUS / 2 ? (int32_t)word : (int32_t)word - MODULUS;
}

// A front event with Inhibit at 0: 0 not taken, 1 taken, 2 taken and a status bit went from 0 to 1, 3 the word was lost.
static uint32_t front(struct station *m, uint32_t a, uint32_t v)
{
    uint32_t before = m->status;
    if (a >= m->r)
        return 0;
    switch (m->kind) {
    case SCALER:
        count(m, a, v);
        break;
    case INPUT:
        m->word[a] = v;
        m->status |= 1u << a;
        break;
    case COUNTER: {
        int32_t old = as_signed(m->word[a]), sum = old + as_signed(v);
        m->word[a] = (uint32_t)sum % MODULUS;
        if (sum < -MODULUS / 2 || sum >= MODULUS / 2 || (sum == 0 && old != 0))
            m->status |= 1u << a;
        break;
    }
    case BUFFER:
        if (m->fill == 16) {
            m->status |= 2;
            return 3;
        }
        m->word[(m->head + m->fill++) % 16] = v;
        m->status |= 1;
        break;
    default:
        return 0;
    }
    return (m->status & ~before) != 0 ? 2 : 1;
}

// ---- the whole crate ----

static void initialize(void)
{
    for (struct station *m = crate + 1; m <= crate + STATIONS; m++) {
        m->status = m->mask = m->head = m->fill = 0;
        memset(m->word, 0, sizeof m->word);
    }
    inhibit = 1;
    station_numbers = 0;
}

static void clear_all(void)
{
    for (struct station *m = crate + 1; m <= crate + STATIONS; m++)
        for (uint32_t a = 0; a < m->r; a++)
            clear(m, a);
}

// A command to each station whose bit is 1; X, Q and R are each the OR of theirs.
static struct reply command_many(uint32_t stations, uint32_t a, uint32_t f, uint32_t w)
{
    struct reply all = {0, 0, 0};
    for (int n = 1; n <= STATIONS; n++)
        if (stations >> (n - 1) & 1) {
            struct reply one = command(&crate[n], a, f, w);
            all.x |= one.x;
            all.q |= one.q;
            all.r |= one.r;
        }
    return all;
}

// A command to the controller itself, N28 or N30.
static struct reply control(uint32_t n, uint32_t a, uint32_t f, uint32_t w)
{
    struct reply reply = {1, 0, 0};
    if (n == COMMON && a == 8 && f == 26)
        initialize();
    else if (n == COMMON && a == 9 && f == 26)
        clear_all();
    else if (n == INTERNAL && a == 9 && (f == 24 || f == 26))
        inhibit = f == 26;
    else if (n == INTERNAL && a == 9 && f == 27)
        reply.q = inhibit;
    else if (n == INTERNAL && a == 8 && f == 16)
        station_numbers = w;
    else
        reply.x = 0;
    return reply;
}

static struct reply send(uint32_t n, uint32_t a, uint32_t f, uint32_t w)
{
    if (n <= STATIONS)
        return command(&crate[n], a, f, w);
    if (n == ADDRESSED || n == EVERY)
        return command_many(n == EVERY ? ALL_STATIONS : station_numbers, a, f, w);
    return control(n, a, f, w);
}

// ---- the steps: each puts what it prints after `step=K`, or answers a refusal number ----

static uint32_t bad_address(uint32_t n, uint32_t a)
{
    return n < 1 || n > STATIONS ? NO_SUCH_STATION : a > 15 ? NO_SUCH_SUBADDRESS : 0;
}

static uint32_t bad_transfer(uint32_t n, uint32_t a, uint32_t f)
{
    uint32_t bad = bad_address(n, a);
    return bad ? bad : f != 0 && f != 2 && f != 3 ? NO_SUCH_FUNCTION : 0;
}

static bool bad_length(uint32_t n, uint32_t most)
{
    return n < 1 || n > most;
}

static uint32_t do_naf(uint32_t n, uint32_t a, uint32_t f, uint32_t w)
{
    bool loads = n == INTERNAL && a == 8 && f == 16; // the Station Number Register, which has 23 bits
    if ((n < 1 || n > STATIONS) && n != ADDRESSED && n != EVERY && n != COMMON && n != INTERNAL)
        return NO_SUCH_STATION;
    if (a > 15)
        return NO_SUCH_SUBADDRESS;
    if (f > 31)
        return NO_SUCH_FUNCTION;
    if (w > (loads ? ALL_STATIONS : WORD_MAX))
        return OVERWIDE_WORD;
    struct reply reply = send(n, a, f, w);
    PUT_FIELD(" x=", reply.x);
    PUT_FIELD(" q=", reply.q);
    PUT_FIELD(" r=", reply.r);
    return 0;
}

static uint32_t do_front(uint32_t n, uint32_t a, uint32_t v)
{
    uint32_t bad = bad_address(n, a);
    if (bad)
        return bad;
    if (v > WORD_MAX)
        return OVERWIDE_WORD;
    PUT_FIELD(" taken=", inhibit ? 0 : front(&crate[n], a, v));
    return 0;
}

static uint32_t do_z(void)
{
    initialize();
    PUT(" done=1");
    return 0;
}

static uint32_t do_c(void)
{
    clear_all();
    PUT(" done=1");
    return 0;
}

static uint32_t do_i(uint32_t v)
{
    if (v > 1)
        return OVERWIDE_WORD;
    inhibit = v;
    PUT(" done=1");
    return 0;
}

static uint32_t do_lam(void)
{
    uint32_t l = 0;
    for (int n = 1; n <= STATIONS; n++)
        l |= (uint32_t)((crate[n].status & crate[n].mask) != 0) << (n - 1);
    PUT_FIELD(" l=", l);
    PUT_FIELD(" count=", __builtin_popcount(l));
    PUT_FIELD(" first=", l ? __builtin_ctz(l) + 1 : 0);
    return 0;
}

static void put_end(uint32_t end, uint32_t words, uint32_t cycles)
{
    PUT_FIELD(" end=", end);
    PUT_FIELD(" words=", words);
    PUT_FIELD(" cycles=", cycles);
}

static void put_words(const uint32_t *words, uint32_t count)
{
    for (uint32_t i = 0; i < count; i++) {
        PUT_FIELD("\nword=", words[i]);
        make_room();
    }
}

static void put_transfer(uint32_t end, const uint32_t *words, uint32_t stored, uint32_t cycles)
{
    put_end(end, stored, cycles);
    put_words(words, stored);
}

// From N, A of a scan or a put to the next: A + 1 after Q = 1, and A0 of N + 1 after Q = 0 or A15.
static inline void next_place(uint32_t *n, uint32_t *a, bool q)
{
    if (q && *a < 15)
        ++*a;
    else {
        ++*n;
        *a = 0;
    }
}

static uint32_t do_scan(uint32_t n, uint32_t a, uint32_t f, uint32_t to, uint32_t limit)
{
    uint32_t bad = bad_transfer(n, a, f), words[MOST_WORDS], stored = 0, cycles = 0;
    if (bad)
        return bad;
    if (to < n || to > STATIONS)
        return CROSSED_RANGE;
    if (bad_length(limit, MOST_WORDS))
        return BAD_LENGTH;
    while (stored < limit && n <= to) {
        bool q = read_word(&crate[n], a, f, &words[stored]);
        cycles++;
        stored += q;
        next_place(&n, &a, q);
    }
    put_transfer(stored == limit ? 1 : 2, words, stored, cycles);
    return 0;
}

static uint32_t do_repeat(uint32_t n, uint32_t a, uint32_t f, uint32_t limit, uint32_t tries)
{
    uint32_t bad = bad_transfer(n, a, f), words[MOST_WORDS], stored = 0, cycles = 0, end = 1;
    if (bad)
        return bad;
    if (bad_length(limit, MOST_WORDS) || bad_length(tries, 4096))
        return BAD_LENGTH;
    while (stored < limit) {
        if (cycles == tries) {
            end = 2;
            break;
        }
        cycles++;
        if (a >= crate[n].r) { // X = 0
            end = 3;
            break;
        }
        stored += read_word(&crate[n], a, f, &words[stored]);
    }
    put_transfer(end, words, stored, cycles);
    return 0;
}

static uint32_t do_stop(uint32_t n, uint32_t a, uint32_t f, uint32_t limit)
{
    uint32_t bad = bad_transfer(n, a, f), words[MOST_WORDS], stored = 0, cycles = 0, end = 1;
    if (bad)
        return bad;
    if (bad_length(limit, MOST_WORDS))
        return BAD_LENGTH;
    while (stored < limit) {
        cycles++;
        if (a >= crate[n].r) { // X = 0
            end = 3;
            break;
        }
        if (!read_word(&crate[n], a, f, &words[stored])) {
            end = 2;
            break;
        }
        stored++;
    }
    put_transfer(end, words, stored, cycles);
    return 0;
}

static uint32_t do_put(uint32_t n, uint32_t a, uint32_t to, uint32_t limit, uint32_t w)
{
    uint32_t bad = bad_address(n, a), used = 0, cycles = 0;
    if (bad)
        return bad;
    if (to < n || to > STATIONS)
        return CROSSED_RANGE;
    if (bad_length(limit, MOST_WORDS))
        return BAD_LENGTH;
    if (w > WORD_MAX)
        return OVERWIDE_WORD;
    while (used < limit && n <= to) {
        bool q = write_word(&crate[n], a, w);
        cycles++;
        used += q;
        next_place(&n, &a, q);
    }
    put_end(used == limit ? 1 : 2, used, cycles);
    return 0;
}

// Lists the registers of scalers, input registers and counters whose value lies from lo to hi, each as its number: station times 16 plus subaddress.
static uint32_t do_within(uint32_t n, uint32_t to, uint32_t lo, uint32_t hi)
{
    uint32_t numbers[STATIONS * 16], listed = 0;
    if (n < 1 || n > STATIONS)
        return NO_SUCH_STATION;
    if (to < n || to > STATIONS)
        return CROSSED_RANGE;
    if (lo > WORD_MAX || hi > WORD_MAX)
        return OVERWIDE_WORD;
    if (lo > hi)
        return CROSSED_WINDOW;
    for (; n <= to; n++) {
        const struct station *m = &crate[n];
        if (m->kind == SCALER || m->kind == INPUT || m->kind == COUNTER)
            for (uint32_t a = 0; a < m->r; a++) {
                numbers[listed] = n * 16 + a;
                listed += lo <= m->word[a] && m->word[a] <= hi;
            }
    }
    PUT_FIELD(" words=", listed);
    put_words(numbers, listed);
    return 0;
}

// ---- lines: every line read stands before an LF, which no key or number holds ----

// The place after a key and its number, or NULL.
static inline const char *field(const char *p, const char *key, size_t length, uint32_t *value)
{
    if (memcmp(p, key, length) != 0)
        return NULL;
    p += length;
    uint32_t v = (uint8_t)*p - '0';
    if (v > 9)
        return NULL;
    for (uint32_t digit; (digit = (uint8_t)*++p - '0') <= 9; v = v * 10 + digit)
        if (v == 0 || v >= 10000000)
            return NULL;
    *value = v;
    return p;
}

#define WORD(text) (memcmp(p, text, sizeof text - 1) == 0 && (p += sizeof text - 1))
#define FIELD(key, value) ((p = field(p, key, sizeof key - 1, &(value))) != NULL)
#define END() (*p == '\n')

// Reads and does the step of a run line: 0, or a refusal number. The longest line in form has 72 bytes, so that none over 80 is.
static uint32_t run_line(const char *p)
{
    uint32_t n, a, f, w, to, limit, tries, lo, hi;

    if (!WORD("op="))
        return GARBLED;
    switch (*p) {
    case 'n':
        if (FIELD("naf n=", n) && FIELD(" a=", a) && FIELD(" f=", f) && FIELD(" w=", w) && END())
            return do_naf(n, a, f, w);
        return GARBLED;
    case 'f':
        if (FIELD("front n=", n) && FIELD(" a=", a) && FIELD(" v=", w) && END())
            return do_front(n, a, w);
        return GARBLED;
    case 'z':
        return WORD("z\n") ? do_z() : GARBLED;
    case 'c':
        return WORD("c\n") ? do_c() : GARBLED;
    case 'i':
        return FIELD("i v=", w) && END() ? do_i(w) : GARBLED;
    case 'l':
        return WORD("lam\n") ? do_lam() : GARBLED;
    case 's':
        if (p[1] == 'c') {
            if (FIELD("scan n=", n) && FIELD(" a=", a) && FIELD(" f=", f) && FIELD(" to=", to) && FIELD(" limit=", limit) && END())
                return do_scan(n, a, f, to, limit);
        } else if (FIELD("stop n=", n) && FIELD(" a=", a) && FIELD(" f=", f) && FIELD(" limit=", limit) && END())
            return do_stop(n, a, f, limit);
        return GARBLED;
    case 'r':
        if (FIELD("repeat n=", n) && FIELD(" a=", a) && FIELD(" f=", f) && FIELD(" limit=", limit) && FIELD(" tries=", tries) && END())
            return do_repeat(n, a, f, limit, tries);
        return GARBLED;
    case 'p':
        if (FIELD("put n=", n) && FIELD(" a=", a) && FIELD(" to=", to) && FIELD(" limit=", limit) && FIELD(" w=", w) && END())
            return do_put(n, a, to, limit, w);
        return GARBLED;
    case 'w':
        if (FIELD("within n=", n) && FIELD(" to=", to) && FIELD(" lo=", lo) && FIELD(" hi=", hi) && END())
            return do_within(n, to, lo, hi);
        return GARBLED;
    default:
        return GARBLED;
    }
}

static bool take_run_line(const char *line, uint32_t k)
{
    make_room();
    PUT_FIELD("step=", k);
    uint32_t refused = run_line(line);
    if (refused)
        PUT_FIELD(" refused=", refused);
    PUT("\n");
    return true;
}

// Reads a crate line and puts its module in: 0, or a refusal number. Lines go upwards, so a module two stations wide always finds the station that it covers empty.
static uint32_t crate_line(const char *p)
{
    static uint32_t previous;
    uint32_t n, kind, r, wide;

    if (!(FIELD("n=", n) && FIELD(" kind=", kind) && FIELD(" r=", r) && FIELD(" wide=", wide) && END()))
        return GARBLED;
    if (n < 1 || n > STATIONS)
        return NO_SUCH_STATION;
    if (n <= previous)
        return OUT_OF_ORDER;
    if (crate[n - 1].wide == 2)
        return COVERED_STATION;
    if (kind < SCALER || kind > COUNTER || r < 1 || r > (kind == BUFFER ? 1 : 16) || wide < 1 || wide > (n == STATIONS ? 1 : 2))
        return BAD_MODULE;
    previous = n;
    crate[n] = (struct station){.kind = kind, .r = r, .wide = wide, .s = kind == OUTPUT ? 0 : kind == BUFFER ? 2 : r};
    return 0;
}

static bool take_crate_line(const char *line, uint32_t k)
{
    uint32_t refused = crate_line(line);
    if (refused) {
        PUT_FIELD("crate=", k);
        PUT_FIELD(" refused=", refused);
        PUT("\n");
    }
    return !refused;
}

// ---- the program ----

// Hands each line of a file to `take` until that answers false, which is then the answer. A missing file is empty.
static inline bool take_file(const char *name, bool take(const char *line, uint32_t k))
{
#ifdef STDIO
    static size_t room = 1 << 16;
    char *line = malloc(room);
    ssize_t n;
    FILE *file = fopen(name, "r");

    if (!file) {
        if (errno != ENOENT)
            perror(name);
        free(line);
        return true;
    }
    for (uint32_t k = 1; k <= LAST_LINE && (n = getline(&line, &room, file)) >= 0; k++) {
        if (line[n - 1] != '\n') { // the last line: a key may be compared past its end
            line = realloc(line, room + 32);
            line[n] = '\n';
        }
        if (!take(line, k))
            return false;
    }
    fclose(file);
    free(line);
    return true;
#else
    enum { PART = 1 << 16, PAST = 16 }; // a key may be compared past the last LF
    static char text[PART + PAST];
    size_t fill = 0;
    ssize_t got = 1;
    uint32_t k = 1;
    int file = open(name, O_RDONLY);

    if (file < 0) {
        if (errno != ENOENT)
            perror(name);
        return true;
    }
    while (got > 0 && k <= LAST_LINE) {
        got = read(file, text + fill, PART - fill);
        if (got < 0)
            perror(name);
        else
            fill += got;
        if (got <= 0 && fill > 0)
            text[fill++] = '\n';
        char *past = memrchr(text, '\n', fill), *line = text;
        past = past ? past + 1 : text;
        for (; line < past && k <= LAST_LINE; k++) {
            if (!take(line, k))
                return false;
            line = (char *)rawmemchr(line, '\n') + 1;
        }
        fill = text + fill - past;
        memmove(text, past, fill);
        if (fill == PART) // all of one line, which is garbled: it is enough to keep that it is too long
            fill = LONGEST_LINE + 1;
    }
    close(file);
    return true;
#endif
}

int main(int count, char **names)
{
    if (take_file(count == 3 ? names[1] : "crate.txt", take_crate_line))
        take_file(count == 3 ? names[2] : "run.txt", take_run_line);
    flush();
    return 0;
}

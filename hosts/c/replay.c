/* Answers a trace through the library, line by line, as the programs trace, trace_z8536 and ctc do:
 *     replay z8036|z8536|ctc < TRACE
 *     replay z8036|z8536|ctc N < TRACE
 * The second prints the state after each N-th line in place of the answers, in hexadecimal, as `states` reads them. */
#include <stdio.h>
#include <stdlib.h>
#include <string.h>

#include "../wolfscarer.h"

enum { Z8036, Z8536, CTC };
static const char *const names[] = {"z8036", "z8536", "ctc"};
static const size_t lengths[] = {WOLFSCARER_Z8036_STATE, WOLFSCARER_Z8536_STATE, WOLFSCARER_CTC_STATE};
static int device;

static int answer_len(void) { return device == CTC ? WOLFSCARER_CTC_ANSWER : WOLFSCARER_ANSWER; }

static int fresh(uint8_t *s, size_t n) {
    if (device == Z8036) return wolfscarer_z8036_fresh(s, n);
    if (device == Z8536) return wolfscarer_z8536_fresh(s, n);
    return wolfscarer_ctc_fresh(s, n);
}

/* A kind of 8 is the end of service of a CTC. */
enum { UNREADABLE = 7, END_OF_SERVICE = 8 };
struct event { uint32_t kind, a, b, c; };

static int call(uint8_t *s, size_t n, struct event e, uint8_t *answer, size_t room) {
    if (device == CTC && e.kind == END_OF_SERVICE) return wolfscarer_ctc_end_of_service(s, n, answer, room);
    if (device == Z8036) return wolfscarer_z8036_event(s, n, e.kind, e.a, e.b, e.c, answer, room);
    if (device == Z8536) return wolfscarer_z8536_event(s, n, e.kind, e.a, e.b, e.c, answer, room);
    return wolfscarer_ctc_event(s, n, e.kind, e.a, e.b, e.c, answer, room);
}

/* ---- a line and what it says */
static int digit(int c) { return c >= '0' && c <= '9' ? c - '0' : c >= 'A' && c <= 'F' ? c - 'A' + 10 : 16; }

/* A space and two capital hexadecimal digits; 256 of any other three bytes. */
static uint32_t byte(const char *w) { return w[0] == ' ' && digit(w[1]) < 16 && digit(w[2]) < 16 ? (uint32_t)(16 * digit(w[1]) + digit(w[2])) : 256; }

/* A space and a decimal number of 32 bits without leading zeros. */
static struct event clocks(const char *w, size_t n) {
    struct event e = {WOLFSCARER_T, 0, 0, 0}, none = {UNREADABLE, 0, 0, 0};
    uint64_t v = 0;
    size_t i;
    if (n < 3 || w[1] != ' ' || (w[2] == '0' && n > 3)) return none;
    for (i = 2; i < n; i++) {
        if (w[i] < '0' || w[i] > '9') return none;
        v = v * 10 + (uint64_t)(w[i] - '0');
        if (v > 4294967295u) return none;
    }
    e.a = (uint32_t)v;
    return e;
}

static struct event meaning(const char *w, size_t n) {
    static const char letters[] = "XWRP.KE";
    static const size_t counts[] = {0, 2, 1, 3, 0, 0, 1};
    struct event e = {UNREADABLE, 0, 0, 0};
    uint32_t v[3] = {0, 0, 0};
    const char *at;
    size_t i;
    if (n == 0 || n > 80 || w[0] == '.' || w[0] == 0) return e;
    if (w[0] == 'T') return clocks(w, n);
    if (device == CTC && n == 1 && w[0] == 'I') {
        e.kind = END_OF_SERVICE;
        return e;
    }
    at = strchr(letters, w[0]);
    if (!at || n != 1 + 3 * counts[at - letters]) return e;
    for (i = 0; i < counts[at - letters]; i++)
        if ((v[i] = byte(w + 1 + 3 * i)) > 255) return e;
    e.kind = (uint32_t)(at - letters);
    e.a = v[0];
    e.b = v[1];
    e.c = v[2];
    return e;
}

/* The next line, of which 81 bytes are kept; -1 at the end. */
static int next_line(char *w) {
    int c = getchar(), n = 0;
    if (c == EOF) return -1;
    for (; c != EOF && c != '\n'; c = getchar())
        if (n < 81) w[n++] = (char)c;
    return n;
}

/* ---- an answer in words */
static unsigned long count(const uint8_t *p) { return (unsigned long)p[0] << 24 | (unsigned long)p[1] << 16 | (unsigned long)p[2] << 8 | p[3]; }

static void print(const uint8_t *a) {
    int i, zeros = device == CTC;
    printf("%d %02X", a[WOLFSCARER_CODE], a[WOLFSCARER_VALUE]);
    if (zeros) printf(" %X %d %d", a[WOLFSCARER_CTC_LEVELS], a[WOLFSCARER_CTC_INT], a[WOLFSCARER_CTC_IEO]);
    else printf(" %02X %02X %X %d %d", a[WOLFSCARER_PINS_A], a[WOLFSCARER_PINS_B], a[WOLFSCARER_PINS_C], a[WOLFSCARER_INT], a[WOLFSCARER_IEO]);
    for (i = 0; i < (zeros ? 4 : 6); i++) printf(" %lu", count(a + (zeros ? WOLFSCARER_CTC_ZEROS : WOLFSCARER_TERMINALS) + 4 * i));
    putchar('\n');
}

/* ---- a state in hexadecimal, after a Z for a Z8536 and a C for a CTC */
static void show(const uint8_t *s, size_t n) {
    size_t i;
    if (device != Z8036) putchar(device == CTC ? 'C' : 'Z');
    for (i = 0; i < n; i++) printf("%02X", s[i]);
    putchar('\n');
}

int main(int argc, char **argv) {
    uint8_t state[WOLFSCARER_Z8536_STATE], answer[WOLFSCARER_ANSWER];
    char w[81];
    long line = 0, every = argc == 3 ? strtol(argv[2], NULL, 10) : 0;
    int n;
    for (device = 0; argc > 1 && device < 3 && strcmp(argv[1], names[device]); device++) {}
    if (argc < 2 || argc > 3 || device == 3 || (argc == 3 && every <= 0)) {
        fprintf(stderr, "replay z8036|z8536|ctc [N] < TRACE\n");
        return 2;
    }
    if (fresh(state, lengths[device])) return 1;
    while ((n = next_line(w)) >= 0) {
        int code = call(state, lengths[device], meaning(w, (size_t)n), answer, (size_t)answer_len());
        if (code != answer[WOLFSCARER_CODE]) return 1;
        if (!every) print(answer);
        else if (++line % every == 0) show(state, lengths[device]);
    }
    return 0;
}

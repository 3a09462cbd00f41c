/* States through the library, a line of hexadecimal digits for each; a Z8536's after a Z, a CTC's after a C:
 *     states < STATES            prints the code of each; for an accepted one 0 and the state that the call leaves
 *     states damaged < STATES    changes every byte of each to every other value, and makes it a byte shorter and longer
 * Each damaged state is to be refused with nothing touched, or accepted as an image that saves to itself; it prints how many. */
#include <stdio.h>
#include <string.h>

#include "../wolfscarer.h"

enum { MOST = 128, CLEAN = 0xEE };
enum { Z8036, Z8536, CTC };
static int device;
static unsigned long refused, accepted, wrong;

/* An event of a kind that there is not: the state is restored, and saved as it is. */
static int look(uint8_t *s, size_t n, uint8_t *answer, size_t room) {
    if (device == Z8536) return wolfscarer_z8536_event(s, n, 7, 0, 0, 0, answer, room);
    if (device == CTC) return wolfscarer_ctc_event(s, n, 7, 0, 0, 0, answer, room);
    return wolfscarer_z8036_event(s, n, 7, 0, 0, 0, answer, room);
}

static int lines(const uint8_t *s, size_t n, uint8_t *answer, size_t room) {
    if (device == Z8536) return wolfscarer_z8536_lines(s, n, answer, room);
    if (device == CTC) return wolfscarer_ctc_lines(s, n, answer, room);
    return wolfscarer_z8036_lines(s, n, answer, room);
}

static int is_clean(const uint8_t *a, size_t n) {
    size_t i;
    for (i = 0; i < n; i++)
        if (a[i] != CLEAN) return 0;
    return 1;
}

/* One state of n bytes: an event, its lines, and an event with too little room. */
static void try_one(const uint8_t *state, size_t n) {
    size_t need = device == CTC ? WOLFSCARER_CTC_ANSWER : WOLFSCARER_ANSWER;
    uint8_t s[MOST], a[MOST], l[MOST], b[MOST];
    int code, told, tight;
    memset(a, CLEAN, sizeof a);
    memset(l, CLEAN, sizeof l);
    memset(b, CLEAN, sizeof b);
    memcpy(s, state, n);
    code = look(s, n, a, need);
    told = lines(state, n, l, WOLFSCARER_LINES);
    tight = look(s, n, b, need - 1);
    if (memcmp(s, state, n) || !is_clean(a + need, sizeof a - need) || !is_clean(l + WOLFSCARER_LINES, sizeof l - WOLFSCARER_LINES) || !is_clean(b, sizeof b)) wrong++;
    else if (code == WOLFSCARER_NO_KIND && a[WOLFSCARER_CODE] == code && told == WOLFSCARER_ACCEPTED && tight == WOLFSCARER_WRONG_LENGTH) accepted++;
    else if (code >= 7 && code <= 9 && told == code && tight == code && is_clean(a, need) && is_clean(l, WOLFSCARER_LINES)) refused++;
    else wrong++;
}

static void damage(uint8_t *s, size_t n) {
    size_t i;
    if (n == 0 || n == MOST) return;
    for (i = 0; i < n; i++) {
        unsigned v, was = s[i];
        for (v = 0; v < 256; v++) {
            s[i] = (uint8_t)v;
            if (v != was) try_one(s, n);
        }
        s[i] = (uint8_t)was;
    }
    try_one(s, n - 1);
    try_one(s, n + 1);
}

static void show(uint8_t *s, size_t n) {
    uint8_t answer[WOLFSCARER_ANSWER];
    int code = look(s, n, answer, sizeof answer);
    size_t i;
    if (code != WOLFSCARER_NO_KIND) {
        printf("%d\n", code);
        return;
    }
    printf("0 ");
    for (i = 0; i < n; i++) printf("%02X", s[i]);
    putchar('\n');
}

static int digit(int c) { return c >= '0' && c <= '9' ? c - '0' : c >= 'A' && c <= 'F' ? c - 'A' + 10 : c >= 'a' && c <= 'f' ? c - 'a' + 10 : 0; }

/* The next state, of which 128 bytes are kept; -1 at the end. */
static int next_state(uint8_t *s) {
    int c = getchar(), n = 0;
    if (c == EOF) return -1;
    device = c == 'Z' ? Z8536 : c == 'C' ? CTC : Z8036;
    if (device != Z8036) c = getchar();
    for (; c != EOF && c != '\n'; c = getchar(), n++)
        if (n < 2 * MOST) s[n / 2] = (uint8_t)(n % 2 ? s[n / 2] + digit(c) : 16 * digit(c));
    return n / 2 < MOST ? n / 2 : MOST;
}

/* The lengths of the header are those of the library. */
static int lengths_agree(void) {
    static const size_t want[] = {WOLFSCARER_Z8036_STATE, WOLFSCARER_Z8036_OLD_STATE, WOLFSCARER_Z8536_STATE, WOLFSCARER_CTC_STATE, WOLFSCARER_ANSWER, WOLFSCARER_CTC_ANSWER, WOLFSCARER_LINES, 0};
    uint32_t i;
    for (i = 0; i < 8; i++)
        if (wolfscarer_length(i) != want[i]) return 0;
    return 1;
}

int main(int argc, char **argv) {
    uint8_t s[MOST + 1];
    int n, damaged = argc == 2 && strcmp(argv[1], "damaged") == 0;
    memset(s, 0, sizeof s);
    if ((argc != 1 && !damaged) || !lengths_agree()) {
        fprintf(stderr, "states [damaged] < STATES, or the header has other lengths than the library\n");
        return 2;
    }
    while ((n = next_state(s)) >= 0) {
        if (damaged) damage(s, (size_t)n);
        else show(s, (size_t)n);
    }
    if (damaged) printf("%lu refused, %lu accepted, %lu wrong\n", refused, accepted, wrong);
    return wrong != 0;
}

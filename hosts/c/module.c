/* A module that draws its starts from Counter/Timer 3: module STATE DRAWS. STATE is the file of the device; where there is none the device
 * is a fresh one. It prints a start for each draw, and saves the device when it has drawn them all. The next run goes on from there. */
#include <stdio.h>
#include <stdlib.h>
#include <string.h>

#include "../wolfscarer.h"

static uint8_t state[WOLFSCARER_Z8036_STATE];
static uint8_t answer[WOLFSCARER_ANSWER];

static void stop(const char *why, int code) {
    fprintf(stderr, "module: %s (code %d)\n", why, code);
    exit(1);
}

/* An event, and the value that it answers. */
static unsigned event(uint32_t kind, uint32_t a, uint32_t b) {
    int code = wolfscarer_z8036_event(state, sizeof state, kind, a, b, 0, answer, sizeof answer);
    if (code != WOLFSCARER_ACCEPTED) stop("the device refused", code);
    return answer[WOLFSCARER_VALUE];
}

/* Counter/Timer 3 continuous, from 65,521 down and on again, and triggered. */
static void set_up(void) {
    static const uint8_t writes[][2] = {
        {0x00, 0x00}, /* out of reset */
        {0x01, 0x10}, /* Counter/Timer 3 enabled */
        {0x1A, 0xFF}, /* its time constant: FFF1, 65,521 */
        {0x1B, 0xF1},
        {0x1E, 0x80}, /* continuous */
        {0x0C, 0x06}  /* gate and trigger */
    };
    size_t i;
    for (i = 0; i < sizeof writes / sizeof writes[0]; i++) event(WOLFSCARER_W, writes[i][0], writes[i][1]);
}

/* The morning: the device of the file, or a fresh one. What the file holds is tested by the first call. */
static void load(const char *path) {
    FILE *f = fopen(path, "rb");
    if (!f) {
        int code = wolfscarer_z8036_fresh(state, sizeof state);
        if (code != WOLFSCARER_ACCEPTED) stop("no fresh device", code);
        set_up();
        return;
    }
    if (fread(state, 1, sizeof state, f) != sizeof state || fgetc(f) != EOF) stop("no state of a Z8036 in the file", WOLFSCARER_WRONG_LENGTH);
    fclose(f);
}

/* The evening: all of the state into a file beside, which then takes the old one's place. */
static void save(const char *path) {
    char beside[4096];
    FILE *f;
    if (snprintf(beside, sizeof beside, "%s.new", path) >= (int)sizeof beside) stop("a long name", 0);
    f = fopen(beside, "wb");
    if (!f || fwrite(state, 1, sizeof state, f) != sizeof state || fclose(f) != 0 || rename(beside, path) != 0) stop("the state was not saved", 0);
}

/* A draw: some clocks go by, an odd number of them, the count is frozen, and its two bytes are the start. */
static unsigned draw(void) {
    unsigned high;
    event(WOLFSCARER_T, 9973, 0);
    event(WOLFSCARER_W, 0x0C, 0x0C);
    high = event(WOLFSCARER_R, 0x14, 0);
    return high * 256 + event(WOLFSCARER_R, 0x15, 0);
}

int main(int argc, char **argv) {
    long n;
    if (argc != 3) {
        fprintf(stderr, "module STATE DRAWS\n");
        return 2;
    }
    load(argv[1]);
    for (n = strtol(argv[2], NULL, 10); n > 0; n--) printf("%u\n", draw());
    save(argv[1]);
    return 0;
}

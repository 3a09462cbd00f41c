/* The proved model of the Z8036, the Z8536 and the Z80 CTC, for a host on x86-64 Linux. `rt lib` in crates/host_c makes the library,
 * crates/host_c/out/libhost_c.a, which a host links as libhost.a; crates/host/src/lib.rt has what each call promises, and is proved to keep it.
 *
 * A device at rest is its image, the state, in a buffer that the host owns. To save the device is to write those bytes to a file; to go on
 * with it is to read them back. A call works on the state where it stands, keeps nothing of its own and allocates nothing.
 *
 * A slice is a pointer and then a length. The pointers are not null, each has as many bytes behind it as its length says, and the two
 * buffers of a call do not overlap: NOTHING CHECKS THIS.
 *
 * Every call returns its code. It tests the state first: 7, 8, 7, 9, then 7 for an answer buffer that is too short. With 7, 8 and 9 neither
 * buffer is written. With any other code both are: the state is the image after the event, which after a refused event is the one it was,
 * and the first bytes of the answer buffer are the answer. A longer answer buffer keeps its other bytes. */
#ifndef WOLFSCARER_H
#define WOLFSCARER_H

#include <stddef.h>
#include <stdint.h>

#ifdef __cplusplus
extern "C" {
#endif

/* The kinds of events and their numbers: X; W address byte; R address; P a b c; T clocks; K; E level. A number that a kind does not use is
 * ignored. A CTC has channels for addresses, and of P only a. */
enum { WOLFSCARER_X, WOLFSCARER_W, WOLFSCARER_R, WOLFSCARER_P, WOLFSCARER_T, WOLFSCARER_K, WOLFSCARER_E };

/* The codes. */
enum {
    WOLFSCARER_ACCEPTED = 0,
    WOLFSCARER_NO_KIND = 1,        /* a kind above 6 */
    WOLFSCARER_NO_REGISTER = 2,    /* W or R: there is no such address */
    WOLFSCARER_READ_ONLY = 3,      /* W: the register is only read */
    WOLFSCARER_UNSUPPORTED = 4,    /* W: a mode that the model has not */
    WOLFSCARER_TOO_LARGE = 5,      /* a number above its range */
    WOLFSCARER_NO_REQUEST = 6,     /* K: nobody requests */
    WOLFSCARER_WRONG_LENGTH = 7,   /* of the state, or an answer buffer that is too short */
    WOLFSCARER_NO_IMAGE = 8,       /* the state does not begin as an image of this device */
    WOLFSCARER_UNSOUND = 9,        /* the state is no image that a device can have */
    WOLFSCARER_NO_ROOM = 10,       /* W: an output port with handshake has no room */
    WOLFSCARER_NO_BYTE = 11        /* R: an input port with handshake has no byte */
};

/* The lengths: of a state, exactly; of an answer, at least. An old Z8036, restored from an image of version 1, has the shorter state. */
enum {
    WOLFSCARER_Z8036_STATE = 96,
    WOLFSCARER_Z8036_OLD_STATE = 84,
    WOLFSCARER_Z8536_STATE = 102,
    WOLFSCARER_CTC_STATE = 41,
    WOLFSCARER_ANSWER = 31,
    WOLFSCARER_CTC_ANSWER = 21,
    WOLFSCARER_LINES = 3
};

/* The library's own word on them: 0 to 6 in the order above, 0 for any other number. */
size_t wolfscarer_length(uint32_t what);

/* Places in the answer of a Z8036 or a Z8536. Counts have four bytes, high byte first; of T alone they are not 0. */
enum {
    WOLFSCARER_CODE = 0,
    WOLFSCARER_VALUE = 1,
    WOLFSCARER_PINS_A = 2,
    WOLFSCARER_PINS_B = 3,
    WOLFSCARER_PINS_C = 4,
    WOLFSCARER_INT = 5,            /* 1: asserted */
    WOLFSCARER_IEO = 6,            /* 1: high */
    WOLFSCARER_TERMINALS = 7,      /* of counter/timers 1, 2, 3: at 7, 11, 15 */
    WOLFSCARER_LOST = 19           /* how many of them were lost: at 19, 23, 27 */
};

/* Places in the answer of a CTC; code and value stand as above. */
enum { WOLFSCARER_CTC_LEVELS = 2, WOLFSCARER_CTC_INT = 3, WOLFSCARER_CTC_IEO = 4, WOLFSCARER_CTC_ZEROS = 5 /* of channels 0 to 3: 5, 9, 13, 17 */ };

/* Places in an answer of lines. The place is the highest requester's in the order of priority, from 1 on, 0 if none requests: CT3, A, CT2,
 * B, CT1, or channels 0 to 3. */
enum { WOLFSCARER_LINES_INT = 0, WOLFSCARER_LINES_IEO = 1, WOLFSCARER_LINES_PLACE = 2 };

/* The fresh device into a buffer of exactly its state's length, else 7 and nothing written. */
uint8_t wolfscarer_z8036_fresh(uint8_t *state, size_t state_len);
uint8_t wolfscarer_z8536_fresh(uint8_t *state, size_t state_len);
uint8_t wolfscarer_ctc_fresh(uint8_t *state, size_t state_len);

/* An event. */
uint8_t wolfscarer_z8036_event(uint8_t *state, size_t state_len, uint32_t kind, uint32_t a, uint32_t b, uint32_t c, uint8_t *answer, size_t answer_len);
uint8_t wolfscarer_z8536_event(uint8_t *state, size_t state_len, uint32_t kind, uint32_t a, uint32_t b, uint32_t c, uint8_t *answer, size_t answer_len);
uint8_t wolfscarer_ctc_event(uint8_t *state, size_t state_len, uint32_t kind, uint32_t a, uint32_t b, uint32_t c, uint8_t *answer, size_t answer_len);

/* The end of service of a CTC, RETI seen on the bus. */
uint8_t wolfscarer_ctc_end_of_service(uint8_t *state, size_t state_len, uint8_t *answer, size_t answer_len);

/* INT, IEO and the highest requester's place, without an event; the state is only read, and the code is 0 where it is not refused. */
uint8_t wolfscarer_z8036_lines(const uint8_t *state, size_t state_len, uint8_t *answer, size_t answer_len);
uint8_t wolfscarer_z8536_lines(const uint8_t *state, size_t state_len, uint8_t *answer, size_t answer_len);
uint8_t wolfscarer_ctc_lines(const uint8_t *state, size_t state_len, uint8_t *answer, size_t answer_len);

#ifdef __cplusplus
}
#endif

#endif

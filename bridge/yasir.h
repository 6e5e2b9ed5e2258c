/* The boxes of a link for C: a transmitter or a receiver, of Modbus RTU or DNP3, with either profile,
 * each in a handle; and the spacer that follows a receiver as a guard, in a handle too. The code
 * behind these functions is written in Rattle and proved (crates yasir_c and any_box).
 * Nothing checks that C keeps to what is said below under "What the caller owes".
 *
 * A tick is one byte time of a line: it carries a byte, or it is silent. A box takes one line tick by
 * tick, and for each tick it returns the tick of the other line at the same place. Ticks are counted
 * from 0, as the box takes them.
 *
 * A number is never used twice. A box keeps the last number that it used in a journal of two slots
 * of 24 bytes, which the caller stores. If a step uses a number, yasir_step withholds the tick and the
 * note of that step, and returns YASIR_COMMIT and the slot to be written. The caller writes the slot,
 * syncs, and tells how that went by yasir_committed. This hands out what was withheld, or, if the
 * write or the sync failed, stops the box for good. In between the box takes no tick.
 *
 * What the caller owes
 *  - A handle is {0} before the first call that is given it. It is changed by these functions alone,
 *    and isn't copied while it holds something.
 *  - Each pointer with a length beside it points to that many bytes, and no pointer is null unless
 *    its length is 0. What two pointers of one call point to doesn't overlap, and nothing else reads
 *    or writes it during the call.
 *  - A handle is used by the thread that made what it holds, and by no other. Different handles may be
 *    used by different threads at the same time.
 *  - malloc and free are those of the C library. No call is made from a signal handler, or in the
 *    forked child of a process that has threads.
 *  - The key is secret, and the same at both ends of the link.
 *
 * What the caller owes so that no number is used twice under one key
 *  - The slots that yasir_new is given are what the disk holds, and are synced: those that
 *    yasir_init made, or those that were last written for this box.
 *  - One box at a time uses a journal: a journal that is loaded isn't loaded again until the box is
 *    freed. Nothing sees two handles over one journal. Use a lock.
 *  - With one key, one transmitter sends in a direction, and its journal is never made anew, copied
 *    back from a backup, or lost.
 *  - yasir_committed is given 1 only if all 24 bytes were written and then synced without an error.
 *  - After a sync that failed, the machine is restarted before the journal is loaded again: the system
 *    may have dropped what it couldn't write, and still read it back. */
#ifndef YASIR_H
#define YASIR_H

#include <stddef.h>
#include <stdint.h>

#ifdef __cplusplus
extern "C" {
#endif

/* The version of these functions. It rises when one of them changes what it takes or returns. */
#define YASIR_VERSION 2

/* Returns YASIR_VERSION of the library. */
uint32_t yasir_version(void);

/* A handle: it holds a box, a spacer, or nothing. It is {0} if it holds nothing. A caller sets it to
 * {0} once, and neither reads nor writes its fields after that.
 *
 * On x86-64 a box is one block of 1,024 bytes. A spacer is one of these, and two more blocks with 300
 * bytes for each frame that may wait. A call for a box needs up to 6,100 bytes of stack, and one for a
 * spacer up to 1,000. These sizes were measured by scripts/clib_sizes.py, and aren't proved. */
typedef struct { void *box; uint8_t holds; } yasir_handle;

/* The bytes of one slot and of both, and the room in bytes that `sent` of the calls for runs must
 * have. */
enum { YASIR_SLOT_LEN = 24, YASIR_SLOTS_LEN = 48, YASIR_RUN_LEN = 64 };

/* Which box: its part, protocol, profile and direction, each by one of the numbers below. */
typedef struct { uint8_t part, protocol, profile, direction; } yasir_kind;

enum { YASIR_SEALER = 0, YASIR_CHECKER = 1 };   /* part: transmitter, receiver */
enum { YASIR_RTU = 1, YASIR_DNP3 = 2 };         /* protocol: Modbus RTU, DNP3 */
enum { YASIR_Y18 = 18, YASIR_Y24 = 24 };        /* profile: y18, y24 */
enum { YASIR_AB = 0, YASIR_BA = 1 };            /* direction: ab, ba */

/* A tick that is given to a step: 0 to 255 is that byte, and YASIR_SILENT is silence. */
enum { YASIR_SILENT = 256 };

/* The status that a call returns. Each function below says which of these it can return. */
enum {
    YASIR_OK = 0,
    YASIR_BAD_ARGUMENT = 1, /* there is no such box, spacer or tick, or a length is wrong */
    YASIR_NO_JOURNAL = 2,   /* neither slot holds a number */
    YASIR_OTHER_LINK = 3,   /* the slots hold numbers, but only for other links */
    YASIR_NO_MEMORY = 4,    /* malloc gave no memory */
    YASIR_FULL = 5,         /* the box or the spacer has taken 2^62 ticks, and takes no more */
    YASIR_COMMIT = 6,       /* the tick is taken, and withheld until yasir_committed */
    YASIR_WAITING = 7,      /* an earlier tick is still withheld */
    YASIR_STOPPED = 8,      /* a slot couldn't be written: the box returns nothing any more */
    YASIR_EMPTY = 9,        /* the handle doesn't hold what the call is for */
};

/* What `note` of an answer says about a burst, and which other fields it sets. A transmitter returns
 * the notes sealed and unsealed, a receiver the notes passed, refused and dropped. */
enum {
    YASIR_NO_NOTE = 0,  /* no note falls into this step */
    YASIR_SEALED = 1,   /* number, start, len: the frame is sealed with this number */
    YASIR_UNSEALED = 2, /* start, why: 1 it starts too soon after a sealed burst, 2 it isn't a frame,
                         * 3 the greatest number has been used */
    YASIR_PASSED = 3,   /* number, start, len: the frame has the tag of this number, and leaves */
    YASIR_REFUSED = 4,  /* start, why: 1 no trailer follows as it must, 2 it isn't a frame, 3 no number
                         * above the floor, up to the greatest, has its word, 4 the tag is wrong; it
                         * leaves spoiled */
    YASIR_DROPPED = 5,  /* start, why: 1 bytes of an earlier burst are still leaving, 2 it doesn't
                         * begin with a good header; nothing of it leaves */
};

/* What `commit` of an answer says: the slot that the caller must write, if any. */
enum { YASIR_NO_COMMIT = 0, YASIR_SLOT_A = 1, YASIR_SLOT_B = 2 };

/* The answer of one tick: the tick of the other line, and the note, if there is one. With
 * YASIR_COMMIT `commit` is the slot to be written, and all other fields are 0: the tick and the note
 * are withheld, and there is nothing to send. */
typedef struct {
    uint64_t number; /* of the frame, if the note is sealed or passed; otherwise 0 */
    uint64_t start;  /* the tick of the first byte of the noted burst; 0 without a note */
    uint16_t len;    /* bytes of the frame, if the note is sealed or passed; otherwise 0 */
    uint8_t is_byte; /* 1 if the tick of the other line carries a byte, 0 if it is silent */
    uint8_t byte;    /* that byte; 0 if the tick is silent */
    uint8_t commit;  /* with YASIR_COMMIT the slot to write and sync; otherwise YASIR_NO_COMMIT */
    uint8_t note;    /* YASIR_NO_NOTE, or what is noted */
    uint8_t why;     /* the reason, if the note is unsealed, refused or dropped; otherwise 0 */
    uint8_t unused;  /* always 0 */
} yasir_answer;

/* Makes a box of this kind, which has taken no tick, and puts it into a handle that holds nothing.
 * `key` is the secret that both boxes of the link have; any length is taken (link_replay takes 16 to
 * 64 bytes). `slots` is both slots of the box's journal, slot A and then slot B: slots_len must be 48.
 *
 * Returns YASIR_OK, YASIR_BAD_ARGUMENT (no such kind, slots_len isn't 48, or the handle holds
 * something), YASIR_NO_JOURNAL, YASIR_OTHER_LINK or YASIR_NO_MEMORY. Unless it returns YASIR_OK the
 * handle is unchanged. */
uint8_t yasir_new(yasir_handle *handle, const yasir_kind *kind, const uint8_t *key, size_t key_len,
                  const uint8_t *slots, size_t slots_len);

/* Takes the next tick with the box: `tick` is a byte (0 to 255) or YASIR_SILENT. Writes 24 bytes to
 * `slot`, for which slot_len must be 24.
 *
 * Returns YASIR_OK if the step uses no number: `answer` has the tick of the other line and the note,
 * and `slot` is zeros. Returns YASIR_COMMIT if it uses a number: `answer` has only `commit`, and
 * `slot` has the bytes that the caller must write into that slot and sync, before it calls
 * yasir_committed.
 *
 * Otherwise it returns YASIR_BAD_ARGUMENT (`tick` is above 256, or slot_len isn't 24), YASIR_EMPTY
 * (the handle holds no box), YASIR_WAITING, YASIR_STOPPED or YASIR_FULL. Then the tick isn't taken,
 * and box, answer and slot are unchanged. */
uint8_t yasir_step(yasir_handle *handle, uint16_t tick, yasir_answer *answer, uint8_t *slot,
                   size_t slot_len);

/* Tells the box how the commit went that yasir_step asked for with YASIR_COMMIT. `ok` is 1 if the
 * slot is written and synced, and 0 if the write or the sync failed.
 *
 * Returns YASIR_OK if `ok` is 1: `answer` has the tick and the note that were withheld, with
 * YASIR_NO_COMMIT, and the box takes the next tick. Returns YASIR_STOPPED if `ok` is 0: `answer` is
 * unchanged, what was withheld is never returned, and from then on yasir_step and yasir_committed
 * return YASIR_STOPPED, unless an argument is bad, and the calls for runs take nothing. The next start
 * loads the journal again.
 *
 * Otherwise it returns YASIR_BAD_ARGUMENT (`ok` is above 1, or nothing is withheld) or YASIR_EMPTY
 * (the handle holds no box), and box and answer are unchanged. */
uint8_t yasir_committed(yasir_handle *handle, uint8_t ok, yasir_answer *answer);

/* Takes ticks that carry the first of the `len` bytes at `bytes`, one byte a tick, as long as the box
 * returns silence for all of these ticks or a byte for each of them, with no note and no slot to
 * write. `sent` must have room for YASIR_RUN_LEN bytes (sent_len, at least 64): it gets the bytes that
 * the box returns, one for each tick taken, and *sent_count is how many they are. If *sent_count is
 * 0, all ticks that the box returned are silent.
 *
 * Returns how many ticks were taken, 0 to `len`. If it returns 0, nothing was taken, and the caller
 * goes on with yasir_step. It always returns 0 if sent_len is below 64, while a tick is withheld,
 * after the box was stopped, and if the handle holds no box. */
size_t yasir_take_bytes(yasir_handle *handle, const uint8_t *bytes, size_t len, uint8_t *sent,
                        size_t sent_len, size_t *sent_count);

/* Takes the first of `ticks` silent ticks, as yasir_take_bytes takes ticks that carry bytes.
 *
 * Returns how many ticks were taken, 0 to `ticks`. If it returns 0, nothing was taken, and the caller
 * goes on with yasir_step. It always returns 0 in the cases in which yasir_take_bytes does. */
size_t yasir_take_silence(yasir_handle *handle, uint32_t ticks, uint8_t *sent, size_t sent_len,
                          size_t *sent_count);

/* Returns the floor of the box: the last number that it used, also if the tick of that step is still
 * withheld or the box was stopped; or 0 if no number was used since its journal was made by
 * yasir_init, or if the handle holds no box. The box is unchanged. */
uint64_t yasir_floor(yasir_handle *handle);

/* Frees the box or the spacer that the handle holds, if it holds one. The handle then holds nothing. */
void yasir_free(yasir_handle *handle);

/* Writes slot A of a new journal for a box of this kind, with the number 0, to `slot`: 24 bytes, for
 * which slot_len must be 24. The caller must store and sync them as slot A before the first
 * yasir_new. Use it only if neither slot of the journal holds a number: a journal that is made anew
 * lets the box use its numbers again.
 *
 * Returns YASIR_OK, or YASIR_BAD_ARGUMENT (no such kind, or slot_len isn't 24); then `slot` is
 * unchanged. */
uint8_t yasir_init(const yasir_kind *kind, uint8_t *slot, size_t slot_len);

/* What yasir_spacer_step returns for one tick: the tick of the other line, and the frame that is lost
 * in this step, if one is. */
typedef struct {
    uint64_t lost_start; /* the tick of the first byte of the lost frame; otherwise 0 */
    uint8_t is_byte;     /* 1 if the tick of the other line carries a byte, 0 if it is silent */
    uint8_t byte;        /* that byte; 0 if the tick is silent */
    uint8_t is_lost;     /* 1 if a frame was read while too many waited, and is lost; otherwise 0 */
    uint8_t unused;      /* always 0 */
} yasir_spaced;

/* Makes a spacer that has taken no tick, and puts it into a handle that holds nothing. `protocol` is
 * YASIR_RTU or YASIR_DNP3, `profile` is YASIR_Y18 or YASIR_Y24, and `room` is how many frames may
 * wait, at least 1. The spacer reads a line as a device of the protocol does, and sends each frame
 * again, whole, with at least 21 silent ticks (27 with YASIR_Y24) between one frame and the next. For
 * DNP3 this device forgets a frame that was begun when 18 silent ticks in a row come. All memory is
 * taken here: 300 bytes for each frame that may wait, and that of the spacer itself.
 *
 * Returns YASIR_OK, YASIR_BAD_ARGUMENT (no such protocol or profile, `room` is 0, or the handle holds
 * something) or YASIR_NO_MEMORY. Unless it returns YASIR_OK the handle is unchanged. */
uint8_t yasir_spacer_new(yasir_handle *handle, uint8_t protocol, uint8_t profile, uint32_t room);

/* Takes the next tick with the spacer: `tick` is a byte (0 to 255) or YASIR_SILENT. Writes what the
 * step returns to `answer`.
 *
 * Returns YASIR_OK, YASIR_BAD_ARGUMENT (`tick` is above 256), YASIR_EMPTY (the handle holds no spacer)
 * or YASIR_FULL. Unless it returns YASIR_OK the tick isn't taken, and spacer and answer are
 * unchanged. */
uint8_t yasir_spacer_step(yasir_handle *handle, uint16_t tick, yasir_spaced *answer);

#ifdef __cplusplus
}
#endif
#endif

/* dri from C: the program's words over buffers. docs/C.md tells how to build the library and what is proved of it.
 *
 * All calls. A text is a pointer and a length, read where it lies; a buffer is a pointer and a length too. A null pointer
 * stands for a text or a buffer of length 0. Otherwise a call needs that its pointers point to so many bytes, less than 2^63,
 * and `answer` and `played` to their structs, and that none of these and no buffer overlaps another argument of the call. It needs
 * nothing of what stands in them: any bytes are a text, and any number is tested.
 *
 * Each call puts what the program writes to standard output at the begin of `picture`, and what it writes to standard error at the
 * begin of `notes`, each whole; a buffer without room for all of it stays as it was. `picture_needed` and `notes_needed` say how
 * many bytes there were to put. Behind the bytes put a buffer stays as it was. For every status but DRI_DONE and DRI_WRITE_FAULT
 * there is no picture, and the notes of all calls but dri_play are the status's line, which DRI_OUT_OF_MEMORY hasn't; where they
 * have no room for it, the status stays.
 *
 * Threads. No call keeps anything or shares anything, so any thread may call at any time, also beside other calls, as long as
 * their buffers and answers are apart. No call waits. Memory comes from malloc, realloc and free, and all of it is given back
 * before a call returns. Don't call from a signal handler, or from a forked child of a process that has threads. */
#ifndef DRI_H
#define DRI_H

#include <stddef.h>
#include <stdint.h>

#ifdef __cplusplus
extern "C" {
#endif

/* How a call ended: the number that the program ends with. */
enum dri_status {
    DRI_DONE = 0,          /* picture and notes were put whole */
    DRI_USAGE = 1,         /* a number isn't in its range, or the items are none that the scene can take */
    DRI_REFUSED = 2,       /* the text isn't allowed: `line` and `reason` tell the first refusal */
    DRI_TOO_LONG = 3,      /* the text has more bytes than 16777216, or 33554432 where something stands behind a scene */
    DRI_READ_FAULT = 4,    /* (no call answers it: a text in memory is always read) */
    DRI_WRITE_FAULT = 5,   /* it was done, and picture or notes had no room for what there was to put */
    DRI_NOT_A_RUN = 6,     /* a journal is no run of its scene: `entry` is the first that isn't legal */
    DRI_OUT_OF_MEMORY = 7  /* memory was refused; nothing was put, and there is no line */
};

/* Why a line is refused. docs/FORMATS.md tells which line has which. */
enum dri_reason {
    DRI_NO_REASON = 0,
    DRI_SHAPE = 1,
    DRI_RANGE = 2,
    DRI_UNKNOWN = 3,
    DRI_TWICE = 4,
    DRI_ORDER = 5,
    DRI_LIMIT = 6,
    DRI_HEAP = 7,
    DRI_ENDED = 8,
    DRI_FRAME = 9
};

/* What dri_play tells beside picture and notes. It writes all of it, and reads nothing of it. */
struct dri_played {
    uint64_t events;         /* how many events were made */
    uint64_t passed_written; /* how many flags were put into `passed`: one for each item, or 0 */
    uint32_t word;           /* the lock word: bit 31 says held, bit 30 contended, and the rest is a context */
};

/* Each call writes all of it, and reads nothing of it. */
struct dri_answer {
    uint32_t status;          /* an enum dri_status */
    uint32_t line;            /* for DRI_REFUSED the line, counted from 1, or 0 where it is no line of the text; else 0 */
    uint32_t reason;          /* for DRI_REFUSED an enum dri_reason; else 0 */
    uint32_t entry;           /* for DRI_NOT_A_RUN the entry, counted from 1; else 0 */
    uint64_t picture_written; /* how many bytes were put into the picture: all that it needs, or 0 */
    uint64_t notes_written;   /* the same of the notes */
    uint64_t picture_needed;  /* how many bytes there were to put into the picture */
    uint64_t notes_needed;    /* the same of the notes */
};

/* Runs a scene by its schedule, and what is left to do then in rounds. Gives the screen in the P6 form, and the journal. It refuses
 * a text that isn't one scene. */
void dri_turns(const uint8_t *scene, size_t scene_length, uint8_t *picture, size_t picture_length, uint8_t *notes,
               size_t notes_length, struct dri_answer *answer);

/* Runs a scene as dri_turns does. Gives the image of the shared area, 8192 bytes, as the picture, and no notes. */
void dri_sarea(const uint8_t *scene, size_t scene_length, uint8_t *picture, size_t picture_length, uint8_t *notes,
               size_t notes_length, struct dri_answer *answer);

/* Reads a scene and behind it a journal, whoever made that. Gives the line `entries E frames F stood S whole` (`cut` for a journal
 * that ends before all is done) as the picture, and no notes. It refuses a text that isn't both, its lines counted over both, and
 * a journal that isn't a run of the scene, with the first entry that isn't legal. */
void dri_check(const uint8_t *recording, size_t recording_length, uint8_t *picture, size_t picture_length, uint8_t *notes,
               size_t notes_length, struct dri_answer *answer);

/* Reads what dri_check reads, and refuses what it refuses. Draws the journal by a card that flips; gives the screen after it in the
 * P6 form, and the line `flips F copies C`. */
void dri_flip(const uint8_t *recording, size_t recording_length, uint8_t *picture, size_t picture_length, uint8_t *notes,
              size_t notes_length, struct dri_answer *answer);

/* Reads what dri_check reads, and refuses what it refuses. Draws the journal through a ring with room for so many jobs; gives the
 * screen after it in the P6 form, and the line `puts P idles I most Q`. DRI_USAGE where room isn't 1 to 64. */
void dri_ring(uint32_t room, const uint8_t *recording, size_t recording_length, uint8_t *picture, size_t picture_length,
              uint8_t *notes, size_t notes_length, struct dri_answer *answer);

/* Reads what dri_check reads, and refuses what it refuses. Draws the journal by a card that keeps colours in sixteen bits and draws
 * lines; gives the screen after it in the P6 form, and no notes. */
void dri_card16(const uint8_t *recording, size_t recording_length, uint8_t *picture, size_t picture_length, uint8_t *notes,
                size_t notes_length, struct dri_answer *answer);

/* Reads a scene and behind it groups of its clients. Plays the scene without its schedule in rounds of the groups; gives the screen
 * in the P6 form, and the journal. It refuses a text that isn't both, its lines counted over both. */
void dri_many(const uint8_t *grouped, size_t grouped_length, uint8_t *picture, size_t picture_length, uint8_t *notes,
              size_t notes_length, struct dri_answer *answer);

/* Draws a client's frame alone, in a window with the sides that the scene gives it. Gives it in the P6 form, and no notes.
 * DRI_USAGE where client isn't 1 to 32 or frame isn't 1 to 100000; DRI_REFUSED with line 0 and DRI_FRAME where the scene hasn't
 * the frame; and it refuses a text that isn't one scene. */
void dri_solo(uint32_t client, uint32_t frame, const uint8_t *scene, size_t scene_length, uint8_t *picture,
              size_t picture_length, uint8_t *notes, size_t notes_length, struct dri_answer *answer);

/* Makes a scene of so many clients, for load. Gives its text as the picture, and the line `frames F stood S`. DRI_USAGE where
 * clients isn't 1 to 32. */
void dri_make(uint32_t clients, uint8_t *picture, size_t picture_length, uint8_t *notes, size_t notes_length,
              struct dri_answer *answer);

/* Plays a scene by these items in place of its schedule, from the opening on and no further. An item is the turn of its actor, 0 the
 * server's; or, where it is negative, the kill of the client of that number. Gives the screen in the P6 form, the journal, and in
 * `passed`, a buffer as the others are, a byte for each item: 1 where it was passed over and 0 where it made an event. DRI_USAGE where
 * the scene hasn't the actor or the client, a client is killed twice, or there are more than 1000000 items; it refuses a text that
 * isn't one scene. Where it didn't play, nothing is put anywhere, not even the status's line, and `played` has zeros. DRI_WRITE_FAULT
 * tells too that `passed` had no room. It needs that `items` points to so many int32_t, or is null for none. */
void dri_play(const uint8_t *scene, size_t scene_length, const int32_t *items, size_t items_length, uint8_t *passed,
              size_t passed_length, uint8_t *picture, size_t picture_length, uint8_t *notes, size_t notes_length,
              struct dri_played *played, struct dri_answer *answer);

#ifdef __cplusplus
}
#endif

#endif

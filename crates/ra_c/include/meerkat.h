/* Meerkatalloy for C: which achievements unlock at a frame, which leaderboard attempts start, end or are cancelled, and
 * what the rich presence says. Installed it is libmeerkat; docs/EMBEDDING.md says how it is built and linked.
 *
 * An emulator makes a game of a set's text, hands it the memory of each frame where it lies, and asks what happened:
 *
 *     meerkat_game game = {0};
 *     meerkat_refusal why = {0};
 *     meerkat_bank banks[2] = {{work_ram, 2048}, {save_ram, 8192}};
 *     meerkat_event events[64];
 *     size_t count = 0;
 *     memset(events, 0, sizeof events);
 *     if (meerkat_new(text, length, 10240, &game, &why) != MEERKAT_DONE) ...
 *     each frame:  meerkat_frame(&game, banks, 2);
 *                  meerkat_events(&game, events, 64, &count);
 *     meerkat_free(&game);
 *
 * Each call answers a code. Where it is not MEERKAT_DONE nothing has changed but what the code's line below names.
 *
 * What is proved of each call stands beside its name in docs/PROVED.md. The proofs take for granted what nothing in C
 * checks, and the caller owes:
 *
 *   - A pointer is not null, is aligned for its type, and points to that many initialised elements, those that a call
 *     writes among them. That holds with a length of 0 too, where an empty std::vector has a null pointer: write
 *     meerkat_new(MEERKAT_PLACE(v.data()), v.size(), ..).
 *   - What a call reads does not change during the call, and nobody else reads or writes out, count, size, left, why,
 *     unlock or the handle then. These do not overlap each other or what is read.
 *   - A meerkat_game is all zero before the first meerkat_new, and is changed by these calls alone. It is not copied: a
 *     copy that is used after the game was freed through the other one is a use after free, which no call can see.
 *   - One call at a time on one game, on any thread, where a lock or a join orders them: what a handle holds may go from one
 *     thread to another, which is proved of its type. Two games share nothing, and may be called at once. No call in the
 *     child of a process that had several threads when it was forked.
 *   - A call whose handle is const leaves the game as it was. It still takes it out of the handle and puts it back, so a
 *     handle does not lie in memory that cannot be written, and two such calls are not made at once.
 *   - malloc, realloc and free belong together, and align as the C library does. No call from a signal handler.
 *   - There is enough stack. The proofs are of a machine without one.
 */
#ifndef MEERKAT_H
#define MEERKAT_H

#include <stddef.h>
#include <stdint.h>

#ifdef __cplusplus
extern "C" {
#endif

/* The version of this header. meerkat_version() is that of the archive. */
#define MEERKAT_VERSION 2u

/* The most bytes of a game's memory, and of a set's text. */
#define MEERKAT_MOST_SIZE 134217728u
#define MEERKAT_MOST_TEXT 4194304u

/* The most events of one frame, by how many achievements and leaderboards the set has: three an achievement (measured,
 * primed or unprimed, unlock), and two a leaderboard (start or track, and what ends it or tracks on). */
#define MEERKAT_MOST_EVENTS(achievements, leaderboards) (3 * (achievements) + 2 * (leaderboards))

/* The most slots of a game for states that are kept in memory. */
#define MEERKAT_MOST_SLOTS 65536u

/* A pointer to bytes that may be null where its length is 0, and then one that is not. */
#define MEERKAT_PLACE(bytes) ((bytes) ? (bytes) : (const uint8_t *)"")

/* What a call answers. */
enum meerkat_code {
    MEERKAT_DONE = 0,     /* the call did what it says */
    MEERKAT_MEMORY = 1,   /* memory ran out */
    MEERKAT_SET = 2,      /* the text is no set; why has the reason */
    MEERKAT_PROGRESS = 3, /* the bytes are no progress of the set; why has the reason */
    MEERKAT_RANGE = 4,    /* a size, an id, a kind or a flag is out of range */
    MEERKAT_ROOM = 5,     /* there is too little room; *count is how much there has to be, and out is as it was */
    MEERKAT_EMPTY = 6,    /* the handle holds no game */
    MEERKAT_HELD = 7,     /* the handle holds a game already */
    MEERKAT_NOTHING = 8,  /* there is no unlock to explain */
    MEERKAT_DOCUMENT = 9  /* nothing is left of the document; why has the reason */
};

/* A handle. All zero it holds nothing. It owns the game behind it, from meerkat_new to meerkat_free; its fields are not
 * read or written by the caller. */
typedef struct meerkat_game {
    void *at;
    uint32_t held;
} meerkat_game;

/* A part of the memory of the machine, where it lies. */
typedef struct meerkat_bank {
    const uint8_t *bytes;
    size_t length;
} meerkat_bank;

/* Why a text, a document or progress bytes are refused. Numbers that a kind does not name are 0. */
typedef struct meerkat_refusal {
    uint32_t kind;   /* enum meerkat_reason */
    uint32_t id;
    uint64_t at;
    uint64_t found;
    uint64_t wanted;
    uint64_t line;   /* from 1 */
    uint64_t column; /* in bytes, from 1 */
} meerkat_refusal;

/* The kinds of meerkat_refusal. */
enum meerkat_reason {
    MEERKAT_SYNTAX = 1,              /* at: the first bad place of the text, in bytes from 0; its line and column */
    MEERKAT_DUPLICATE_ID = 2,        /* id: the id that is repeated; its line */
    MEERKAT_TOO_LONG = 3,            /* found: the bytes of the text; wanted: the most that it may have */
    MEERKAT_TOO_MANY_ITEMS = 4,      /* the same of items */
    MEERKAT_TOO_MANY_CONDITIONS = 5, /* of conditions */
    MEERKAT_TOO_MANY_MACROS = 6,     /* of macros in one display line */
    MEERKAT_LOOKUP_TOO_LONG = 7,     /* of bytes in one lookup text */
    MEERKAT_WRONG_LENGTH = 11,       /* progress: found, wanted: how many bytes */
    MEERKAT_WRONG_MARK = 12,         /* it does not begin with RAPG */
    MEERKAT_WRONG_VERSION = 13,      /* found: the byte of the version */
    MEERKAT_WRONG_SUM = 14,          /* its sum is not that of its bytes */
    MEERKAT_OTHER_SET = 15,          /* nothing in it is of this set */
    MEERKAT_BAD_ENTRY = 16,          /* at: the place in bytes from 0; found, wanted: how many bytes */
    MEERKAT_BAD_STATE = 17,          /* at: the place in bytes from 0; found: what stands there */
    MEERKAT_DOCUMENT_TOO_LONG = 21,  /* a document: found: its bytes; wanted: the most that it may have */
    MEERKAT_NOT_JSON = 22,           /* it is no JSON */
    MEERKAT_NO_PATCH = 23            /* it has no patch; id: the field: 1 PatchData, 2 Sets, 3 Achievements, 4 Leaderboards */
};

/* What happened to an item at a frame. */
typedef struct meerkat_event {
    uint32_t kind;  /* enum meerkat_event_kind */
    uint32_t id;    /* of the achievement or the leaderboard */
    int64_t number; /* of measured, track and submit; else 0 */
} meerkat_event;

/* The kinds of meerkat_event. */
enum meerkat_event_kind {
    MEERKAT_MEASURED = 1, /* the measured number of an achievement changed, to number */
    MEERKAT_PRIMED = 2,   /* an achievement waits for its trigger conditions alone */
    MEERKAT_UNPRIMED = 3, /* it does so no longer */
    MEERKAT_UNLOCK = 4,   /* an achievement unlocks */
    MEERKAT_START = 5,    /* an attempt at a leaderboard starts */
    MEERKAT_TRACK = 6,    /* the number that an attempt shows, when it starts and whenever it changes */
    MEERKAT_CANCEL = 7,   /* an attempt is cancelled */
    MEERKAT_SUBMIT = 8    /* an attempt ends, with its value */
};

/* What an item is. */
enum meerkat_kind {
    MEERKAT_ACHIEVEMENT = 1, /* its text is a trigger */
    MEERKAT_LEADERBOARD = 2, /* its text has the four parts of a leaderboard */
    MEERKAT_PRESENCE = 3     /* a rich presence script, for meerkat_judge alone */
};

/* The states of an achievement and of a leaderboard. */
enum meerkat_achievement_state {
    MEERKAT_WAITING = 0, /* it has to be false once before it counts */
    MEERKAT_ACTIVE = 1,
    MEERKAT_PAUSED = 2,
    MEERKAT_IS_PRIMED = 3,
    MEERKAT_TRIGGERED = 4
};
enum meerkat_leaderboard_state {
    MEERKAT_BOARD_WAITING = 0,
    MEERKAT_BOARD_ACTIVE = 1,
    MEERKAT_BOARD_STARTED = 2,
    MEERKAT_BOARD_CANCELLED = 3,
    MEERKAT_BOARD_SUBMITTED = 4
};

/* How an item stands. Numbers that a kind does not have are 0. */
typedef struct meerkat_item {
    uint32_t kind;     /* enum meerkat_kind */
    uint32_t id;
    uint32_t state;    /* enum meerkat_achievement_state or meerkat_leaderboard_state */
    uint32_t earned;   /* 1 where an achievement is earned, which has no more events then, else 0 */
    uint32_t measured; /* the measured number of an achievement */
    uint32_t target;   /* the number at which it is complete; 0 where the text names none */
    uint32_t percent;  /* 1 where it is meant as a part of the target, else 0 */
    uint32_t running;  /* 1 where an attempt at a leaderboard runs, else 0 */
    int32_t number;    /* the number that the attempt shows */
} meerkat_item;

/* A cell of the set that no pointer moves. */
typedef struct meerkat_cell {
    uint32_t address; /* of its first byte */
    uint32_t width;   /* 1, 2 or 4 bytes */
    uint32_t whole;   /* 1 where it lies whole in the memory, else 0: what is past its end reads as 0 */
} meerkat_cell;

/* The flags of meerkat_import. */
enum meerkat_flag {
    MEERKAT_OFFICIAL = 1 /* without the achievements that are not official: their field Flags is 5 */
};

/* The rows of an explanation: frames since the record, from 0. */
typedef struct meerkat_unlock {
    uint32_t last;   /* the row of the unlock */
    uint32_t since;  /* the row from which on the hits counted: 0, or the one after the last at which hits were cleared */
    uint32_t waited; /* 1 where the achievement was still waiting before that row, else 0 */
} meerkat_unlock;

/* A row at which the hits of a condition changed. */
typedef struct meerkat_hits {
    uint32_t condition; /* the place of the condition, from 0, the core group's first, then each alternative's */
    uint32_t row;
    uint32_t hits;      /* the hits after the row */
} meerkat_hits;

/* Makes a game of a set's text over memories of size bytes, at most MEERKAT_MOST_SIZE, in a handle that holds nothing. The
 * text is copied, once it is known to be no longer than MEERKAT_MOST_TEXT; of the memory nothing is kept. MEERKAT_HELD,
 * MEERKAT_RANGE (size), MEERKAT_SET (why), MEERKAT_MEMORY. */
uint32_t meerkat_new(const uint8_t *text, size_t length, uint32_t size, meerkat_game *game, meerkat_refusal *why);

/* Frees the game; the handle then holds nothing, and may be filled again. MEERKAT_EMPTY. */
uint32_t meerkat_free(meerkat_game *game);

/* Takes one frame of the memory that the banks are, one after another. It reads them where they lie, each cell of the set
 * at most twice, and each cell of a recorded achievement at most twice more, and keeps none of them. It takes memory only where an achievement is recorded; see meerkat_record.
 * MEERKAT_RANGE where the banks have not size bytes together, and then nothing changes. MEERKAT_EMPTY. */
uint32_t meerkat_frame(meerkat_game *game, const meerkat_bank *banks, size_t count);

/* The events of the last frame, in the order of the set. None before the first frame, and none after a restore, a take or a reset.
 * *count is how many there are, at most MEERKAT_MOST_EVENTS of the set's achievements and leaderboards: with room for that
 * many MEERKAT_ROOM never comes. MEERKAT_ROOM, MEERKAT_MEMORY, MEERKAT_EMPTY. */
uint32_t meerkat_events(const meerkat_game *game, meerkat_event *out, size_t room, size_t *count);

/* The same events as text, a line each, as "unlock 4 1": the word, the number of the frame, from 0, and the id; numbers of
 * leaderboards stand in the format of the board. Not ended by a zero. *count is how many bytes there are. MEERKAT_ROOM,
 * MEERKAT_MEMORY, MEERKAT_EMPTY. */
uint32_t meerkat_lines(const meerkat_game *game, uint8_t *out, size_t room, size_t *count);

/* How each item stands, in the order of the set: after meerkat_new, a frame, a restore, a take or a reset. *count is how many items
 * there are. The target is that of the first Measured or Measured% of the text: its hit target, else its right number
 * where that is a constant. MEERKAT_ROOM, MEERKAT_MEMORY, MEERKAT_EMPTY. */
uint32_t meerkat_items(const meerkat_game *game, meerkat_item *out, size_t room, size_t *count);

/* The achievements of these ids are earned, as the service says it: they are silent from the next frame on, also after a
 * restore, a take and a reset, and nothing else changes, not what the last frame told. An id of no achievement is passed over. To be
 * called after meerkat_new, with all that the user has earned. MEERKAT_MEMORY, MEERKAT_EMPTY; then nothing changes. */
uint32_t meerkat_earn(meerkat_game *game, const uint32_t *ids, size_t count);

/* The cells of the set that no pointer moves, each once, in order of first occurrence, and whether they lie in the memory:
 * where one does not, the set is of another machine or the banks are too few. It reads the set's text again, so it is for the
 * time after meerkat_new and not for each frame. *count is how many there are. MEERKAT_ROOM, MEERKAT_MEMORY, MEERKAT_EMPTY. */
uint32_t meerkat_cells(const meerkat_game *game, meerkat_cell *out, size_t room, size_t *count);

/* A number in the format of the leaderboard of this id, as text, not ended by a zero. MEERKAT_RANGE where no leaderboard
 * has the id. MEERKAT_ROOM, MEERKAT_MEMORY, MEERKAT_EMPTY. */
uint32_t meerkat_number(const meerkat_game *game, uint32_t id, int32_t number, uint8_t *out, size_t room, size_t *count);

/* The rich presence text, not ended by a zero; nothing where the set has no script. MEERKAT_ROOM, MEERKAT_MEMORY,
 * MEERKAT_EMPTY. */
uint32_t meerkat_presence(const meerkat_game *game, uint8_t *out, size_t room, size_t *count);

/* How many bytes meerkat_save gives, each time, as long as the game is held. MEERKAT_EMPTY. */
uint32_t meerkat_save_size(const meerkat_game *game, size_t *size);

/* The progress bytes of the present state, for a save state or a file. They do not have the memory in them. MEERKAT_ROOM,
 * MEERKAT_MEMORY, MEERKAT_EMPTY. */
uint32_t meerkat_save(const meerkat_game *game, uint8_t *out, size_t room, size_t *count);

/* Takes up progress bytes of this set, or of one that was changed since, by the names of its items. What was earned stays
 * earned. Nothing is recorded then. It takes no memory. MEERKAT_PROGRESS (why), MEERKAT_EMPTY. */
uint32_t meerkat_restore(meerkat_game *game, const uint8_t *bytes, size_t length, meerkat_refusal *why);

/* Begins anew, as when the emulated machine is reset: a restore of what meerkat_save gave right after meerkat_new. Hits,
 * states, deltas and priors are those of a new game, and what was earned stays earned. Nothing is recorded then. It takes
 * no memory. MEERKAT_EMPTY. */
uint32_t meerkat_reset(meerkat_game *game);

/* Makes count slots for states that are kept in memory, at most MEERKAT_MOST_SLOTS, in place of those that were there, and
 * keeps the present state in each. They go when the game is freed. Slots are for rewind and run-ahead: a state in a slot costs a
 * fraction of meerkat_save, and neither meerkat_keep nor meerkat_take takes memory. MEERKAT_RANGE, MEERKAT_MEMORY,
 * MEERKAT_EMPTY; then the slots stay as they were. */
uint32_t meerkat_slots(meerkat_game *game, uint32_t count);

/* Keeps the present state in a slot, from 0, in place of the one that was kept there. MEERKAT_RANGE where there is no such
 * slot, MEERKAT_EMPTY. */
uint32_t meerkat_keep(meerkat_game *game, uint32_t slot);

/* Takes up the state that was kept in a slot, as meerkat_restore takes up progress bytes: what was earned stays earned, there
 * are no events, and nothing is recorded then. The slot stays as it is. MEERKAT_RANGE where there is no such slot,
 * MEERKAT_EMPTY. */
uint32_t meerkat_take(meerkat_game *game, uint32_t slot);

/* Records the achievement of this id from now on, frame by frame, in place of one that was recorded: right after
 * meerkat_new or meerkat_reset. It begins as one that was never played or earned. A frame that finds no memory for its
 * row, or that makes too many rows (67108864 rows and comparisons together), is taken, and the achievement is recorded no
 * longer. MEERKAT_RANGE where the set has no achievement of this id, or where the count of frames is not 0; then, and for
 * MEERKAT_MEMORY, what was recorded stays recorded. MEERKAT_EMPTY. */
uint32_t meerkat_record(meerkat_game *game, uint32_t id);

/* Why the recorded achievement unlocked at the last frame: the rows at which hits changed, condition by condition, and the
 * rows of the whole. *count is how many rows there are in out. MEERKAT_NOTHING where nothing is recorded or the last frame
 * was no unlock of it. MEERKAT_ROOM, MEERKAT_MEMORY, MEERKAT_EMPTY. */
uint32_t meerkat_explain(const meerkat_game *game, meerkat_hits *out, size_t room, size_t *count, meerkat_unlock *unlock);

/* Whether a set with this one item alone is accepted; kind is one of enum meerkat_kind. So a bad item can be left out
 * before the set is made. It needs no game. MEERKAT_RANGE (kind), MEERKAT_SET (why, its place in the text),
 * MEERKAT_MEMORY. */
uint32_t meerkat_judge(uint32_t kind, const uint8_t *text, size_t length, meerkat_refusal *why);

/* The set file of a document in JSON as the service sends it, without the items and the script that it would be refused
 * for; *left is how many were left out. flags is 0, or MEERKAT_OFFICIAL for a set without unofficial achievements, which are
 * counted in *left and take no id from an official one. It needs no game. MEERKAT_RANGE (flags), MEERKAT_DOCUMENT (why),
 * MEERKAT_ROOM, MEERKAT_MEMORY. */
uint32_t meerkat_import(const uint8_t *document, size_t length, uint32_t flags, uint8_t *out, size_t room, size_t *count,
                        size_t *left, meerkat_refusal *why);

/* What a code says, and what a refusal says, with its line and column or its numbers, as text in English that is not ended by
 * a zero. A call gives out no pointer, so they fill a room as the other calls do; 128 bytes are enough. They need no
 * game. MEERKAT_RANGE where the number is no code, or the refusal's kind none of enum meerkat_reason. MEERKAT_ROOM, and
 * meerkat_refusal_text MEERKAT_MEMORY. */
uint32_t meerkat_error(uint32_t code, uint8_t *out, size_t room, size_t *count);
uint32_t meerkat_refusal_text(const meerkat_refusal *why, uint8_t *out, size_t room, size_t *count);

/* The version of the archive, 2. */
uint32_t meerkat_version(void);

#ifdef __cplusplus
}
#endif

#endif

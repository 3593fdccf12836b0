/* wizhdulet.h: a proved standby copy of FIX sessions, for C and C++ on x86-64 Linux (libwizhdulet.a).
 *
 * docs/LIBRARY.md says how to use it, docs/ENTRY_POINTS.md what each function promises, docs/AREAS.md what the lent memory holds, docs/REFUSALS.md what each
 * refusal means and what to do. No function asks anything of what the lent memory holds: each does its work or gives a refusal.
 *
 * A standby, in order:
 *   wz_store_make          once, for a new store; not after a restart that has kept its two areas
 *   wz_standby_make        at every start, with another incarnation each time
 *   of a connection:       cut the stream into frames by wz_read, hand each to wz_on_frame, send what wz_answer writes;
 *                          or several to wz_on_frame_held, then wz_flush, then their answers
 *   at a refusal:          send nothing, close the connection, keep the frame for whoever wrote the sender
 *   a connection is gone:  wz_disconnected_from, with the number that `connections` had after its Hello
 *   the active is gone:    wz_promote; if nobody has checked the copy and the risk is taken, wz_promote_unchecked
 *
 * No function allocates, blocks, reads a clock, sets errno or keeps anything between two calls. Calls on different memory may run at once, two calls on the same may
 * not. A slice is a pointer and a length in elements; slices of one call don't overlap, but those that are only read may; words and records are aligned to 8 bytes; a
 * pointer isn't null, not even beside a length of 0. A flag is a byte: 0 is not set, every other value is.
 */
#ifndef WIZHDULET_H
#define WIZHDULET_H

#include <stddef.h>
#include <stdint.h>

#ifdef __cplusplus
extern "C" {
#endif

/* ---- Version: that of the release, VERSION. The major is raised with every record, signature and number that changes, the minor with what is added. */
#define WZ_VERSION_MAJOR 1
#define WZ_VERSION_MINOR 0
#define WZ_VERSION_PATCH 0
/* Both as one number, as wz_version tells them. */
#define WZ_VERSION (WZ_VERSION_MAJOR * 65536 + WZ_VERSION_MINOR)
/* The versions of the protocol: a Hello names one, and reading, writing and sending are handed one (11 for any other). In the first a stamp has 0 or 3 digits after
   the point, in the latest also 6, 9 or 12. */
#define WZ_PROTOCOL_FIRST 1
#define WZ_PROTOCOL_LATEST 2
/* What a connection speaks, by the standby's counters: the first until a Hello is accepted, then that Hello's, past a drop too. */
#define WZ_PROTOCOL_OF(counters) ((uint16_t)((counters).version2 ? WZ_PROTOCOL_LATEST : WZ_PROTOCOL_FIRST))

/* ---- How much memory. S sessions, C message bytes and M messages of each. */
#define WZ_MAX_C 33554432
#define WZ_MAX_M 65536
/* The store, in words of 8 bytes and in bytes. */
#define WZ_WORDS(s, m) (66 + (size_t)(s) * (16 + 2 * (size_t)(m)))
#define WZ_BYTES(s, c) ((size_t)(s) * (224 + (size_t)(c)))
/* The hold areas of a row of so many handles: each takes any session sent whole. Where no stamp has more than 3 digits after the point, 122 do for 131. */
#define WZ_HOLDS(handles, c, m) ((size_t)(handles) * ((size_t)(c) + 22 * (size_t)(m) + 131))
/* The words that go with these hold areas: one for each 65,536 bytes of each, so none where they are shorter. With fewer words, or none, a session sent whole is taken
   more slowly, and never otherwise. */
#define WZ_ENDS(handles, c, m) ((size_t)(handles) * (((size_t)(c) + 22 * (size_t)(m) + 131) / 65536))
/* The longest frame that there is, in bytes: one never takes more of a stream. */
#define WZ_MAX_FRAME 67108868
/* Output: any frame of a whole sending, any answer of a standby, any session of wz_session, in bytes. */
#define WZ_FRAME(c, m) ((size_t)(c) + 22 * (size_t)(m) + 165)
#define WZ_ANSWER 143
#define WZ_SESSION 280
/* The longest stamp, in bytes. */
#define WZ_STAMP 30
/* Any text for a screen, in bytes. */
#define WZ_SCREEN 1500
/* In words: a whole sending, a lag queue, the entries of so many messages, five copies, a quorum, the books of a catch-up, a lease. */
#define WZ_SENDING 5
#define WZ_QUEUE 66
#define WZ_ENTRIES(messages) (6 * (size_t)(messages))
#define WZ_COPIES 30
#define WZ_QUORUM 2564
#define WZ_BOOKS 1286
#define WZ_LEASE 4

/* ---- The line of a whole sending, the last of its words: on a head office's a new frame starts once 1,048,576 message bytes are exceeded, on a branch line 16,384. */
enum wz_line {
    WZ_LINE_HEAD_OFFICE = 0,
    WZ_LINE_BRANCH = 1
};

/* ---- Bytes of a frame (docs/PROTOCOL.md). */
enum wz_kind {
    WZ_KIND_NONE = 0, /* an answer without a frame: done, or a refusal */
    WZ_KIND_HELLO = 1,
    WZ_KIND_WELCOME = 2, /* the answer to a Hello */
    WZ_KIND_BIND = 3,
    WZ_KIND_BATCH = 4,
    WZ_KIND_ACK = 5,   /* a Batch or a Checked is accepted */
    WZ_KIND_NACK = 6,  /* it is not, and the reason says why */
    WZ_KIND_BOUND = 7, /* the answer to a Bind */
    WZ_KIND_CHECKED = 8
};

enum wz_part {
    WZ_PART_COMMIT = 0,
    WZ_PART_WHOLE = 1,
    WZ_PART_LAST_WHOLE = 2
};

enum wz_reason {
    WZ_REASON_STALE_EPOCH = 1, /* the active is deposed: a higher epoch has been seen */
    WZ_REASON_DIVERGED = 2,    /* the batch doesn't follow on: send the session whole */
    WZ_REASON_LAG = 3,         /* a Bind asks for more lag than the standby accepts */
    WZ_REASON_RESTARTED = 4    /* the Checked is of another incarnation: compare again */
};

enum wz_change {
    WZ_CHANGE_SET_NEXT_INCOMING = 1,
    WZ_CHANGE_SET_NEXT_INCOMING_IN_FLIGHT = 2,
    WZ_CHANGE_SET_IN_FLIGHT = 3,
    WZ_CHANGE_RECORD = 4,
    WZ_CHANGE_RECORD_NONE = 5,
    WZ_CHANGE_RESET = 6,
    WZ_CHANGE_SET_CREATED_AT = 7,
    WZ_CHANGE_SET_MARKS = 8
};

/* ---- Refusals (docs/REFUSALS.md). 0 is none. */
enum wz_refusal {
    /* reading a frame */
    WZ_REFUSED_TOO_LONG = 1,       /* a body above 67,108,864 bytes */
    WZ_REFUSED_TRUNCATED = 2,      /* a field longer than what is left, or bytes left over */
    WZ_REFUSED_UNKNOWN_BYTE = 3,   /* of a kind, a part, a reason or a change */
    WZ_REFUSED_BAD_TEXT = 4,       /* not UTF-8 */
    WZ_REFUSED_BAD_SESSION = 5,    /* a key that is none */
    WZ_REFUSED_BAD_TIMESTAMP = 6,
    WZ_REFUSED_BAD_MARKS = 7,
    /* writing one */
    WZ_REFUSED_UNREADABLE = 8,     /* a field that reading would refuse */
    WZ_REFUSED_NO_ROOM = 9,        /* the output area is too short */
    /* taking one */
    WZ_REFUSED_PROMOTED = 10,      /* the standby has taken over */
    WZ_REFUSED_BAD_VERSION = 11,   /* of a Hello, or handed in: neither 1 nor 2 */
    WZ_REFUSED_KINDS_LISTED = 12,  /* a Hello lists kinds of application record */
    WZ_REFUSED_APP_RECORDS = 13,   /* a Batch has application records */
    WZ_REFUSED_UNBOUND = 14,       /* a Batch on a handle without a Bind */
    WZ_REFUSED_CHANGES_HELD = 15,  /* a Commit between the parts of a session sent whole */
    WZ_REFUSED_NO_RESET = 16,      /* the first of those parts without a Reset in front */
    WZ_REFUSED_TOO_MANY_BYTES = 17, /* held messages above 4,294,967,296 bytes */
    WZ_REFUSED_HOLD_AREA_FULL = 18,
    WZ_REFUSED_OTHER_FRAME = 19,   /* a frame that a standby sends */
    WZ_REFUSED_NO_SESSION_PLACE = 20,
    WZ_REFUSED_NO_HANDLE_PLACE = 21,
    /* calls without a frame */
    WZ_REFUSED_OTHER_CONNECTION = 22, /* wz_flush for another connection, or promoted */
    WZ_REFUSED_UNCHECKED = 23,     /* wz_promote, and nobody has checked the copy */
    WZ_REFUSED_NUMBERS_PAST = 24,  /* a sending's commit numbers would pass 2^64 - 1 */
    /* what is lent */
    WZ_REFUSED_RULES_BROKEN = 25,  /* an area, a length or a place that breaks docs/AREAS.md: look at the host */
    WZ_REFUSED_NOT_ONE_FRAME = 26, /* a part of a frame, or more than one */
    /* catch-up, import, lease */
    WZ_REFUSED_TOO_MANY_SESSIONS = 27,
    WZ_REFUSED_FIELD_FAULT = 28,
    WZ_REFUSED_FALSE_LENGTH_OR_SUM = 29,
    WZ_REFUSED_NUMBER_NOT_RISING = 30,
    WZ_REFUSED_TIME_FALLS = 31,
    /* a Bind, a sending */
    WZ_REFUSED_LONG_STAMP = 32,    /* the session's stamp has more than 3 digits after the point, which version 1 doesn't take */
    /* stamps as numbers */
    WZ_REFUSED_STAMP_WITHOUT_NUMBER = 33, /* a year before 1970 or a second 60 */
    WZ_REFUSED_NUMBER_WITHOUT_STAMP = 34, /* past 31 December 9999, or a remainder too large */
    /* resend ranges, quorum, choice */
    WZ_REFUSED_BAD_RANGES = 35,
    WZ_REFUSED_TOO_FEW_ENTRIES = 36,
    WZ_REFUSED_OUTSIDE_QUORUM = 37,
    WZ_REFUSED_OUT_OF_SEQUENCE = 38,
    WZ_REFUSED_NONE_FITS = 39,     /* no copy may take over */
    /* the store */
    WZ_REFUSED_NUMBER_NOT_RECORDED = 40
};

/* ---- Records. Any content may be handed in; 0 everywhere is a new one. */

/* The counters of a standby. `connections` is the number of the current connection; `version2` says which version it speaks (WZ_PROTOCOL_OF). */
typedef struct wz_replica_t {
    uint64_t epoch, connections;
    uint8_t promoted, checked, version2;
} wz_replica_t;

/* A handle that is bound to a session, or a free record. A session has at most one handle: a row of as many records as the store has places is never too short. */
typedef struct wz_bound_t {
    uint8_t used;
    uint32_t handle;
    size_t place;
    uint64_t commit_no;
    size_t held_len;
    uint64_t held_bytes;
} wz_bound_t;

/* S, C and M of a store: the same at every call. */
typedef struct wz_shape_t {
    uint32_t places, bytes, messages;
} wz_shape_t;

/* What no call changes. `incarnation` is another at each start (0 is taken as 1), `max_lag` the most lag that a Bind may ask for and what promotion skips;
   `tells_lowest` says whether an applied Commit hands up the lowest message on hand: one walk over what its session has stored, some 1 ns a message. */
typedef struct wz_settings_t {
    wz_shape_t shape;
    uint64_t incarnation, max_lag;
    uint8_t tells_lowest;
} wz_settings_t;
/* As they are made: it does. */
#define WZ_MADE_SETTINGS(s, c, m, incarnation, max_lag) { { (s), (c), (m) }, (incarnation), (max_lag), 1 }

/* A part of the store's byte area. */
typedef struct wz_span_t {
    size_t at;
    uint32_t len;
} wz_span_t;

/* What a Bound says of a session. */
typedef struct wz_bound_summary_t {
    uint64_t next_outgoing, next_incoming;
    uint8_t has_in_flight;
    uint64_t in_flight;
    wz_span_t created_at, marks;
    uint64_t last_outgoing;
} wz_bound_summary_t;

/* What a call on the standby answers: a refusal; or a frame by its kind, with the fields of that kind; or both 0: done. Beside the frame, which doesn't carry
   it, an applied Commit (if the settings ask) or LastWhole has the lowest number still stored of its session, 0 for none; every other answer has none. */
typedef struct wz_answer_t {
    uint8_t refusal, kind;
    uint32_t handle;
    uint64_t epoch, incarnation, commit_no;
    uint8_t reason;
    wz_bound_summary_t summary;
    uint8_t has_lowest;
    uint64_t lowest;
} wz_answer_t;

/* Of the store's functions: 0 and the value, or the refusal and 0. */
typedef struct wz_store_answer_t {
    uint8_t refusal;
    uint64_t value;
} wz_store_answer_t;

/* Of wz_resend: how many messages are listed, and the sum of their bytes. */
typedef struct wz_listed_t {
    uint8_t refusal;
    size_t length, bytes;
} wz_listed_t;

/* Of wz_import: the new session's place and the lowest number stored of it, 0 for none; beside 28, 29 and 30 the offset of the first faulty message. */
typedef struct wz_built_t {
    uint8_t refusal;
    size_t place, at;
    uint64_t lowest;
} wz_built_t;

/* Of wz_quorum_figure. */
typedef struct wz_shown_t {
    uint8_t refusal;
    uint64_t number;
} wz_shown_t;

/* Of wz_stamp_read: whole milliseconds since 1 January 1970, and the remainder in picoseconds, below 1,000,000,000. */
typedef struct wz_numbered_t {
    uint8_t refusal;
    uint64_t millis, picos;
} wz_numbered_t;

/* Of the books: `flag` is 1 for wait, for a session that is picked, and for yes. */
typedef struct wz_answered_t {
    uint8_t refusal, flag;
    uint64_t session;
} wz_answered_t;

/* Of wz_lease_renewal. */
typedef struct wz_due_t {
    uint8_t refusal, due;
} wz_due_t;

/* ---- Codes: what wz_read, wz_frame, wz_answer, wz_session, wz_find, wz_message, wz_screen_.., wz_send, wz_queue, wz_choose and
   wz_stamp_write return. */
#define WZ_OK(v) ((int)((uint64_t)(v) >> 63))                              /* 1: done */
#define WZ_COUNT(v) ((uint64_t)(v) & UINT64_C(0x3fffffffffffffff))         /* done: bytes taken or written, numbers that went, the place, the copy */
#define WZ_LAST UINT64_C(0xc000000000000000)                               /* wz_send: no frame is left */
#define WZ_MORE UINT64_C(0)                                                /* wz_read, wz_frame: no whole frame yet */
#define WZ_NOT_STORED UINT64_C(0)                                          /* wz_find, wz_message: no session has the key, no message the number */
#define WZ_REFUSAL(v) (WZ_OK(v) ? 0 : (int)((uint64_t)(v) >> 40))          /* else the refusal, */
#define WZ_DETAIL(v) ((uint32_t)((uint64_t)(v) & UINT64_C(0xffffffff)))    /* with the length for 1, field x 256 + value for 3 */

/* ---- The version of the archive: WZ_VERSION of the header that it belongs to. */
uint32_t wz_version(void);

/* ---- The standby. `holds` are the hold areas, `ends` the words that say where their closed segments end: any content, any length, none too. */

/* A standby over a store: new counters, every handle free; the sessions stay. 25. */
wz_answer_t wz_standby_make(wz_replica_t *counters, wz_bound_t *row, size_t row_len, uint64_t *words, size_t words_len, const uint8_t *bytes, size_t bytes_len,
    wz_settings_t settings);

/* Takes one whole frame and runs the pending commits. 1 to 7, 10 to 21, 25, 26, 32. */
wz_answer_t wz_on_frame(wz_replica_t *counters, wz_bound_t *row, size_t row_len, uint64_t *words, size_t words_len, uint8_t *bytes, size_t bytes_len,
    uint8_t *holds, size_t holds_len, uint64_t *ends, size_t ends_len, const uint8_t *frame, size_t frame_len, wz_settings_t settings);

/* Takes one whole frame; its commit stays pending until wz_flush or a later frame, and its answer is sent after that. As wz_on_frame. */
wz_answer_t wz_on_frame_held(wz_replica_t *counters, wz_bound_t *row, size_t row_len, uint64_t *words, size_t words_len, uint8_t *bytes, size_t bytes_len,
    uint8_t *holds, size_t holds_len, uint64_t *ends, size_t ends_len, const uint8_t *frame, size_t frame_len, wz_settings_t settings);

/* Runs the pending commits of a connection. 22, 25. */
wz_answer_t wz_flush(wz_replica_t *counters, wz_bound_t *row, size_t row_len, uint64_t *words, size_t words_len, uint8_t *bytes, size_t bytes_len, uint8_t *holds,
    size_t holds_len, uint64_t *ends, size_t ends_len, uint64_t connection, wz_settings_t settings);

/* A connection is gone: if it is the current one, handles and pending commits go. 25. */
wz_answer_t wz_disconnected_from(wz_replica_t *counters, wz_bound_t *row, size_t row_len, uint64_t *words, size_t words_len, uint8_t *bytes, size_t bytes_len,
    uint8_t *holds, size_t holds_len, uint64_t *ends, size_t ends_len, uint64_t connection, wz_settings_t settings);

/* Takes over: every next outgoing number is raised by max_lag, every session marked B. 23, 25; the second without 23. */
wz_answer_t wz_promote(wz_replica_t *counters, wz_bound_t *row, size_t row_len, uint64_t *words, size_t words_len, uint8_t *bytes, size_t bytes_len, uint8_t *holds,
    size_t holds_len, uint64_t *ends, size_t ends_len, wz_settings_t settings);
wz_answer_t wz_promote_unchecked(wz_replica_t *counters, wz_bound_t *row, size_t row_len, uint64_t *words, size_t words_len, uint8_t *bytes, size_t bytes_len,
    uint8_t *holds, size_t holds_len, uint64_t *ends, size_t ends_len, wz_settings_t settings);

/* The bytes of an answer's frame, none for done; `bytes` is the store's, `version` what the connection speaks after the call (WZ_PROTOCOL_OF). 11; the answer's own
   refusal; 8 for a record that no call answers, and in version 1 for a long stamp; 9. */
uint64_t wz_answer(wz_answer_t answer, const uint8_t *bytes, size_t bytes_len, uint8_t *out, size_t out_len, uint16_t version);

/* ---- Frames, in a version. */

/* How many bytes the first frame of a stream takes, or WZ_MORE. 11, 1 to 7. */
uint64_t wz_read(const uint8_t *frame, size_t frame_len, uint16_t version);

/* The same, and the frame is written again. 11, 1 to 7, 9. */
uint64_t wz_frame(const uint8_t *frame, size_t frame_len, uint8_t *out, size_t out_len, uint16_t version);

/* ---- Sessions of a store by their place, from 0 to words[0] - 1. */

/* The session as bytes: durable, in flight given (a byte each); begin string, sender, target, suffix (a u32 length and the text each); next outgoing, next incoming, in
   flight (u64); stamp, marks (as the texts); the hash of the last n numbers' messages (u64). 9, 25. */
uint64_t wz_session(const uint64_t *words, size_t words_len, const uint8_t *bytes, size_t bytes_len, uint8_t *out, size_t out_len, uint32_t sessions, uint32_t c,
    uint32_t m, size_t place, uint64_t n);

/* The place of the session with a key, or WZ_NOT_STORED. 25. */
uint64_t wz_find(const uint64_t *words, size_t words_len, const uint8_t *bytes, size_t bytes_len, const uint8_t *begin, size_t begin_len, const uint8_t *sender,
    size_t sender_len, const uint8_t *target, size_t target_len, const uint8_t *suffix, size_t suffix_len, uint32_t sessions, uint32_t c, uint32_t m);

/* The stored message with a number, or WZ_NOT_STORED: it was recorded without one, has gone for newer ones, or is still to come. 9, 25. */
uint64_t wz_message(const uint64_t *words, size_t words_len, const uint8_t *bytes, size_t bytes_len, uint8_t *out, size_t out_len, uint32_t sessions, uint32_t c,
    uint32_t m, size_t place, uint64_t number);

/* The lowest number still stored of the session at a place, 0 for none: how far back a resend can go. 25. */
wz_store_answer_t wz_lowest(const uint64_t *words, size_t words_len, const uint8_t *bytes, size_t bytes_len, uint32_t sessions, uint32_t c, uint32_t m, size_t place);

/* The next frame of sending a session whole in a version, until WZ_LAST; `sending` has the last commit number, three zeros, and the line (WZ_LINE_..) at first. 25, 11,
   32, 24; later 25, 11, 32 (only where the frame to be sent has the stamp, the first), 9. */
uint64_t wz_send(const uint64_t *words, size_t words_len, const uint8_t *bytes, size_t bytes_len, uint64_t *sending, size_t sending_len, uint8_t *out, size_t out_len,
    uint32_t sessions, uint32_t c, uint32_t m, size_t place, uint32_t handle, uint64_t epoch, uint16_t version);

/* The stored messages that lie in some range; a range is first and last, an entry number, set of ranges, two parts of the byte area. 25, 35, 36. */
wz_listed_t wz_resend(const uint64_t *words, size_t words_len, const uint8_t *bytes, size_t bytes_len, const uint64_t *ranges, size_t ranges_len, uint64_t *entries,
    size_t entries_len, uint32_t sessions, uint32_t c, uint32_t m, size_t place);

/* A new session from a file of sent messages. 5, 20, 25, 28 to 30. */
wz_built_t wz_import(uint64_t *words, size_t words_len, uint8_t *bytes, size_t bytes_len, const uint8_t *begin, size_t begin_len, const uint8_t *sender,
    size_t sender_len, const uint8_t *target, size_t target_len, const uint8_t *suffix, size_t suffix_len, const uint8_t *file, size_t file_len, uint32_t sessions,
    uint32_t c, uint32_t m);

/* ---- What a screen shows: text in lines of at most 80 columns, each with its line feed; a byte that isn't printable ASCII is shown as '.'. */

/* A session in five lines, more where its key or its numbers are long. 9, 25. */
uint64_t wz_screen_session(const uint64_t *words, size_t words_len, const uint8_t *bytes, size_t bytes_len, uint8_t *out, size_t out_len, uint32_t sessions,
    uint32_t c, uint32_t m, size_t place);

/* A frame in a line: which it is and where it begins, what it is, and what was answered: a refusal, or 0 and the bytes of wz_answer. 9. */
uint64_t wz_screen_frame(uint64_t number, uint64_t offset, const uint8_t *frame, size_t frame_len, uint8_t refusal, const uint8_t *reply, size_t reply_len, uint8_t *out,
    size_t out_len);

/* What a refusal means and what to do, by its number. 9. */
uint64_t wz_screen_refusal(uint8_t number, uint8_t *out, size_t out_len);

/* ---- The store. */

/* A store without sessions. 25. */
uint8_t wz_store_make(uint64_t *words, size_t words_len, const uint8_t *bytes, size_t bytes_len, wz_shape_t shape);

/* The place of a key, whose session is new if it had none. 5, 20, 25. */
wz_store_answer_t wz_store_open(uint64_t *words, size_t words_len, uint8_t *bytes, size_t bytes_len, wz_shape_t shape, const uint8_t *begin, size_t begin_len,
    const uint8_t *sender, size_t sender_len, const uint8_t *target, size_t target_len, const uint8_t *suffix, size_t suffix_len);

/* Next outgoing; the hash of the last n numbers' messages; how many messages are stored. 25. */
wz_store_answer_t wz_store_next_outgoing(const uint64_t *words, size_t words_len, const uint8_t *bytes, size_t bytes_len, wz_shape_t shape, size_t place);
wz_store_answer_t wz_store_last_outgoing(const uint64_t *words, size_t words_len, const uint8_t *bytes, size_t bytes_len, wz_shape_t shape, size_t place, uint64_t n);
wz_store_answer_t wz_store_count(const uint64_t *words, size_t words_len, const uint8_t *bytes, size_t bytes_len, wz_shape_t shape, size_t place);

/* The durable mark; what promotion does to one session. 25. */
uint8_t wz_store_mark_durable(uint64_t *words, size_t words_len, const uint8_t *bytes, size_t bytes_len, wz_shape_t shape, size_t place);
uint8_t wz_store_take_over(uint64_t *words, size_t words_len, uint8_t *bytes, size_t bytes_len, wz_shape_t shape, size_t place, uint64_t lag);

/* The eight changes: 25, then 40 for wz_store_record (the next number's message) and wz_store_record_none, 6 for the stamp, 7 for the marks. The value of
   wz_store_record is the lowest number still stored then, 0 for none, also where the message is longer than C. */
uint8_t wz_store_set_next_incoming(uint64_t *words, size_t words_len, const uint8_t *bytes, size_t bytes_len, wz_shape_t shape, size_t place, uint64_t seq);
uint8_t wz_store_set_next_incoming_in_flight(uint64_t *words, size_t words_len, const uint8_t *bytes, size_t bytes_len, wz_shape_t shape, size_t place, uint64_t seq,
    uint64_t in_flight);
uint8_t wz_store_set_in_flight(uint64_t *words, size_t words_len, const uint8_t *bytes, size_t bytes_len, wz_shape_t shape, size_t place, uint64_t seq);
wz_store_answer_t wz_store_record(uint64_t *words, size_t words_len, uint8_t *bytes, size_t bytes_len, wz_shape_t shape, size_t place, const uint8_t *text, size_t text_len);
uint8_t wz_store_record_none(uint64_t *words, size_t words_len, const uint8_t *bytes, size_t bytes_len, wz_shape_t shape, size_t place, uint64_t seq);
uint8_t wz_store_reset(uint64_t *words, size_t words_len, const uint8_t *bytes, size_t bytes_len, wz_shape_t shape, size_t place);
uint8_t wz_store_set_created_at(uint64_t *words, size_t words_len, uint8_t *bytes, size_t bytes_len, wz_shape_t shape, size_t place, const uint8_t *text,
    size_t text_len);
uint8_t wz_store_set_marks(uint64_t *words, size_t words_len, uint8_t *bytes, size_t bytes_len, wz_shape_t shape, size_t place, const uint8_t *text, size_t text_len);

/* FNV-1a (64 bits) on from a hash. */
uint64_t wz_store_fnv(uint64_t hash, const uint8_t *s, size_t s_len);

/* ---- Stamps as numbers, for reports that sort by time; a stamp has 0, 3, 6, 9 or 12 digits after the point, whatever a connection's version. */

/* A stamp's number. 6, 33. */
wz_numbered_t wz_stamp_read(const uint8_t *stamp, size_t stamp_len);

/* A number's stamp, with the fewest digits that lose nothing, at the start of the area; at most WZ_STAMP bytes. 9, 34. */
uint64_t wz_stamp_write(uint64_t millis, uint64_t picos, uint8_t *out, size_t out_len);

/* ---- The active: the lag queue. One push; the count is of the numbers that went. 25. */
uint64_t wz_queue(uint64_t *queue, size_t queue_len, uint64_t max_lag, uint64_t last);

/* ---- The active: its lease. Times never fall (31). `outcome`: 0 renewed, 1 failed, any other deposed. */
void wz_lease_new(uint64_t lease[WZ_LEASE], uint64_t duration, uint64_t time);
wz_due_t wz_lease_renewal(uint64_t lease[WZ_LEASE], uint64_t time);
uint8_t wz_lease_attempt(uint64_t lease[WZ_LEASE], uint64_t started, uint64_t time, uint8_t outcome);

/* ---- The active: the books of catching a standby up. A session is any u64 that names it, a listing all of them in the store's order. 25, 27. */
wz_answered_t wz_books_make(uint64_t *words, size_t words_len);
wz_answered_t wz_books_fall_behind(uint64_t *words, size_t words_len, uint64_t session);
wz_answered_t wz_books_all_fall_behind(uint64_t *words, size_t words_len, const uint64_t *listing, size_t listing_len);
wz_answered_t wz_books_caught_up(uint64_t *words, size_t words_len, uint64_t session, uint64_t incarnation);
wz_answered_t wz_books_behind_unless_compared_open(uint64_t *words, size_t words_len, uint64_t incarnation);
wz_answered_t wz_books_next_to_catch_up(uint64_t *words, size_t words_len, const uint64_t *listing, size_t listing_len, uint64_t incarnation);
wz_answered_t wz_books_opening(uint64_t *words, size_t words_len, uint64_t session);
wz_answered_t wz_books_closed(uint64_t *words, size_t words_len, uint64_t session);
wz_answered_t wz_books_ended(uint64_t *words, size_t words_len, uint64_t session, uint64_t incarnation);
wz_answered_t wz_books_all_compared(uint64_t *words, size_t words_len, const uint64_t *listing, size_t listing_len, uint64_t incarnation);
wz_answered_t wz_books_acknowledged(uint64_t *words, size_t words_len, uint64_t incarnation);
wz_answered_t wz_books_is_behind(const uint64_t *words, size_t words_len, uint64_t session);

/* ---- The active: up to five standbys, counted from 0, of which k must hold a commit. 25, 37, 38. */
uint8_t wz_quorum_make(uint64_t *words, size_t words_len, uint64_t n, uint64_t k);
uint8_t wz_quorum_bind(uint64_t *words, size_t words_len, uint32_t handle);
uint8_t wz_quorum_sent(uint64_t *words, size_t words_len, uint32_t handle, uint64_t number);
uint8_t wz_quorum_acknowledged(uint64_t *words, size_t words_len, size_t member, uint32_t handle, uint64_t number);
uint8_t wz_quorum_stale_epoch(uint64_t *words, size_t words_len, size_t member);
wz_shown_t wz_quorum_figure(const uint64_t *words, size_t words_len, uint32_t handle);

/* ---- Which of up to five copies takes over. Six words of `copies` for each: listed, checked, epoch, S, C, M. 25, 39. */
uint64_t wz_choose(const uint64_t *copies, size_t copies_len, const uint64_t *w0, size_t w0_len, const uint8_t *b0, size_t b0_len, const uint64_t *w1, size_t w1_len,
    const uint8_t *b1, size_t b1_len, const uint64_t *w2, size_t w2_len, const uint8_t *b2, size_t b2_len, const uint64_t *w3, size_t w3_len, const uint8_t *b3,
    size_t b3_len, const uint64_t *w4, size_t w4_len, const uint8_t *b4, size_t b4_len);

/* ---- The layout that the archive was compiled for. */
#if defined(__cplusplus)
#define WZ_LAYOUT(name, holds) static_assert(holds, "wizhdulet.h: the layout of " #name)
#elif defined(__STDC_VERSION__) && __STDC_VERSION__ >= 201112L
#define WZ_LAYOUT(name, holds) _Static_assert(holds, "wizhdulet.h: the layout of " #name)
#else
#define WZ_LAYOUT(name, holds) typedef char wz_layout_##name[(holds) ? 1 : -1]
#endif
#define WZ_AT(type, field, offset) (offsetof(type, field) == (offset))
WZ_LAYOUT(machine, sizeof(void *) == 8 && sizeof(size_t) == 8);
WZ_LAYOUT(replica, sizeof(wz_replica_t) == 24 && WZ_AT(wz_replica_t, connections, 8) && WZ_AT(wz_replica_t, promoted, 16) && WZ_AT(wz_replica_t, checked, 17)
    && WZ_AT(wz_replica_t, version2, 18));
WZ_LAYOUT(bound, sizeof(wz_bound_t) == 40 && WZ_AT(wz_bound_t, handle, 4) && WZ_AT(wz_bound_t, place, 8) && WZ_AT(wz_bound_t, commit_no, 16)
    && WZ_AT(wz_bound_t, held_len, 24) && WZ_AT(wz_bound_t, held_bytes, 32));
WZ_LAYOUT(shape, sizeof(wz_shape_t) == 12 && WZ_AT(wz_shape_t, bytes, 4) && WZ_AT(wz_shape_t, messages, 8));
WZ_LAYOUT(settings, sizeof(wz_settings_t) == 40 && WZ_AT(wz_settings_t, incarnation, 16) && WZ_AT(wz_settings_t, max_lag, 24)
    && WZ_AT(wz_settings_t, tells_lowest, 32));
WZ_LAYOUT(span, sizeof(wz_span_t) == 16 && WZ_AT(wz_span_t, len, 8));
WZ_LAYOUT(bound_summary, sizeof(wz_bound_summary_t) == 72 && WZ_AT(wz_bound_summary_t, next_incoming, 8) && WZ_AT(wz_bound_summary_t, has_in_flight, 16)
    && WZ_AT(wz_bound_summary_t, in_flight, 24) && WZ_AT(wz_bound_summary_t, created_at, 32) && WZ_AT(wz_bound_summary_t, marks, 48)
    && WZ_AT(wz_bound_summary_t, last_outgoing, 64));
WZ_LAYOUT(answer, sizeof(wz_answer_t) == 128 && WZ_AT(wz_answer_t, kind, 1) && WZ_AT(wz_answer_t, handle, 4) && WZ_AT(wz_answer_t, epoch, 8)
    && WZ_AT(wz_answer_t, incarnation, 16) && WZ_AT(wz_answer_t, commit_no, 24) && WZ_AT(wz_answer_t, reason, 32) && WZ_AT(wz_answer_t, summary, 40)
    && WZ_AT(wz_answer_t, has_lowest, 112) && WZ_AT(wz_answer_t, lowest, 120));
WZ_LAYOUT(store_answer, sizeof(wz_store_answer_t) == 16 && WZ_AT(wz_store_answer_t, value, 8));
WZ_LAYOUT(listed, sizeof(wz_listed_t) == 24 && WZ_AT(wz_listed_t, length, 8) && WZ_AT(wz_listed_t, bytes, 16));
WZ_LAYOUT(built, sizeof(wz_built_t) == 32 && WZ_AT(wz_built_t, place, 8) && WZ_AT(wz_built_t, at, 16) && WZ_AT(wz_built_t, lowest, 24));
WZ_LAYOUT(shown, sizeof(wz_shown_t) == 16 && WZ_AT(wz_shown_t, number, 8));
WZ_LAYOUT(numbered, sizeof(wz_numbered_t) == 24 && WZ_AT(wz_numbered_t, millis, 8) && WZ_AT(wz_numbered_t, picos, 16));
WZ_LAYOUT(answered, sizeof(wz_answered_t) == 16 && WZ_AT(wz_answered_t, flag, 1) && WZ_AT(wz_answered_t, session, 8));
WZ_LAYOUT(due, sizeof(wz_due_t) == 2 && WZ_AT(wz_due_t, due, 1));
#undef WZ_AT
#undef WZ_LAYOUT

#ifdef __cplusplus
}
#endif
#endif

/* A program over libwizhdulet.a with functions of its own that have the crates' bare names. It calls every function of wizhdulet.h, and finds each field of each record where
   the header has it, by what a call leaves or answers there; the lengths of areas are tried with one less, too. */
#include <stdio.h>
#include <stdlib.h>
#include <string.h>
#include <wizhdulet.h>

/* The host's own: the archive must neither define nor call these. */
static int own;
int make(void), flush(void), promote(void), on_frame(void), store_record(void);
int make(void) { return ++own; }
int flush(void) { return ++own; }
int promote(void) { return ++own; }
int on_frame(void) { return ++own; }
int store_record(void) { return ++own; }

static int tests, failed;
static void holds(int is, int line, const char *words) {
    tests++;
    if (!is) failed++, printf("library: line %d is not so: %s\n", line, words);
}
#define HOLDS(is) holds(is, __LINE__, #is)

enum { S = 3, C = 1024, M = 16, H = 4, WORDS = 66 + S * (16 + 2 * M), BYTES = S * (224 + C), HOLDS_LEN = H * (C + 22 * M + 131), ENDS_LEN = H + 1 };
static const wz_shape_t shape = { S, C, M };
static const wz_settings_t settings = WZ_MADE_SETTINGS(S, C, M, 77, 5);
struct copy {
    wz_replica_t counters;
    wz_bound_t row[H];
    uint64_t words[WORDS];
    uint8_t bytes[BYTES], holds[HOLDS_LEN];
    uint64_t ends[ENDS_LEN];
};
static struct copy a, b;
#define STORE(x) (x).words, WORDS, (x).bytes, BYTES
#define LENT(x) &(x).counters, (x).row, H, STORE(x), (x).holds, HOLDS_LEN, (x).ends, ENDS_LEN
#define TEXT(t) (const uint8_t *)(t), sizeof(t) - 1

/* One frame, field by field. */
static uint8_t frame[8192], out[8192];
static size_t len;
static void number(uint64_t value, int bytes) { while (bytes-- > 0) { frame[len++] = (uint8_t)value; value >>= 8; } }
static void text(const char *t) { number(strlen(t), 4); memcpy(frame + len, t, strlen(t)); len += strlen(t); }
static void begin(int kind) { len = 4; number((uint64_t)kind, 1); }
static void end(void) { size_t n = len; len = 0; number(n - 4, 4); len = n; }
static void hello_in(uint16_t version, uint64_t epoch) { begin(WZ_KIND_HELLO); number(version, 2); number(epoch, 8); text("node"); number(0, 4); end(); }
static void hello(uint64_t epoch) { hello_in(1, epoch); }
static void bind(uint32_t handle, uint64_t lag, const char *target) {
    begin(WZ_KIND_BIND); number(handle, 4); number(5, 8); number(lag, 8); text("FIX.4.4"); text("BROKER"); text(target); text(""); end();
}
static void batch(uint32_t handle, uint64_t no, int part, uint32_t changes) {
    begin(WZ_KIND_BATCH); number(handle, 4); number(5, 8); number(no, 8); number((uint64_t)part, 1); number(changes, 4);
}
static wz_answer_t give(struct copy *x) { return wz_on_frame(LENT(*x), frame, len, settings); }
/* The version that a standby's connection speaks. */
static uint16_t version(const struct copy *x) { return x->counters.version2 ? 2 : 1; }

static void stores(void) {
    struct copy *x = &a;
    HOLDS(WZ_WORDS(S, M) == WORDS && WZ_BYTES(S, C) == BYTES && WZ_HOLDS(H, C, M) == HOLDS_LEN);
    HOLDS(WZ_ENDS(H, C, M) == 0 && WZ_ENDS(4, 65405, 0) == 4 && WZ_ENDS(4, 65404, 0) == 0 && WZ_ENDS(1, WZ_MAX_C, WZ_MAX_M) == 534);
    HOLDS(wz_store_make(x->words, WORDS - 1, x->bytes, BYTES, shape) == WZ_REFUSED_RULES_BROKEN);
    HOLDS(wz_store_make(x->words, WORDS, x->bytes, BYTES - 1, shape) == WZ_REFUSED_RULES_BROKEN);
    HOLDS(wz_store_make(STORE(a), shape) == 0);
    HOLDS(wz_store_make(STORE(b), shape) == 0);
    wz_shape_t wide = { S, WZ_MAX_C + 1, M };
    HOLDS(wz_store_make(STORE(a), wide) == WZ_REFUSED_RULES_BROKEN);
    HOLDS(wz_standby_make(&a.counters, a.row, H, STORE(a), settings).refusal == 0);
    HOLDS(wz_standby_make(&b.counters, b.row, H, STORE(b), settings).refusal == 0);
}

static wz_answer_t call(int which, struct copy *x) {
    switch (which) {
    case 0: return wz_on_frame_held(LENT(*x), frame, len, settings);
    case 1: return wz_on_frame(LENT(*x), frame, len, settings);
    case 2: return wz_flush(LENT(*x), x->counters.connections, settings);
    case 3: return wz_disconnected_from(LENT(*x), x->counters.connections, settings);
    case 4: return wz_promote(LENT(*x), settings);
    default: return wz_promote_unchecked(LENT(*x), settings);
    }
}

/* Rows in which two used records name one place, have one handle, or both: 25 from each of the six calls, and all as it was. Without the second record they keep the rules. */
static void rows(void) {
    static struct copy lent, left;
    for (int i = 0; i < H; i++)
        for (int j = 0; j < H; j++)
            for (int kind = 0; i != j && kind < 3; kind++) {
                memcpy(&lent, &a, sizeof lent);
                memset(lent.row, 0, sizeof lent.row);
                lent.row[i].used = 1, lent.row[i].handle = 7, lent.row[i].place = 1;
                lent.row[j].used = 255, lent.row[j].handle = kind == 0 ? 7 + 256 : 7, lent.row[j].place = kind == 1 ? 0 : 1;
                for (int which = 0; which < 6; which++) {
                    memcpy(&left, &lent, sizeof left);
                    HOLDS(call(which, &left).refusal == WZ_REFUSED_RULES_BROKEN && !memcmp(&left, &lent, sizeof left));
                }
                lent.row[j].used = 0;
                memcpy(&left, &lent, sizeof left);
                HOLDS(wz_disconnected_from(LENT(left), left.counters.connections + 1, settings).refusal == 0 && !memcmp(&left, &lent, sizeof left));
            }
}

static void standby(void) {
    hello(5);
    HOLDS(wz_read(frame, len - 1, 1) == WZ_MORE);
    HOLDS(WZ_OK(wz_read(frame, len, 1)) && WZ_COUNT(wz_read(frame, len, 1)) == len);
    HOLDS(WZ_COUNT(wz_frame(frame, len, out, sizeof out, 1)) == len && !memcmp(frame, out, len));
    wz_answer_t r = give(&a);
    HOLDS(r.refusal == 0 && r.kind == WZ_KIND_WELCOME && r.epoch == 5 && r.incarnation == 77);
    HOLDS(a.counters.epoch == 5 && a.counters.connections == 1 && !a.counters.promoted && !a.counters.checked && !a.counters.version2);
    HOLDS(WZ_COUNT(wz_answer(r, a.bytes, BYTES, out, sizeof out, 1)) == 21 && out[4] == WZ_KIND_WELCOME && out[5] == 5 && out[13] == 77);
    HOLDS(WZ_REFUSAL(wz_answer(r, a.bytes, BYTES, out, 20, 1)) == WZ_REFUSED_NO_ROOM);
    bind(0x01020304, 6, "VENUE");
    r = give(&a);
    HOLDS(r.kind == WZ_KIND_NACK && r.reason == WZ_REASON_LAG && r.handle == 0x01020304);
    bind(0x01020304, 5, "VENUE");
    r = give(&a);
    HOLDS(r.kind == WZ_KIND_BOUND && r.handle == 0x01020304 && r.summary.next_outgoing == 1 && r.summary.next_incoming == 1 && !r.summary.has_in_flight);
    bind(9, 5, "DARKPOOL");
    HOLDS(give(&a).kind == WZ_KIND_BOUND);
    HOLDS(a.row[0].used == 1 && a.row[0].handle == 0x01020304 && a.row[0].place == 0 && a.row[0].commit_no == 0);
    HOLDS(a.row[1].used == 1 && a.row[1].handle == 9 && a.row[1].place == 1 && !a.row[2].used);
    batch(9, 1, WZ_PART_COMMIT, 5);
    number(WZ_CHANGE_SET_CREATED_AT, 1); text("20261116-12:00:00");
    number(WZ_CHANGE_RECORD, 1); number(1, 8); text("one");
    number(WZ_CHANGE_RECORD_NONE, 1); number(2, 8);
    number(WZ_CHANGE_SET_NEXT_INCOMING_IN_FLIGHT, 1); number(8, 8); number(7, 8);
    number(WZ_CHANGE_SET_MARKS, 1); text("m");
    number(0, 4); end();
    r = wz_on_frame_held(LENT(a), frame, len, settings);
    HOLDS(r.kind == WZ_KIND_ACK && r.handle == 9 && r.commit_no == 1 && a.row[1].commit_no == 1 && a.words[1] == 1);
    HOLDS(wz_flush(LENT(a), 2, settings).refusal == WZ_REFUSED_OTHER_CONNECTION);
    HOLDS(wz_flush(LENT(a), 1, settings).refusal == 0 && a.words[1] == 0);
    /* A session has one handle: 9's record goes, and 10's stands there, for it comes before the first free one. */
    bind(10, 5, "DARKPOOL");
    r = give(&a);
    HOLDS(r.kind == WZ_KIND_BOUND && a.row[1].used == 1 && a.row[1].handle == 10 && a.row[1].place == 1 && a.row[1].commit_no == 0 && !a.row[2].used);
    HOLDS(r.summary.next_outgoing == 3 && r.summary.next_incoming == 8 && r.summary.has_in_flight == 1 && r.summary.in_flight == 7);
    HOLDS(r.summary.created_at.len == 17 && !memcmp(a.bytes + r.summary.created_at.at, "20261116-12:00:00", 17));
    HOLDS(r.summary.marks.len == 1 && a.bytes[r.summary.marks.at] == 'm');
    HOLDS(r.summary.last_outgoing == wz_store_last_outgoing(STORE(a), shape, 1, 5).value);
    batch(10, 1, WZ_PART_WHOLE, 2);
    number(WZ_CHANGE_RESET, 1); number(WZ_CHANGE_RECORD, 1); number(1, 8); text("held"); number(0, 4); end();
    /* A Whole writes one word, of the place of its handle's record. */
    memset(a.ends, 255, sizeof a.ends);
    HOLDS(give(&a).kind == WZ_KIND_ACK && a.row[1].held_len == 18 && a.row[1].held_bytes == 4);
    for (int i = 0; i < ENDS_LEN; i++) HOLDS(a.ends[i] == (i == 1 ? 0 : UINT64_MAX));
    batch(9, 2, WZ_PART_COMMIT, 0); number(0, 4); end();
    r = give(&a);
    HOLDS(r.refusal == WZ_REFUSED_UNBOUND && r.kind == WZ_KIND_NONE && WZ_REFUSAL(wz_answer(r, a.bytes, BYTES, out, sizeof out, 1)) == WZ_REFUSED_UNBOUND);
    rows();
    frame[4] = 99;
    HOLDS(WZ_REFUSAL(wz_read(frame, len, 1)) == WZ_REFUSED_UNKNOWN_BYTE && WZ_DETAIL(wz_read(frame, len, 1)) == 99);
    rows();
}

/* The session at a's place 1 is sent whole into b, which then takes over. */
static void whole(void) {
    uint64_t sending[WZ_SENDING] = { 0 }, code;
    hello(5); HOLDS(give(&b).kind == WZ_KIND_WELCOME);
    bind(9, 0, "DARKPOOL"); HOLDS(give(&b).kind == WZ_KIND_BOUND);
    HOLDS(WZ_REFUSAL(wz_send(STORE(a), sending, WZ_SENDING - 1, out, sizeof out, S, C, M, 1, 9, 5, 1)) == WZ_REFUSED_RULES_BROKEN);
    HOLDS(sizeof frame >= WZ_FRAME(C, M));
    while (code = wz_send(STORE(a), sending, WZ_SENDING, frame, WZ_FRAME(C, M), S, C, M, 1, 9, 5, 1), code != WZ_LAST) {
        if (!WZ_OK(code)) { HOLDS(!"a refused sending"); return; }
        len = WZ_COUNT(code);
        HOLDS(give(&b).kind == WZ_KIND_ACK);
    }
    uint8_t told[2][WZ_SESSION];
    uint64_t of_a = wz_session(STORE(a), told[0], WZ_SESSION, S, C, M, 1, UINT64_MAX), of_b = wz_session(STORE(b), told[1], WZ_SESSION, S, C, M, 0, UINT64_MAX);
    HOLDS(WZ_OK(of_a) && of_a == of_b && !memcmp(told[0], told[1], WZ_COUNT(of_a)));
    HOLDS(wz_promote(LENT(b), settings).refusal == WZ_REFUSED_UNCHECKED);
    begin(WZ_KIND_CHECKED); number(9, 4); number(5, 8); number(77, 8); end();
    HOLDS(give(&b).kind == WZ_KIND_ACK && b.counters.checked == 1);
    HOLDS(wz_disconnected_from(LENT(b), 1, settings).refusal == 0 && !b.row[0].used);
    uint64_t copies[WZ_COPIES] = { 1, b.counters.checked, b.counters.epoch, S, C, M, 1, a.counters.checked, a.counters.epoch, S, C, M };
    HOLDS(wz_choose(copies, WZ_COPIES, STORE(b), STORE(a), STORE(a), STORE(a), STORE(a)) == UINT64_C(1) << 63);
    HOLDS(WZ_REFUSAL(wz_choose(copies, WZ_COPIES - 1, STORE(b), STORE(a), STORE(a), STORE(a), STORE(a))) == WZ_REFUSED_RULES_BROKEN);
    copies[1] = 0;
    HOLDS(WZ_REFUSAL(wz_choose(copies, WZ_COPIES, STORE(b), STORE(a), STORE(a), STORE(a), STORE(a))) == WZ_REFUSED_NONE_FITS);
    HOLDS(wz_promote(LENT(b), settings).refusal == 0 && b.counters.promoted == 1 && wz_store_next_outgoing(STORE(b), shape, 0).value == 8);
    HOLDS(wz_promote_unchecked(LENT(a), settings).refusal == 0 && a.counters.promoted == 1 && give(&a).refusal == WZ_REFUSED_PROMOTED);
}

static void changes(void) {
    HOLDS(wz_store_make(STORE(a), shape) == 0);
    HOLDS(wz_store_open(STORE(a), shape, TEXT(""), TEXT("S"), TEXT("T"), TEXT("")).refusal == WZ_REFUSED_BAD_SESSION);
    HOLDS(wz_store_open(STORE(a), shape, TEXT("FIX.4.2"), TEXT("S"), TEXT("T"), TEXT("")).value == 0);
    wz_store_answer_t second = wz_store_open(STORE(a), shape, TEXT("FIX.4.2"), TEXT("S"), TEXT("U"), TEXT("x"));
    HOLDS(second.refusal == 0 && second.value == 1 && a.words[0] == 2);
    HOLDS(wz_store_record(STORE(a), shape, 1, TEXT("first")).refusal == 0 && wz_store_record(STORE(a), shape, 2, TEXT("none")).refusal == WZ_REFUSED_RULES_BROKEN);
    HOLDS(wz_store_record_none(STORE(a), shape, 1, 1) == WZ_REFUSED_NUMBER_NOT_RECORDED && wz_store_record_none(STORE(a), shape, 1, 3) == 0);
    HOLDS(wz_store_record(STORE(a), shape, 1, TEXT("fourth")).refusal == 0 && wz_store_count(STORE(a), shape, 1).value == 2);
    HOLDS(wz_lowest(STORE(a), S, C, M, 1).refusal == 0 && wz_lowest(STORE(a), S, C, M, 1).value == 1 && wz_lowest(STORE(a), S, C, M, 2).refusal == WZ_REFUSED_RULES_BROKEN);
    HOLDS(wz_store_set_next_incoming(STORE(a), shape, 1, 12) == 0 && wz_store_set_in_flight(STORE(a), shape, 1, 11) == 0);
    HOLDS(wz_store_set_next_incoming_in_flight(STORE(a), shape, 1, 13, 12) == 0);
    HOLDS(wz_store_set_created_at(STORE(a), shape, 1, TEXT("today")) == WZ_REFUSED_BAD_TIMESTAMP && wz_store_set_created_at(STORE(a), shape, 1, TEXT("20261116-12:00:00")) == 0);
    HOLDS(wz_store_set_marks(STORE(a), shape, 1, TEXT("\n")) == WZ_REFUSED_BAD_MARKS && wz_store_set_marks(STORE(a), shape, 1, TEXT("q")) == 0);
    uint64_t ranges[] = { 1, 1, 2, 0 }, entries[WZ_ENTRIES(M)];
    wz_listed_t listed = wz_resend(STORE(a), ranges, 4, entries, WZ_ENTRIES(M), S, C, M, 1);
    HOLDS(listed.refusal == 0 && listed.length == 2 && listed.bytes == 11 && entries[0] == 1 && entries[1] == 1 && entries[6] == 4 && entries[7] == 2);
    HOLDS(entries[3] == 5 && !memcmp(a.bytes + entries[2], "first", 5));
    HOLDS(wz_resend(STORE(a), ranges, 4, entries, WZ_ENTRIES(2) - 1, S, C, M, 1).refusal == WZ_REFUSED_TOO_FEW_ENTRIES);
    ranges[0] = 0;
    HOLDS(wz_resend(STORE(a), ranges, 4, entries, WZ_ENTRIES(M), S, C, M, 1).refusal == WZ_REFUSED_BAD_RANGES);
    HOLDS(WZ_COUNT(wz_find(STORE(a), TEXT("FIX.4.2"), TEXT("S"), TEXT("U"), TEXT("x"), S, C, M)) == 1);
    HOLDS(wz_find(STORE(a), TEXT("FIX.4.2"), TEXT("S"), TEXT("U"), TEXT(""), S, C, M) == WZ_NOT_STORED);
    HOLDS(WZ_REFUSAL(wz_find(a.words, WORDS - 1, a.bytes, BYTES, TEXT("FIX.4.2"), TEXT("S"), TEXT("U"), TEXT("x"), S, C, M)) == WZ_REFUSED_RULES_BROKEN);
    HOLDS(WZ_COUNT(wz_message(STORE(a), out, 6, S, C, M, 1, 4)) == 6 && !memcmp(out, "fourth", 6) && wz_message(STORE(a), out, 6, S, C, M, 1, 3) == WZ_NOT_STORED);
    HOLDS(WZ_REFUSAL(wz_message(STORE(a), out, 5, S, C, M, 1, 4)) == WZ_REFUSED_NO_ROOM && WZ_REFUSAL(wz_message(STORE(a), out, 6, S, C, M, 2, 1)) == WZ_REFUSED_RULES_BROKEN);
    HOLDS(WZ_COUNT(wz_screen_session(STORE(a), out, WZ_SCREEN, S, C, M, 0)) > 80 && !memcmp(out, " 0  FIX.4.2  S -> T\n", 19));
    HOLDS(WZ_REFUSAL(wz_screen_session(STORE(a), out, WZ_SCREEN, S, C, M, 2)) == WZ_REFUSED_RULES_BROKEN);
    HOLDS(WZ_COUNT(wz_screen_refusal(WZ_REFUSED_UNBOUND, out, WZ_SCREEN)) > 80 && !memcmp(out, "R 14   a Batch on a handle", 26));
    HOLDS(wz_store_mark_durable(STORE(a), shape, 1) == 0 && wz_store_take_over(STORE(a), shape, 1, 4) == 0 && wz_store_next_outgoing(STORE(a), shape, 1).value == 9);
    HOLDS(wz_store_reset(STORE(a), shape, 1) == 0 && wz_store_next_outgoing(STORE(a), shape, 1).value == 1 && wz_store_next_outgoing(STORE(a), shape, 2).refusal == 25);
    static const char good[] = "8=FIX.4.2\0019=10\00135=0\00134=2\00110=164\001", bad[] = "8=FIX.4.2\0019=10\00135=0\00134=2\00110=164\001rubbish";
    wz_built_t built = wz_import(STORE(a), TEXT("FIX.4.2"), TEXT("S"), TEXT("V"), TEXT(""), TEXT(bad), S, C, M);
    HOLDS(built.refusal == WZ_REFUSED_FIELD_FAULT && built.place == 0 && built.at == sizeof good - 1);
    built = wz_import(STORE(a), TEXT("FIX.4.2"), TEXT("S"), TEXT("V"), TEXT(""), TEXT(good), S, C, M);
    HOLDS(built.refusal == 0 && built.place == 2 && wz_store_next_outgoing(STORE(a), shape, 2).value == 3);
    HOLDS(wz_import(STORE(a), TEXT("FIX.4.2"), TEXT("S"), TEXT("W"), TEXT(""), TEXT(good), S, C, M).refusal == WZ_REFUSED_NO_SESSION_PLACE);
    HOLDS(wz_store_fnv(UINT64_C(0xcbf29ce484222325), TEXT("a")) == UINT64_C(0xaf63dc4c8601ec8c));
}

/* The fullest session that there can be needs just the bytes that the macros name, and a byte less is refused. */
/* Logs of any content, 6 entries in 20 bytes, next outgoing number 100: numbers and lengths from the newest entry back, where the head stands, and the lowest number,
   by the rule of docs/AREAS.md done by hand: entries count while their numbers fall from below 100 to 1 and their lengths are 20 in all. */
static const struct { uint64_t head, entries[6][2], lowest; } logs[] = {
    { 3, { { 9, 1 }, { 8, 1 }, { 7, 1 }, { 6, 1 }, { 5, 1 }, { 4, 1 } }, 4 },     /* each counts */
    { 3, { { 9, 1 }, { 8, 1 }, { 7, 1 }, { 0, 1 }, { 5, 1 }, { 4, 1 } }, 7 },     /* a 0 in the middle */
    { 3, { { 0, 1 }, { 8, 1 }, { 7, 1 }, { 6, 1 }, { 5, 1 }, { 4, 1 } }, 0 },     /* a 0 in front */
    { 0, { { 9, 1 }, { 8, 1 }, { 8, 1 }, { 7, 1 }, { 6, 1 }, { 5, 1 } }, 8 },     /* equal numbers */
    { 5, { { 9, 1 }, { 8, 1 }, { 12, 1 }, { 7, 1 }, { 6, 1 }, { 5, 1 } }, 8 },    /* one above the newer one */
    { 1, { { 100, 1 }, { 8, 1 }, { 7, 1 }, { 6, 1 }, { 5, 1 }, { 4, 1 } }, 0 },   /* the next number itself */
    { 2, { { 99, 20 }, { 8, 1 }, { 7, 1 }, { 6, 1 }, { 5, 1 }, { 4, 1 } }, 99 },  /* the first has all bytes */
    { 2, { { 9, 1 }, { 8, 21 }, { 7, 1 }, { 6, 1 }, { 5, 1 }, { 4, 1 } }, 9 },    /* a length past C */
    { 4, { { 9, 10 }, { 8, 10 }, { 7, 1 }, { 6, 1 }, { 5, 1 }, { 4, 1 } }, 8 },   /* lengths past C together */
    { 4, { { 9, UINT64_MAX }, { 8, 1 }, { 7, 1 }, { 6, 1 }, { 5, 1 }, { 4, 1 } }, 0 },
    { 6, { { 9, 0 }, { 8, 0 }, { 7, 0 }, { 3, 0 }, { 2, 0 }, { 1, 20 } }, 1 },    /* a head past the slots is 0; messages without a byte */
    { UINT64_MAX, { { UINT64_MAX, 0 }, { 8, 0 }, { 7, 0 }, { 3, 0 }, { 2, 0 }, { 1, 0 } }, 0 },
};

static void foreign_logs(void) {
    for (size_t i = 0; i < sizeof logs / sizeof *logs; i++) {
        uint64_t words[WZ_WORDS(1, 6)] = { 1 }, *place = words + 66;
        uint8_t bytes[WZ_BYTES(1, 20)] = { 0 };
        place[0] = 100, place[14] = logs[i].head, place[15] = 7;
        size_t slot = logs[i].head < 6 ? (size_t)logs[i].head : 0;
        for (size_t j = 0; j < 6; j++) {
            slot = slot ? slot - 1 : 5;
            place[16 + 2 * slot] = logs[i].entries[j][0], place[17 + 2 * slot] = logs[i].entries[j][1];
        }
        wz_store_answer_t told = wz_lowest(words, WZ_WORDS(1, 6), bytes, WZ_BYTES(1, 20), 1, 20, 6, 0);
        HOLDS(told.refusal == 0 && told.value == logs[i].lowest);
    }
}

static void lengths(void) {
    static const char key[] = "0123456789abcdef0123456789abcdef", marks[] = "0123456789abcdef0123456789abcdef0123456789abcdef0123456789abcdef";
    uint64_t sending[WZ_SENDING] = { 0 };
    uint8_t message[C / M] = { 0 };
    HOLDS(wz_store_make(STORE(a), shape) == 0 && wz_store_open(STORE(a), shape, TEXT(key), TEXT(key), TEXT(key), TEXT(key)).refusal == 0);
    for (uint64_t i = 1; i <= M; i++)
        HOLDS(wz_store_record_none(STORE(a), shape, 0, 2 * i - 1) == 0 && wz_store_record(STORE(a), shape, 0, message, C / M).refusal == 0);
    HOLDS(wz_store_record_none(STORE(a), shape, 0, 2 * M + 1) == 0 && wz_store_count(STORE(a), shape, 0).value == M);
    HOLDS(wz_store_set_next_incoming_in_flight(STORE(a), shape, 0, 5, 4) == 0 && wz_store_set_created_at(STORE(a), shape, 0, TEXT("20261116-12:00:00.123456789012")) == 0);
    HOLDS(wz_store_set_marks(STORE(a), shape, 0, TEXT(marks)) == 0);
    HOLDS(WZ_COUNT(wz_session(STORE(a), out, WZ_SESSION, S, C, M, 0, 5)) == WZ_SESSION);
    HOLDS(WZ_REFUSAL(wz_session(STORE(a), out, WZ_SESSION - 1, S, C, M, 0, 5)) == WZ_REFUSED_NO_ROOM);
    HOLDS(WZ_REFUSAL(wz_send(STORE(a), sending, WZ_SENDING, out, WZ_FRAME(C, M) - 1, S, C, M, 0, 9, 5, 2)) == WZ_REFUSED_NO_ROOM);
    HOLDS(WZ_COUNT(wz_send(STORE(a), sending, WZ_SENDING, out, WZ_FRAME(C, M), S, C, M, 0, 9, 5, 2)) == WZ_FRAME(C, M));
    HOLDS(wz_store_make(STORE(b), shape) == 0 && wz_standby_make(&b.counters, b.row, H, STORE(b), settings).refusal == 0);
    hello_in(2, 5); HOLDS(give(&b).kind == WZ_KIND_WELCOME);
    begin(WZ_KIND_BIND); number(9, 4); number(5, 8); number(0, 8); text(key); text(key); text(key); text(key); end();
    HOLDS(give(&b).kind == WZ_KIND_BOUND);
    HOLDS(wz_on_frame(&b.counters, b.row, H, STORE(b), b.holds, WZ_HOLDS(H, C, M) - 1, b.ends, ENDS_LEN, out, WZ_FRAME(C, M), settings).refusal == WZ_REFUSED_HOLD_AREA_FULL);
    HOLDS(wz_on_frame(&b.counters, b.row, H, STORE(b), b.holds, WZ_HOLDS(H, C, M), b.ends, 0, out, WZ_FRAME(C, M), settings).kind == WZ_KIND_ACK);
    wz_answer_t full = give(&b);
    HOLDS(WZ_COUNT(wz_answer(full, b.bytes, BYTES, out, WZ_ANSWER, version(&b))) == WZ_ANSWER);
    HOLDS(WZ_REFUSAL(wz_answer(full, b.bytes, BYTES, out, WZ_ANSWER - 1, version(&b))) == WZ_REFUSED_NO_ROOM);
    memset(frame, 0, sizeof frame);
    frame[3] = 4;
    HOLDS(WZ_MAX_FRAME == 4 + 0x4000000 && wz_read(frame, 4, 1) == WZ_MORE);
    frame[0] = 1;
    HOLDS(WZ_REFUSAL(wz_read(frame, 4, 1)) == WZ_REFUSED_TOO_LONG && WZ_DETAIL(wz_read(frame, 4, 1)) == 0x4000001);
}

/* A session of 16,385 message bytes and one more is one frame on a head office's line, two on a branch line; 24 is judged by the line's own count; the line's word stays. */
static void lines(void) {
    enum { C2 = 20000, M2 = 4, WORDS2 = WZ_WORDS(1, M2), BYTES2 = WZ_BYTES(1, C2) };
    static uint64_t words[WORDS2];
    static uint8_t bytes[BYTES2], area[WZ_FRAME(C2, M2)], message[16385];
    wz_shape_t one = { 1, C2, M2 };
    HOLDS(wz_store_make(words, WORDS2, bytes, BYTES2, one) == 0 && wz_store_open(words, WORDS2, bytes, BYTES2, one, TEXT("FIX.4.2"), TEXT("S"), TEXT("T"), TEXT("")).refusal == 0);
    HOLDS(wz_store_record(words, WORDS2, bytes, BYTES2, one, 0, message, 16385).refusal == 0 && wz_store_record(words, WORDS2, bytes, BYTES2, one, 0, message, 1).refusal == 0);
    for (uint64_t line = WZ_LINE_HEAD_OFFICE; line <= WZ_LINE_BRANCH; line++) {
        uint64_t sending[WZ_SENDING] = { UINT64_MAX - 1, 0, 0, 0, line }, frames = 0, code;
        code = wz_send(words, WORDS2, bytes, BYTES2, sending, WZ_SENDING, area, sizeof area, 1, C2, M2, 0, 9, 5, 1);
        HOLDS(line == WZ_LINE_BRANCH ? WZ_REFUSAL(code) == WZ_REFUSED_NUMBERS_PAST && sending[1] == 0 : WZ_OK(code) && sending[1] == 1);
        sending[0] = UINT64_MAX - 2, sending[1] = sending[2] = sending[3] = 0;
        while (code = wz_send(words, WORDS2, bytes, BYTES2, sending, WZ_SENDING, area, sizeof area, 1, C2, M2, 0, 9, 5, 1), WZ_OK(code) && code != WZ_LAST) {
            HOLDS(wz_read(area, WZ_COUNT(code), 1) == code);
            frames++;
        }
        HOLDS(code == WZ_LAST && frames == (line == WZ_LINE_BRANCH ? 2 : 1) && sending[0] == UINT64_MAX - 2 + frames && sending[3] == 1 && sending[4] == line);
    }
}

static const char longest[] = "20261116-12:00:00.123456789012";
static void stamped(uint32_t handle, uint64_t no, const char *stamp) { batch(handle, no, WZ_PART_COMMIT, 1); number(WZ_CHANGE_SET_CREATED_AT, 1); text(stamp); number(0, 4); end(); }
static int untouched(void) { for (size_t i = 0; i < sizeof out; i++) if (out[i] != 0xa5) return 0; return 1; }
static uint64_t send_on(uint64_t line, uint64_t last, uint64_t begun, uint64_t from, uint64_t done, uint64_t place, uint16_t speaks) {
    uint64_t sending[] = { last, begun, from, done, line }, before[] = { last, begun, from, done, line };
    uint64_t code = wz_send(STORE(b), sending, WZ_SENDING, out, 40, S, C, M, place, 9, 5, speaks);
    HOLDS(!memcmp(sending, before, sizeof before));
    return code;
}
static uint64_t send(uint64_t last, uint64_t begun, uint64_t from, uint64_t done, uint64_t place, uint16_t speaks) {
    uint64_t code = send_on(WZ_LINE_HEAD_OFFICE, last, begun, from, done, place, speaks);
    HOLDS(code == send_on(WZ_LINE_BRANCH, last, begun, from, done, place, speaks));
    return code;
}

/* The protocol's two versions, and numbers that are none: 11, with all areas as they were. */
static void versions(void) {
    static const uint16_t none[] = { 0, 3, 258, 65535 };
    static struct copy left;
    memset(out, 0xa5, sizeof out);
    stamped(9, 1, longest);
    HOLDS(WZ_COUNT(wz_read(frame, len, 2)) == len && WZ_REFUSAL(wz_read(frame, len, 1)) == WZ_REFUSED_BAD_TIMESTAMP);
    HOLDS(WZ_REFUSAL(wz_frame(frame, len, out, sizeof out, 1)) == WZ_REFUSED_BAD_TIMESTAMP && untouched());
    for (int i = 0; i < 4; i++) {
        HOLDS(WZ_REFUSAL(wz_read(frame, len, none[i])) == WZ_REFUSED_BAD_VERSION && WZ_REFUSAL(wz_read(frame, 0, none[i])) == WZ_REFUSED_BAD_VERSION);
        HOLDS(WZ_REFUSAL(wz_frame(frame, len, out, sizeof out, none[i])) == WZ_REFUSED_BAD_VERSION && WZ_REFUSAL(wz_frame(frame, len, out, 0, none[i])) == WZ_REFUSED_BAD_VERSION && untouched());
    }
    HOLDS(WZ_COUNT(wz_frame(frame, len, out, sizeof out, 2)) == len && !memcmp(frame, out, len));
    memset(out, 0xa5, sizeof out);

    /* Version 1 until a Hello is accepted, then that Hello's: not that of a refused one, nor of a lower epoch; a drop keeps it. */
    HOLDS(wz_store_make(STORE(b), shape) == 0 && wz_standby_make(&b.counters, b.row, H, STORE(b), settings).refusal == 0 && version(&b) == 1);
    bind(9, 5, "LONG"); HOLDS(give(&b).kind == WZ_KIND_BOUND);
    stamped(9, 1, longest); HOLDS(give(&b).refusal == WZ_REFUSED_BAD_TIMESTAMP);
    hello_in(3, 5); HOLDS(give(&b).refusal == WZ_REFUSED_BAD_VERSION && version(&b) == 1);
    hello_in(0, 5); HOLDS(give(&b).refusal == WZ_REFUSED_BAD_VERSION && version(&b) == 1);
    hello_in(2, 5); HOLDS(give(&b).kind == WZ_KIND_WELCOME && version(&b) == 2);
    hello_in(1, 4); HOLDS(give(&b).kind == WZ_KIND_WELCOME && version(&b) == 2);
    HOLDS(wz_disconnected_from(LENT(b), b.counters.connections, settings).refusal == 0 && version(&b) == 2);

    /* A byte of any value but 0 is version 2, and what a call doesn't change stays. */
    bind(9, 5, "LONG"); HOLDS(give(&b).kind == WZ_KIND_BOUND);
    stamped(9, 1, longest);
    for (int byte = 0; byte < 256; byte++) {
        left = b;
        left.counters.version2 = (uint8_t)byte;
        wz_answer_t r = give(&left);
        HOLDS(byte ? r.kind == WZ_KIND_ACK && version(&left) == 2 : r.refusal == WZ_REFUSED_BAD_TIMESTAMP && version(&left) == 1);
    }
    HOLDS(give(&b).kind == WZ_KIND_ACK);

    /* A long stamp is told in version 2, is 8 in version 1, and never shortened. */
    bind(9, 5, "LONG");
    wz_answer_t bound = give(&b);
    HOLDS(bound.kind == WZ_KIND_BOUND && bound.summary.created_at.len == 30 && !memcmp(b.bytes + bound.summary.created_at.at, longest, 30));
    HOLDS(WZ_REFUSAL(wz_answer(bound, b.bytes, BYTES, out, sizeof out, 1)) == WZ_REFUSED_UNREADABLE && untouched());
    for (int i = 0; i < 4; i++)
        HOLDS(WZ_REFUSAL(wz_answer(bound, b.bytes, BYTES, out, i % 2 ? 0 : sizeof out, none[i])) == WZ_REFUSED_BAD_VERSION && untouched());
    HOLDS(WZ_COUNT(wz_answer(bound, b.bytes, BYTES, out, sizeof out, 2)) == WZ_ANSWER - 64 && !memcmp(out + 37, longest, 30));
    memset(out, 0xa5, sizeof out);

    /* A sending: 25, 11, 32, 24, then 9; 32 also at a later call whose frame has the stamp; done is done in both. Nothing is written. */
    for (int i = 0; i < 4; i++) {
        HOLDS(WZ_REFUSAL(send(UINT64_MAX, 0, 0, 0, 1, none[i])) == WZ_REFUSED_RULES_BROKEN && WZ_REFUSAL(send(UINT64_MAX, 1, 0, 0, 0, none[i])) == WZ_REFUSED_RULES_BROKEN);
        HOLDS(WZ_REFUSAL(send(UINT64_MAX, 0, 0, 0, 0, none[i])) == WZ_REFUSED_BAD_VERSION && WZ_REFUSAL(send(0, 1, 0, 0, 0, none[i])) == WZ_REFUSED_BAD_VERSION);
        HOLDS(WZ_REFUSAL(send(0, 1, 0, 1, 0, none[i])) == WZ_REFUSED_BAD_VERSION);
    }
    HOLDS(WZ_REFUSAL(send(UINT64_MAX, 0, 0, 0, 0, 1)) == WZ_REFUSED_LONG_STAMP && WZ_REFUSAL(send(UINT64_MAX, 0, 0, 0, 0, 2)) == WZ_REFUSED_NUMBERS_PAST);
    HOLDS(WZ_REFUSAL(send(0, 0, 0, 0, 0, 1)) == WZ_REFUSED_LONG_STAMP && WZ_REFUSAL(send(0, 0, 0, 0, 0, 2)) == WZ_REFUSED_NO_ROOM);
    HOLDS(WZ_REFUSAL(send(0, 1, 0, 0, 0, 1)) == WZ_REFUSED_LONG_STAMP && WZ_REFUSAL(send(0, 1, 0, 0, 0, 2)) == WZ_REFUSED_NO_ROOM);
    HOLDS(WZ_REFUSAL(send(0, 1, 1, 0, 0, 1)) == WZ_REFUSED_NO_ROOM && send(0, 1, 0, 1, 0, 1) == WZ_LAST && send(0, 1, 0, 1, 0, 2) == WZ_LAST);
    /* A third line is 25 at every call, before 11 and for a sending that is done too. */
    static const uint64_t lines[] = { 2, 256, UINT64_C(1) << 32, UINT64_MAX };
    for (int i = 0; i < 4; i++)
        for (uint64_t begun = 0; begun < 2; begun++)
            HOLDS(WZ_REFUSAL(send_on(lines[i], 0, begun, 0, begun, 0, i % 2 ? 2 : 3)) == WZ_REFUSED_RULES_BROKEN);
    HOLDS(untouched());

    /* Back to 1: Nack StaleEpoch, Nack Lag, 32, which changes nothing; 20 and 21 come later. A session that has no such stamp is bound. */
    hello_in(1, 6); HOLDS(give(&b).kind == WZ_KIND_WELCOME && version(&b) == 1);
    bind(9, 6, "LONG"); wz_answer_t r = give(&b); HOLDS(r.kind == WZ_KIND_NACK && r.reason == WZ_REASON_STALE_EPOCH);
    hello_in(1, 5); HOLDS(give(&b).kind == WZ_KIND_WELCOME && version(&b) == 1);
    b.counters.epoch = 5;
    bind(9, 6, "LONG"); r = give(&b); HOLDS(r.kind == WZ_KIND_NACK && r.reason == WZ_REASON_LAG);
    for (uint32_t i = 0; i < H; i++) b.row[i].used = 0;
    for (uint32_t i = 1; i < S; i++) { bind(i, 5, i == 1 ? "SHORT" : "OTHER"); HOLDS(give(&b).kind == WZ_KIND_BOUND); }
    left = b;
    bind(9, 5, "LONG");
    HOLDS(wz_on_frame(&b.counters, b.row, S - 1, STORE(b), b.holds, (S - 1) * (HOLDS_LEN / H), b.ends, S - 1, frame, len, settings).refusal == WZ_REFUSED_LONG_STAMP);
    HOLDS(give(&b).refusal == WZ_REFUSED_LONG_STAMP && version(&b) == 1 && b.counters.epoch == 5 && b.counters.connections == left.counters.connections);
    HOLDS(!memcmp(left.row, b.row, sizeof left.row) && !memcmp(left.words, b.words, sizeof left.words));
    HOLDS(!memcmp(left.bytes, b.bytes, sizeof left.bytes) && !memcmp(left.holds, b.holds, sizeof left.holds));
    bind(9, 5, "NEW"); HOLDS(give(&b).refusal == WZ_REFUSED_NO_SESSION_PLACE);
    stamped(1, 1, "20261116-12:00:00.123456"); HOLDS(give(&b).refusal == WZ_REFUSED_BAD_TIMESTAMP);
    stamped(1, 1, "20261116-12:00:00.123"); HOLDS(give(&b).kind == WZ_KIND_ACK);
    HOLDS(wz_promote_unchecked(LENT(b), settings).refusal == 0 && version(&b) == 1);
}

static void active(void) {
    static uint64_t words[WZ_QUORUM];
    uint64_t queue[WZ_QUEUE] = { 0 }, lease[WZ_LEASE], listing[] = { 3, 4 };
    HOLDS(WZ_REFUSAL(wz_queue(queue, WZ_QUEUE - 1, 2, 1)) == WZ_REFUSED_RULES_BROKEN);
    HOLDS(WZ_COUNT(wz_queue(queue, WZ_QUEUE, 2, 1)) == 0 && WZ_COUNT(wz_queue(queue, WZ_QUEUE, 2, 3)) == 1 && queue[0] == 1 && queue[1] == 1);
    wz_lease_new(lease, 100, 1000);
    HOLDS(lease[1] == 1100 && !wz_lease_renewal(lease, 1049).due && wz_lease_renewal(lease, 1050).due == 1 && wz_lease_renewal(lease, 1049).refusal == WZ_REFUSED_TIME_FALLS);
    HOLDS(wz_lease_attempt(lease, 1051, 1052, 0) == 0 && lease[1] == 1151 && wz_lease_attempt(lease, 1060, 1061, 2) == 0 && lease[3] == 1);
    HOLDS(wz_quorum_make(words, WZ_QUORUM - 1, 3, 2) == WZ_REFUSED_RULES_BROKEN && wz_quorum_make(words, WZ_QUORUM, 3, 4) == WZ_REFUSED_OUTSIDE_QUORUM);
    HOLDS(wz_quorum_make(words, WZ_QUORUM, 3, 2) == 0 && wz_quorum_bind(words, WZ_QUORUM, 9) == 0 && wz_quorum_sent(words, WZ_QUORUM, 9, 1) == 0);
    HOLDS(wz_quorum_sent(words, WZ_QUORUM, 9, 3) == WZ_REFUSED_OUT_OF_SEQUENCE && wz_quorum_acknowledged(words, WZ_QUORUM, 2, 9, 1) == 0);
    HOLDS(wz_quorum_figure(words, WZ_QUORUM, 9).number == 0 && wz_quorum_acknowledged(words, WZ_QUORUM, 0, 9, 1) == 0 && wz_quorum_figure(words, WZ_QUORUM, 9).number == 1);
    HOLDS(wz_quorum_stale_epoch(words, WZ_QUORUM, 1) == 0 && words[2] != 0 && wz_quorum_figure(words, WZ_QUORUM, 8).refusal == WZ_REFUSED_OUTSIDE_QUORUM);
    HOLDS(wz_books_make(words, WZ_BOOKS - 1).refusal == WZ_REFUSED_RULES_BROKEN && wz_books_make(words, WZ_BOOKS).refusal == 0);
    HOLDS(wz_books_fall_behind(words, WZ_BOOKS, 4).refusal == 0 && wz_books_is_behind(words, WZ_BOOKS, 4).flag == 1);
    wz_answered_t next = wz_books_next_to_catch_up(words, WZ_BOOKS, listing, 2, 77);
    HOLDS(next.refusal == 0 && next.flag == 1 && next.session == 4 && wz_books_opening(words, WZ_BOOKS, 4).flag == 1);
    HOLDS(wz_books_caught_up(words, WZ_BOOKS, 4, 77).refusal == 0 && wz_books_ended(words, WZ_BOOKS, 4, 77).flag == 1);
    HOLDS(wz_books_all_compared(words, WZ_BOOKS, listing, 2, 77).flag == 0 && wz_books_all_fall_behind(words, WZ_BOOKS, listing, 2).refusal == 0);
    HOLDS(wz_books_caught_up(words, WZ_BOOKS, 3, 77).refusal == 0 && wz_books_caught_up(words, WZ_BOOKS, 4, 77).refusal == 0);
    HOLDS(wz_books_all_compared(words, WZ_BOOKS, listing, 2, 77).flag == 1 && wz_books_acknowledged(words, WZ_BOOKS, 77).refusal == 0);
    HOLDS(wz_books_all_compared(words, WZ_BOOKS, listing, 2, 77).flag == 0 && wz_books_opening(words, WZ_BOOKS, 3).flag == 0);
    HOLDS(wz_books_behind_unless_compared_open(words, WZ_BOOKS, 78).refusal == 0 && wz_books_is_behind(words, WZ_BOOKS, 3).flag == 1 && wz_books_closed(words, WZ_BOOKS, 3).refusal == 0);
}

static void stamps(void) {
    uint8_t area[WZ_STAMP];
    wz_numbered_t turn = wz_stamp_read((const uint8_t *)"20000101-00:00:00.000", 21), last = wz_stamp_read((const uint8_t *)"99991231-23:59:59.999999999999", WZ_STAMP);
    HOLDS(turn.refusal == 0 && turn.millis == UINT64_C(946684800000) && turn.picos == 0);
    HOLDS(last.refusal == 0 && last.millis == UINT64_C(253402300799999) && last.picos == 999999999);
    HOLDS(wz_stamp_read((const uint8_t *)"20230229-00:00:00", 17).refusal == WZ_REFUSED_BAD_TIMESTAMP);
    HOLDS(wz_stamp_read((const uint8_t *)"19691231-23:59:59", 17).refusal == WZ_REFUSED_STAMP_WITHOUT_NUMBER);
    HOLDS(WZ_COUNT(wz_stamp_write(turn.millis, turn.picos, area, 17)) == 17 && !memcmp(area, "20000101-00:00:00", 17));
    HOLDS(WZ_REFUSAL(wz_stamp_write(turn.millis, 1, area, WZ_STAMP - 1)) == WZ_REFUSED_NO_ROOM && !memcmp(area, "20000101-00:00:00", 17));
    HOLDS(WZ_COUNT(wz_stamp_write(last.millis, last.picos, area, WZ_STAMP)) == WZ_STAMP && !memcmp(area, "99991231-23:59:59.999999999999", WZ_STAMP));
    HOLDS(WZ_REFUSAL(wz_stamp_write(last.millis + 1, 0, area, 0)) == WZ_REFUSED_NUMBER_WITHOUT_STAMP);
    HOLDS(WZ_REFUSAL(wz_stamp_write(0, 1000000000, area, 0)) == WZ_REFUSED_NUMBER_WITHOUT_STAMP);
}

int main(void) {
    HOLDS(wz_version() == WZ_VERSION && WZ_VERSION == 65536 * WZ_VERSION_MAJOR + WZ_VERSION_MINOR);
    stores();
    standby();
    whole();
    changes();
    foreign_logs();
    lengths();
    lines();
    versions();
    active();
    stamps();
    HOLDS(own == 0);
    HOLDS(make() + flush() + promote() + on_frame() + store_record() == 15);
    printf("library: %d tests of the archive from C, %d failed\n", tests, failed);
    return failed != 0;
}

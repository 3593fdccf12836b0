/* Lends every value 0 to 255 of each flag byte to each call on the standby, and compares with what 0 and 1 give.
   Standard input: one frame a line in hexadecimal digits; before each the calls are tried, then the frame is taken. */
#include <stdint.h>
#include <stdio.h>
#include <stdlib.h>
#include <string.h>

struct counters { uint64_t epoch, connections; uint8_t promoted, checked, version2; };
struct bound { uint8_t used; uint32_t handle; size_t place; uint64_t commit_no; size_t held_len; uint64_t held_bytes; };
struct settings { uint32_t places, bytes, messages; uint64_t incarnation, max_lag; uint8_t tells_lowest; };
struct span { size_t at; uint32_t len; };
struct summary { uint64_t next_outgoing, next_incoming; uint8_t has_in_flight; uint64_t in_flight; struct span created_at, marks; uint64_t last_outgoing; };
struct answer { uint8_t refusal, kind; uint32_t handle; uint64_t epoch, incarnation, commit_no; uint8_t reason; struct summary summary; uint8_t has_lowest; uint64_t lowest; };

#define LENT struct counters *, struct bound *, size_t, uint64_t *, size_t, uint8_t *, size_t
extern struct answer make(LENT, struct settings);
extern struct answer on_frame_held(LENT, uint8_t *, size_t, uint64_t *, size_t, const uint8_t *, size_t, struct settings);
extern struct answer on_frame(LENT, uint8_t *, size_t, uint64_t *, size_t, const uint8_t *, size_t, struct settings);
extern struct answer flush(LENT, uint8_t *, size_t, uint64_t *, size_t, uint64_t, struct settings);
extern struct answer disconnected_from(LENT, uint8_t *, size_t, uint64_t *, size_t, uint64_t, struct settings);
extern struct answer promote(LENT, uint8_t *, size_t, uint64_t *, size_t, struct settings);
extern struct answer promote_unchecked(LENT, uint8_t *, size_t, uint64_t *, size_t, struct settings);

enum { S = 4, C = 256, M = 8, H = 4, CALLS = 7, FLAGS = 3 + H };
static const struct settings with = { S, C, M, 7, 0, 1 };

/* All that is lent. */
struct lent {
    struct counters counters;
    struct bound row[H];
    uint64_t words[66 + S * (16 + 2 * M)];
    uint8_t bytes[S * (224 + C)], holds[H * (C + 22 * M + 122)];
    uint64_t ends[H];
};

static uint8_t frame[1 << 14];
static size_t frame_len;

static struct answer call(int which, struct lent *l) {
#define AREAS &l->counters, l->row, H, l->words, sizeof l->words / 8, l->bytes, sizeof l->bytes
#define HOLDS l->holds, sizeof l->holds, l->ends, H
    switch (which) {
    case 0: return on_frame_held(AREAS, HOLDS, frame, frame_len, with);
    case 1: return on_frame(AREAS, HOLDS, frame, frame_len, with);
    case 2: return flush(AREAS, HOLDS, l->counters.connections, with);
    case 3: return disconnected_from(AREAS, HOLDS, l->counters.connections, with);
    case 4: return promote(AREAS, HOLDS, with);
    case 5: return promote_unchecked(AREAS, HOLDS, with);
    default: return make(AREAS, with);
    }
}

static uint8_t *flag(struct lent *l, int i) {
    return i == 0 ? &l->counters.promoted : i == 1 ? &l->counters.checked : i == 2 ? &l->counters.version2 : &l->row[i - 3].used;
}

/* Field by field: between the fields any byte may stand. */
static int same_answer(const struct answer *a, const struct answer *b) {
    const struct summary *m = &a->summary, *n = &b->summary;
    return a->refusal == b->refusal && a->kind == b->kind && a->handle == b->handle && a->epoch == b->epoch && a->incarnation == b->incarnation
        && a->commit_no == b->commit_no && a->reason == b->reason && a->has_lowest == b->has_lowest && a->lowest == b->lowest && m->next_outgoing == n->next_outgoing && m->next_incoming == n->next_incoming
        && m->has_in_flight == n->has_in_flight && m->in_flight == n->in_flight && m->created_at.at == n->created_at.at && m->created_at.len == n->created_at.len
        && m->marks.at == n->marks.at && m->marks.len == n->marks.len && m->last_outgoing == n->last_outgoing;
}

/* What was left for v against what was left for 1 (or 0, if v is): the byte itself is cleared, set to 1, or as it was lent. */
static int same_left(const struct lent *l, const struct lent *r, int lent_flag, uint8_t v) {
    struct lent *a = (struct lent *)l, *b = (struct lent *)r;
    if (l->counters.epoch != r->counters.epoch || l->counters.connections != r->counters.connections) return 0;
    for (int i = 0; i < H; i++) {
        const struct bound *x = &l->row[i], *y = &r->row[i];
        if (x->handle != y->handle || x->place != y->place || x->commit_no != y->commit_no || x->held_len != y->held_len || x->held_bytes != y->held_bytes) return 0;
    }
    for (int i = 0; i < FLAGS; i++) {
        uint8_t x = *flag(a, i), y = *flag(b, i);
        if (i != lent_flag ? x != y : y == 0 ? x != 0 : x != v && x != 1) return 0;
    }
    return !memcmp(l->words, r->words, sizeof l->words) && !memcmp(l->bytes, r->bytes, sizeof l->bytes) && !memcmp(l->holds, r->holds, sizeof l->holds)
        && !memcmp(l->ends, r->ends, sizeof l->ends);
}

int main(void) {
    static struct lent now, trial, of[2];
    static char line[1 << 15];
    unsigned long calls = 0, frames = 0;
    if (make(&now.counters, now.row, H, now.words, sizeof now.words / 8, now.bytes, sizeof now.bytes, with).refusal) return puts("flags: no standby was made"), 1;
    while (fgets(line, sizeof line, stdin)) {
        unsigned byte;
        for (frame_len = 0; frame_len < sizeof frame && sscanf(line + 2 * frame_len, "%2x", &byte) == 1; frame_len++) frame[frame_len] = (uint8_t)byte;
        for (int which = 0; which < CALLS; which++)
            for (int i = 0; i < FLAGS; i++) {
                struct answer expected[2];
                for (int v = 0; v < 2; v++) {
                    of[v] = now;
                    *flag(&of[v], i) = (uint8_t)v;
                    expected[v] = call(which, &of[v]);
                }
                for (int v = 0; v < 256; v++, calls++) {
                    trial = now;
                    *flag(&trial, i) = (uint8_t)v;
                    struct answer got = call(which, &trial);
                    if (!same_answer(&got, &expected[v != 0]) || !same_left(&trial, &of[v != 0], i, (uint8_t)v))
                        return printf("flags: frame %lu, call %d, flag %d, value %d is taken otherwise\n", frames, which, i, v), 1;
                }
            }
        call(1, &now);
        frames++;
    }
    printf("flags: %lu frames, %lu calls: each value but 0 is taken as 1\n", frames, calls);
    return frames == 0;
}

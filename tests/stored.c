/* wz_find and wz_message against document 01's words about what is stored, written out here: random sessions with small limits are made through the archive and kept as plain
   lists beside it; after each change every key and number that may be there is asked for, with areas that are too short, just long enough and longer. Then the same on areas of
   random content, where wz_resend's listing of one number says what is right.

   stored COUNT [SEED]   so many changes; it ends with how often each answer came, and fails where one never did */
#include <stdio.h>
#include <stdlib.h>
#include <string.h>
#include <wizhdulet.h>

enum { PLACES = 4, MAX_C = 40, MAX_M = 6, NUMBERS = 64, WORDS = 66 + PLACES * (16 + 2 * MAX_M), BYTES = PLACES * (224 + MAX_C), OUT = 64 };

static uint64_t state;
static uint64_t draw(uint64_t below) {
    state ^= state << 13, state ^= state >> 7, state ^= state << 17;
    return state % below;
}

/* What document 01 says is stored: per session the key, the next number, and the messages that are still there, oldest first. */
struct message { uint64_t number; size_t len; uint8_t text[MAX_C + 2]; };
struct session { uint8_t key[4][2]; uint64_t next; size_t count, bytes; struct message messages[MAX_M + 1]; };
static struct session sessions[PLACES];
static size_t used;
static uint32_t c, m;
static uint64_t words[WORDS];
static uint8_t bytes[BYTES];
#define STORE words, WORDS, bytes, BYTES

enum { FOUND, NO_SESSION, STORED, EMPTY, WRAPPED, ABSENT, NO_ROOM, UNFIT, ANSWERS };
static const char *const names[ANSWERS] = { "found", "no session", "stored", "empty", "wrapped", "not stored", "no room", "unfit" };
static uint64_t reached[ANSWERS];

static void fail(const char *what) {
    printf("stored: not so: %s\n", what);
    exit(1);
}

static void forget_oldest(struct session *s) {
    s->bytes -= s->messages[0].len;
    memmove(s->messages, s->messages + 1, --s->count * sizeof *s->messages);
}

static void record(struct session *s, const uint8_t *text, size_t len) {
    uint64_t number = s->next++;
    if (len > c || m == 0) return;
    while (s->count > 0 && (s->bytes + len > c || s->count + 1 > m)) forget_oldest(s);
    struct message *new = &s->messages[s->count++];
    new->number = number, new->len = len, s->bytes += len;
    memcpy(new->text, text, len);
}

static void begin(void) {
    used = 0, c = (uint32_t)draw(MAX_C + 1), m = (uint32_t)draw(MAX_M + 1);
    for (size_t i = 0; i < WORDS; i++) words[i] = draw(3) ? draw(UINT64_MAX) : draw(9);
    for (size_t i = 0; i < BYTES; i++) bytes[i] = (uint8_t)draw(256);
    if (wz_store_make(STORE, (wz_shape_t){ PLACES, c, m }) != 0) fail("a store is made");
}

static void change(void) {
    wz_shape_t shape = { PLACES, c, m };
    if (used < PLACES && (used == 0 || draw(40) == 0)) {
        struct session *s = &sessions[used];
        memset(s, 0, sizeof *s);
        s->next = 1;
        for (int i = 0; i < 4; i++) s->key[i][0] = (uint8_t)('A' + draw(3));
        s->key[3][1] = (uint8_t)('0' + used);
        wz_store_answer_t opened = wz_store_open(STORE, shape, s->key[0], 1, s->key[1], 1, s->key[2], 1, s->key[3], 2);
        if (opened.refusal || opened.value != used++) fail("a session is opened");
        return;
    }
    size_t place = draw(used);
    struct session *s = &sessions[place];
    uint8_t text[MAX_C + 2];
    size_t len = draw(4) ? draw(draw(c + 2) + 1) : draw(3) * c / 2;
    uint64_t seq = s->next + draw(4);
    for (size_t i = 0; i < len; i++) text[i] = (uint8_t)draw(256);
    switch (draw(16)) {
    case 0:
        if (s->next > NUMBERS || draw(20) == 0) {
            if (wz_store_reset(STORE, shape, place)) fail("a session is reset");
            s->next = 1, s->count = s->bytes = 0;
        }
        break;
    case 1:
        if (wz_store_record_none(STORE, shape, place, seq)) fail("a number is skipped");
        s->next = seq + 1;
        break;
    case 2:
        if (wz_store_take_over(STORE, shape, place, 3)) fail("a session is taken over");
        s->next += 3;
        break;
    default:
        if (wz_store_record(STORE, shape, place, text, len).refusal) fail("a message is recorded");
        record(s, text, len);
    }
}

/* One question, with an area of `room` bytes; the area past what is told stays as it was. */
static void ask(size_t place, uint64_t number, const uint8_t *text, size_t len, int there, size_t room) {
    uint8_t out[OUT], before[OUT];
    for (size_t i = 0; i < OUT; i++) out[i] = before[i] = (uint8_t)draw(256);
    uint64_t code = wz_message(STORE, out, room, PLACES, c, m, place, number);
    if (there && len <= room) {
        memcpy(before, text, len);
        if (!WZ_OK(code) || WZ_COUNT(code) != len) fail("a stored message is told with its length");
        reached[len ? STORED : EMPTY]++;
    } else if (there) {
        if (WZ_OK(code) || WZ_REFUSAL(code) != WZ_REFUSED_NO_ROOM) fail("9 for an area that is too short");
        reached[NO_ROOM]++;
    } else {
        if (code != WZ_NOT_STORED) fail("0 for what isn't stored");
        reached[ABSENT]++;
    }
    if (memcmp(out, before, OUT)) fail("nothing but the message is written");
}

static void ask_all(void) {
    for (size_t place = 0; place < used; place++) {
        struct session *s = &sessions[place];
        uint64_t from = s->next > 12 ? s->next - 12 : 0;
        for (uint64_t number = from; number < s->next + 2; number++) {
            const struct message *found = NULL;
            for (size_t i = 0; i < s->count; i++) if (s->messages[i].number == number) found = &s->messages[i];
            size_t len = found ? found->len : 0;
            uint64_t range[] = { number, number }, entries[WZ_ENTRIES(1)];
            if (found && wz_resend(STORE, range, 2, entries, WZ_ENTRIES(1), PLACES, c, m, place).length && entries[5]) reached[WRAPPED]++;
            ask(place, number, found ? found->text : NULL, len, found != NULL, len);
            if (len) ask(place, number, found->text, len, 1, len - 1);
            ask(place, number, found ? found->text : NULL, len, found != NULL, OUT - draw(OUT - len));
        }
        ask(place, UINT64_MAX - draw(2), NULL, 0, 0, OUT);
        uint64_t code = wz_find(STORE, s->key[0], 1, s->key[1], 1, s->key[2], 1, s->key[3], 2, PLACES, c, m);
        if (!WZ_OK(code) || WZ_COUNT(code) != place) fail("a key is found where it was opened");
        reached[FOUND]++;
        code = wz_find(STORE, s->key[0], 1, s->key[1], 1, s->key[2], 1, s->key[3], draw(2), PLACES, c, m);
        if (code != WZ_NOT_STORED) fail("0 for a key that wasn't opened");
        reached[NO_SESSION]++;
    }
}

static void ask_unfit(void) {
    uint8_t out[OUT];
    uint64_t codes[] = {
        wz_message(STORE, out, OUT, PLACES, c, m, used + draw(3), 1), wz_message(words, 65, bytes, BYTES, out, OUT, PLACES, c, m, 0, 1),
        wz_message(STORE, out, OUT, PLACES, WZ_MAX_C + 1, m, 0, 1), wz_find(words, WORDS - 1, bytes, BYTES, out, 1, out, 1, out, 1, out, 0, PLACES, c, MAX_M),
        wz_find(STORE, out, 1, out, 1, out, 1, out, 0, PLACES, c, WZ_MAX_M + 1),
    };
    for (size_t i = 0; i < sizeof codes / sizeof *codes; i++) {
        if (WZ_OK(codes[i]) || WZ_REFUSAL(codes[i]) != WZ_REFUSED_RULES_BROKEN) fail("25 for areas and places that break the rules");
        reached[UNFIT]++;
    }
}

/* Areas of any content: what wz_resend lists of one number is what wz_message tells. */
static void ask_random(void) {
    uint64_t entries[WZ_ENTRIES(1)];
    for (size_t i = 2; i < WORDS; i++) words[i] = draw(2) ? draw(12) : draw(UINT64_MAX);
    words[0] = PLACES;
    for (size_t place = 0; place < PLACES; place++) {
        words[66 + place * (16 + 2 * m)] = draw(2) ? draw(20) : UINT64_MAX - draw(3);
        for (uint64_t number = 1; number < 14; number++) {
            uint64_t range[] = { number, number };
            wz_listed_t listed = wz_resend(STORE, range, 2, entries, WZ_ENTRIES(1), PLACES, c, m, place);
            uint8_t text[OUT];
            if (listed.refusal) fail("one number is listed");
            if (listed.length) {
                memcpy(text, bytes + entries[2], entries[3]);
                memcpy(text + entries[3], bytes + entries[4], entries[5]);
                if (entries[5]) reached[WRAPPED]++;
            }
            ask(place, number, text, listed.bytes, listed.length == 1, OUT - draw(OUT - listed.bytes));
        }
        ask(place, 0, NULL, 0, 0, OUT);
    }
    if (wz_store_make(STORE, (wz_shape_t){ PLACES, c, m }) != 0) fail("a store is made again");
    used = 0;
}

int main(int argc, char **argv) {
    uint64_t count = argc > 1 ? strtoull(argv[1], NULL, 10) : 20000;
    state = (argc > 2 ? strtoull(argv[2], NULL, 10) : 1) * UINT64_C(0x9e3779b97f4a7c15) + 1;
    for (uint64_t i = 0; i < count; i++) {
        if (i % 400 == 0) begin();
        change();
        ask_all();
        ask_unfit();
        if (i % 400 == 399) ask_random();
    }
    printf("stored: %llu changes;", (unsigned long long)count);
    int missing = 0;
    for (int i = 0; i < ANSWERS; i++) printf(" %s %llu%s", names[i], (unsigned long long)reached[i], i + 1 < ANSWERS ? "," : "\n"), missing |= !reached[i];
    return missing;
}

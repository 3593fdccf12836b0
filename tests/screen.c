/* What a screen shows, by a second reading: the text of sessions in areas of any content, put together here from what wz_session and wz_resend tell of them; no line has more than
   80 columns, and an area that is a byte too short is left as it was. Then frames of every kind with answers, and every refusal's words against docs/REFUSALS.md's numbers, which come as arguments.

   screen COUNT NUMBER..   so many sessions and frames; it ends with how often each form came, and fails where one never did */
#include <inttypes.h>
#include <stdio.h>
#include <stdlib.h>
#include <string.h>
#include <wizhdulet.h>

enum { PLACES = 3, C = 2400, M = 6, WORDS = 66 + PLACES * (16 + 2 * M), BYTES = PLACES * (224 + C) };
static uint64_t words[WORDS];
static uint8_t bytes[BYTES];
#define STORE words, WORDS, bytes, BYTES

static uint64_t state = UINT64_C(0x9e3779b97f4a7c15);
static uint64_t draw(uint64_t below) {
    state ^= state << 13, state ^= state >> 7, state ^= state << 17;
    return state % below;
}

enum { SUFFIX, NO_SUFFIX, STORED, NONE_STORED, FLIGHT, NO_FLIGHT, STAMP, NO_STAMP, MARKS, NO_MARKS, DURABLE, NOT_DURABLE, BROKEN, FIVE_LINES, HIDDEN, COMMAS, UNFIT, CUT, WHOLE_TEXT, ANSWERED, REFUSED, FORMS };
static const char *const names[FORMS] = { "suffix", "no suffix", "stored", "none stored", "in flight", "none in flight", "stamp", "no stamp", "marks", "no marks", "durable", "not durable",
    "broken lines", "five lines", "hidden bytes", "commas", "unfit", "frames cut", "not cut", "answered", "refused" };
static uint64_t reached[FORMS];

static void fail(const char *what) {
    printf("screen: not so: %s\n", what);
    exit(1);
}

/* ---- the layout, written out */
static char page[WZ_SCREEN * 2];
static size_t len, column;
static int broken;

/* One part of a line: on the same one where it has room. */
static void part(const char *text, size_t n) {
    if (n > 77) n = 77;
    if (column > 0) {
        if (column + 1 + n <= 80) page[len++] = ' ', column++;
        else memcpy(page + len, "\n   ", 4), len += 4, column = 3, broken = 1;
    }
    for (size_t i = 0; i < n; i++) {
        int shown = text[i] >= 32 && text[i] < 127;
        page[len++] = shown ? text[i] : '.';
        if (!shown) reached[HIDDEN]++;
    }
    column += n;
}
static void end_line(void) { page[len++] = '\n', column = 0; }

static const char *grouped(char *into, uint64_t n) {
    char digits[24];
    int count = sprintf(digits, "%" PRIu64, n), k = 0;
    for (int i = 0; i < count; i++) {
        into[k++] = digits[i];
        if (i + 1 < count && (count - 1 - i) % 3 == 0) into[k++] = ',', reached[COMMAS]++;
    }
    into[k] = 0;
    return into;
}

static uint64_t little(const uint8_t *from, int count) {
    uint64_t value = 0;
    while (count-- > 0) value = value << 8 | from[count];
    return value;
}

/* The next text of what wz_session tells, behind a label. */
static size_t labelled(char *into, const char *label, const uint8_t **next) {
    size_t n = (size_t)little(*next, 4), k = strlen(label);
    memcpy(into, label, k);
    memcpy(into + k, *next + 4, n);
    *next += 4 + n;
    return k + n;
}

static void read_page(size_t place) {
    uint8_t told[WZ_SESSION];
    uint64_t range[] = { 1, 0 }, entries[WZ_ENTRIES(M)];
    char text[128], number[40];
    if (!WZ_OK(wz_session(STORE, told, sizeof told, PLACES, C, M, place, 0))) fail("a session is told");
    wz_listed_t listed = wz_resend(STORE, range, 2, entries, WZ_ENTRIES(M), PLACES, C, M, place);
    if (listed.refusal) fail("all messages are listed");
    const uint8_t *next = told + 2;
    len = column = 0, broken = 0;
    part(text, (size_t)sprintf(text, "%2zu", place));
    part(text, labelled(text, " ", &next));
    part(text, labelled(text, " ", &next));
    part(text, labelled(text, "-> ", &next));
    size_t n = labelled(text, "/ ", &next);
    if (n > 2) part(text, n), reached[SUFFIX]++;
    else reached[NO_SUFFIX]++;
    end_line();
    part(text, (size_t)sprintf(text, "      next outgoing %12" PRIu64, little(next, 8)));
    if (listed.length) {
        part(text, (size_t)sprintf(text, "   stored      %" PRIu64, entries[0]));
        part(text, (size_t)sprintf(text, "to %" PRIu64 ":", entries[6 * (listed.length - 1)]));
        part(text, (size_t)sprintf(text, "%s,", grouped(number, listed.length)));
        part(text, (size_t)sprintf(text, "%s bytes", grouped(number, listed.bytes)));
        reached[STORED]++;
    } else
        part(text, (size_t)sprintf(text, "   stored      none")), reached[NONE_STORED]++;
    end_line();
    part(text, (size_t)sprintf(text, "      next incoming %12" PRIu64, little(next + 8, 8)));
    if (told[1]) {
        part(text, (size_t)sprintf(text, "   in flight   %" PRIu64 ":", little(next + 16, 8)));
        part("handed over,", 12), part("not yet counted", 15), reached[FLIGHT]++;
    } else
        part("   in flight   none", 19), reached[NO_FLIGHT]++;
    end_line();
    next += 24;
    n = labelled(text, "      since ", &next);
    if (n > 12) reached[STAMP]++;
    else n += (size_t)sprintf(text + n, "no time"), reached[NO_STAMP]++;
    while (n < 32) text[n++] = ' ';
    part(text, n);
    part("   marks      ", 14);
    n = labelled(text, "", &next);
    if (n) part(text, n), reached[MARKS]++;
    else part("none", 4), reached[NO_MARKS]++;
    end_line();
    part(text, (size_t)sprintf(text, "      durable %s", told[0] ? "yes" : "no"));
    end_line();
    reached[told[0] ? DURABLE : NOT_DURABLE]++;
    reached[broken ? BROKEN : FIVE_LINES]++;
}

/* No line is longer, and the text ends with one. */
static void narrow(const uint8_t *text, size_t n) {
    size_t at = 0;
    if (n == 0 || text[n - 1] != '\n') fail("a text ends with a line feed");
    for (size_t i = 0; i < n; i++) {
        at = text[i] == '\n' ? 0 : at + 1;
        if (at > 80 || (text[i] != '\n' && (text[i] < 32 || text[i] > 126))) fail("80 columns, printable bytes");
    }
}

static uint64_t some_number(void) {
    switch (draw(4)) {
    case 0: return draw(12);
    case 1: return draw(100000);
    case 2: return UINT64_MAX - draw(12);
    default: return draw(UINT64_MAX);
    }
}

static void fill_areas(void) {
    static const char stamps[2][22] = { "20261116-08:00:00", "20261116-08:00:00.123" };
    for (size_t i = 0; i < BYTES; i++) bytes[i] = draw(9) ? (uint8_t)(32 + draw(95)) : (uint8_t)draw(256);
    for (size_t i = 2; i < WORDS; i++) words[i] = draw(2) ? draw(14) : some_number();
    words[0] = PLACES, words[1] = 0;
    for (size_t i = 0; i < PLACES; i++) {
        uint64_t *w = words + 66 + i * (16 + 2 * M);
        uint8_t *b = bytes + i * (224 + C);
        w[0] = some_number(), w[1] = some_number(), w[2] = draw(2), w[3] = some_number(), w[4] = draw(2);
        const char *stamp = stamps[draw(2)];
        w[5] = draw(2) ? strlen(stamp) : 0, memcpy(b + 128, stamp, strlen(stamp));
        w[6] = draw(3) * 32;
        if (draw(2)) for (size_t j = 160; j < 224; j++) b[j] = 'm';
        for (int j = 7; j < 11; j++) w[j] = draw(2) ? draw(33) : 32 * draw(2);
        /* Entries that follow on, the newest at slot M - 1. */
        if (draw(2)) for (uint64_t j = 0, number = w[0], head = w[14] = 0; j < M && number > 1; j++) head = (head + M - 1) % M, number -= 1 + draw(3) % (number - 1 ? number - 1 : 1), w[16 + 2 * head] = number, w[17 + 2 * head] = draw(2) ? draw(9) : draw(400);
    }
}

static void sessions(uint64_t count) {
    static uint8_t out[WZ_SCREEN + 8], before[WZ_SCREEN + 8];
    for (uint64_t i = 0; i < count; i++) {
        if (i % PLACES == 0) fill_areas();
        read_page(i % PLACES);
        for (size_t j = 0; j < sizeof out; j++) out[j] = before[j] = (uint8_t)i;
        uint64_t code = wz_screen_session(STORE, out, len - 1, PLACES, C, M, i % PLACES);
        if (WZ_REFUSAL(code) != WZ_REFUSED_NO_ROOM || memcmp(out, before, sizeof out)) fail("9 for an area a byte too short");
        code = wz_screen_session(STORE, out, draw(2) ? len : sizeof out, PLACES, C, M, i % PLACES);
        if (!WZ_OK(code) || WZ_COUNT(code) != len || memcmp(out, page, len) || memcmp(out + len, before + len, sizeof out - len)) fail("a session is shown as the second reading has it");
        narrow(out, len);
        memcpy(out, before, sizeof out);
        code = wz_screen_session(STORE, out, sizeof out, PLACES, C, draw(2) ? M : WZ_MAX_M + 1, PLACES + draw(2));
        if (WZ_REFUSAL(code) != WZ_REFUSED_RULES_BROKEN || memcmp(out, before, sizeof out)) fail("25 for a place that isn't in use");
        reached[UNFIT]++;
    }
}

/* ---- frames, field by field, with the words for them */
static uint8_t frame[4096];
static size_t frame_len;
static char told_words[8192];
static void put(uint64_t value, int n) { while (n-- > 0) frame[frame_len++] = (uint8_t)value, value >>= 8; }
static void add(const char *label) { strcat(told_words, label); }
static uint64_t add_number(const char *label, uint64_t n) { sprintf(told_words + strlen(told_words), "%s%" PRIu64, label, n); return n; }
static void put_text(const char *label, size_t least, size_t most) {
    size_t n = least + draw(most - least + 1);
    put(n, 4);
    if (n || label[1] != '/') add(label);
    for (size_t i = 0; i < n; i++) {
        char c[2] = { (char)(32 + draw(95)), 0 };
        put((uint64_t)c[0], 1), add(c);
    }
}
static void put_stamp(const char *label) {
    static const char stamp[] = "20261116-08:00:00";
    put(17, 4), add(label), add(stamp);
    for (size_t i = 0; i < 17; i++) put((uint64_t)stamp[i], 1);
}
static void put_changes(void) {
    uint64_t count = draw(4) ? draw(4) : draw(12);
    put(count, 4);
    while (count-- > 0) {
        uint64_t kind = 1 + draw(8), len = draw(30);
        put(kind, 1);
        switch (kind) {
        case WZ_CHANGE_SET_NEXT_INCOMING: put(add_number(" in ", some_number()), 8); break;
        case WZ_CHANGE_SET_NEXT_INCOMING_IN_FLIGHT: put(add_number(" in ", some_number()), 8); put(add_number(" flight ", some_number()), 8); break;
        case WZ_CHANGE_SET_IN_FLIGHT: put(add_number(" flight ", some_number()), 8); break;
        case WZ_CHANGE_RECORD: put(add_number(" out ", some_number()), 8); put(add_number(" (", len), 4); add(")"); while (len-- > 0) put(draw(256), 1); break;
        case WZ_CHANGE_RECORD_NONE: put(add_number(" skip ", some_number()), 8); break;
        case WZ_CHANGE_RESET: add(" reset"); break;
        case WZ_CHANGE_SET_CREATED_AT: put_stamp(" since "); break;
        default: put_text(" marks ", 0, 64);
        }
    }
    put(0, 4);
}

/* Any frame, and the words for it. */
static void make_frame(void) {
    static const char *const parts[] = { "Commit  ", "Whole   ", "LastWhole " }, *const reasons[] = { "", "StaleEpoch", "Diverged", "Lag", "Restarted" };
    uint64_t kind = 1 + draw(8), part = draw(3), reason = 1 + draw(4), handle = some_number() & 0xffffffff, epoch = some_number();
    frame_len = 4, told_words[0] = 0;
    put(kind, 1);
    switch (kind) {
    case WZ_KIND_HELLO: put(1, 2); put(add_number("Hello   epoch ", epoch), 8); put_text(" node ", 0, 20); add_number(" version ", 1); put(0, 4); break;
    case WZ_KIND_WELCOME: put(add_number("Welcome epoch ", epoch), 8); put(add_number(" incarnation ", some_number()), 8); break;
    case WZ_KIND_BIND:
        put(add_number("Bind    ", handle), 4); put(epoch, 8); put(epoch = some_number(), 8);
        put_text(" ", 1, 8); put_text(" ", 1, 32); put_text(" -> ", 1, 32); put_text(" / ", 0, 3); add_number(" lag ", epoch);
        break;
    case WZ_KIND_BATCH: put(add_number(parts[part], handle), 4); put(epoch, 8); put(add_number(" #", some_number()), 8); put(part, 1); put_changes(); break;
    case WZ_KIND_ACK: put(add_number("Ack     ", handle), 4); put(add_number(" #", some_number()), 8); break;
    case WZ_KIND_NACK: put(add_number("Nack    ", handle), 4); put(reason, 1); add(" "); add(reasons[reason]); break;
    case WZ_KIND_BOUND:
        put(add_number("Bound   ", handle), 4); put(add_number(" out ", some_number()), 8); put(add_number(" in ", some_number()), 8);
        put(0, 8), put(0, 4), put(0, 4), put(0, 8);
        break;
    default: put(add_number("Checked ", handle), 4); put(add_number(" epoch ", epoch), 8); put(add_number(" incarnation ", some_number()), 8);
    }
    size_t n = frame_len;
    frame_len = 0, put(n - 4, 4), frame_len = n;
    if (draw(20) == 0) frame_len -= 1 + draw(frame_len - 1), strcpy(told_words, "cut short");
    else if (draw(20) == 0) frame[4] = 9, strcpy(told_words, "can't be read: R 3");
}

/* An answer, and the words for it. */
static size_t make_answer(uint8_t *reply, char *brief, uint8_t *refusal) {
    static const char *const reasons[] = { "", "StaleEpoch", "Diverged", "Lag", "Restarted" };
    *refusal = draw(3) ? 0 : (uint8_t)draw(256);
    reached[*refusal ? REFUSED : ANSWERED]++;
    frame_len = 0;
    uint64_t a = some_number(), b = some_number(), reason = 1 + draw(4);
    switch (draw(5)) {
    case 0: put(17, 4), put(WZ_KIND_WELCOME, 1), put(a, 8), put(b, 8), sprintf(brief, "Welcome %" PRIu64, a); break;
    case 1: put(13, 4), put(WZ_KIND_ACK, 1), put(a, 4), put(b, 8), strcpy(brief, "Ack"); break;
    case 2: put(6, 4), put(WZ_KIND_NACK, 1), put(a, 4), put(reason, 1), sprintf(brief, "Nack %s", reasons[reason]); break;
    case 3: put(45, 4), put(WZ_KIND_BOUND, 1), put(1, 4), put(a, 8), put(b, 8), put(0, 8), put(0, 8), put(0, 8), sprintf(brief, "Bound %" PRIu64 "/%" PRIu64, a, b); break;
    default: strcpy(brief, "none");
    }
    if (*refusal) sprintf(brief, "R %u", *refusal);
    memcpy(reply, frame, frame_len);
    return frame_len;
}

static void frames(uint64_t count) {
    static uint8_t out[WZ_SCREEN], before[WZ_SCREEN], reply[256];
    for (uint64_t i = 0; i < count; i++) {
        char text[128], number[40], brief[64];
        uint8_t refusal;
        uint64_t nth = some_number(), at = some_number();
        size_t reply_len = make_answer(reply, brief, &refusal);
        make_frame();
        len = column = 0;
        part(text, (size_t)sprintf(text, "%6" PRIu64, nth));
        part(text, (size_t)sprintf(text, "%9s", grouped(number, at)));
        int cut = strlen(told_words) > 46;
        if (cut) strcpy(told_words + 44, "..");
        reached[cut ? CUT : WHOLE_TEXT]++;
        part(text, (size_t)sprintf(text, " %-46s", told_words));
        part(brief, strlen(brief));
        end_line();
        for (size_t j = 0; j < sizeof out; j++) out[j] = before[j] = (uint8_t)i;
        uint64_t code = wz_screen_frame(nth, at, frame, frame_len, refusal, reply, reply_len, out, len - 1);
        if (WZ_REFUSAL(code) != WZ_REFUSED_NO_ROOM || memcmp(out, before, sizeof out)) fail("9 for a frame's area a byte too short");
        code = wz_screen_frame(nth, at, frame, frame_len, refusal, reply, reply_len, out, draw(2) ? len : sizeof out);
        if (!WZ_OK(code) || WZ_COUNT(code) != len || memcmp(out, page, len) || memcmp(out + len, before + len, sizeof out - len)) fail("a frame is shown as the second reading has it");
        narrow(out, len);
    }
}

static void refusals(int count, char **numbers) {
    static uint8_t out[WZ_SCREEN];
    for (int n = 0; n < 256; n++) {
        char start[16];
        int told = 0;
        for (int i = 0; i < count; i++) told |= atoi(numbers[i]) == n;
        memset(out, 0, sizeof out);
        uint64_t code = wz_screen_refusal((uint8_t)n, out, sizeof out);
        if (!WZ_OK(code) || WZ_REFUSAL(wz_screen_refusal((uint8_t)n, out, WZ_COUNT(code) - 1)) != WZ_REFUSED_NO_ROOM) fail("a refusal is shown");
        narrow(out, WZ_COUNT(code));
        sprintf(start, "R %-5d", n);
        if ((memcmp(out, start, 7) == 0) != (told != 0)) fail("the refusals with words are those of docs/REFUSALS.md");
    }
}

int main(int argc, char **argv) {
    uint64_t count = argc > 1 ? strtoull(argv[1], NULL, 10) : 100000;
    sessions(count);
    frames(count);
    refusals(argc - 2, argv + 2);
    printf("screen: %" PRIu64 " sessions, as many frames;", count);
    int missing = 0;
    for (int i = 0; i < FORMS; i++) printf(" %s %" PRIu64 "%s", names[i], reached[i], i + 1 < FORMS ? "," : "\n"), missing |= !reached[i];
    return missing;
}

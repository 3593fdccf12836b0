/* A standby over libwizhdulet.a: it takes an active's stream on standard input, shows each frame's answer, its sessions, and takes over when the stream ends.
 *
 *   cc examples/standby.c $(pkg-config --cflags --libs wizhdulet) -o standby
 *   xxd -r -p <oracle/recorded/frames/09-life.in | ./standby
 *
 * A gateway's own host differs in three things: it reads and writes a socket, it keeps the store's two areas over a restart, and it draws another incarnation at each start.
 */
#include <inttypes.h>
#include <stdio.h>
#include <string.h>
#include <unistd.h>
#include <wizhdulet.h>

/* Four sessions of at most 4,096 message bytes and 64 messages; four handles. */
enum { S = 4, C = 4096, M = 64, HANDLES = 4 };
static const wz_settings_t settings = WZ_MADE_SETTINGS(S, C, M, 7, 0);
static wz_replica_t counters;
static wz_bound_t row[HANDLES];
static uint64_t words[WZ_WORDS(S, M)];
static uint8_t bytes[WZ_BYTES(S, C)], holds[WZ_HOLDS(HANDLES, C, M)];
/* Sessions as small as these need no word for the ends of segments; an array has one at least. */
enum { ENDS = WZ_ENDS(HANDLES, C, M) };
static uint64_t ends[ENDS + 1];
#define STORE words, sizeof words / sizeof *words, bytes, sizeof bytes
#define LENT &counters, row, HANDLES, STORE, holds, sizeof holds, ends, ENDS

static uint64_t little(const uint8_t *from, int count) {
    uint64_t value = 0;
    while (count-- > 0) value = value << 8 | from[count];
    return value;
}

/* A u32 length and its text, which go to `to`; where the next field begins. */
static const uint8_t *text(const uint8_t *from, char *to) {
    size_t len = (size_t)little(from, 4);
    memcpy(to, from + 4, len);
    to[len] = 0;
    return from + 4 + len;
}

static void show_session(size_t place) {
    uint8_t told[WZ_SESSION];
    char key[4][33], stamp[WZ_STAMP + 1], marks[65];
    if (!WZ_OK(wz_session(STORE, told, sizeof told, S, C, M, place, UINT64_MAX))) return;
    const uint8_t *next = told + 2;
    for (int i = 0; i < 4; i++) next = text(next, key[i]);
    uint64_t outgoing = little(next, 8), incoming = little(next + 8, 8), in_flight = little(next + 16, 8);
    next = text(text(next + 24, stamp), marks);
    printf("  %s %s -> %s%s%s: next outgoing %" PRIu64 ", next incoming %" PRIu64, key[0], key[1], key[2], *key[3] ? " / " : "", key[3], outgoing, incoming);
    if (told[1]) printf(", in flight %" PRIu64, in_flight);
    printf("\n    since %s, marks '%s', %s, messages' hash %016" PRIx64 "\n", *stamp ? stamp : "no time", marks, told[0] ? "durable" : "not durable", little(next, 8));
}

static void show_sessions(const char *when) {
    printf("%s: epoch %" PRIu64 ", %s, %s\n", when, counters.epoch, counters.checked ? "checked" : "not checked", counters.promoted ? "promoted" : "not promoted");
    for (size_t place = 0; place < words[0]; place++) show_session(place);
}

/* What a counterparty's ResendRequest gets after the promotion: each stored message of these numbers again, a gap fill where none is. */
static void resend(const char *begin, const char *sender, const char *target, uint64_t first, uint64_t last) {
    uint64_t place = wz_find(STORE, (const uint8_t *)begin, strlen(begin), (const uint8_t *)sender, strlen(sender), (const uint8_t *)target, strlen(target), bytes, 0, S, C, M);
    if (!WZ_OK(place)) return;
    for (uint64_t number = first; number <= last; number++) {
        static uint8_t message[C];
        uint64_t code = wz_message(STORE, message, sizeof message, S, C, M, WZ_COUNT(place), number);
        if (WZ_OK(code)) printf("    %" PRIu64 " again: %.*s\n", number, (int)WZ_COUNT(code), message);
        else printf("    %" PRIu64 " as a gap fill\n", number);
    }
}

static const char *const kinds[] = { "none", "Hello", "Welcome", "Bind", "Batch", "Ack", "Nack", "Bound", "Checked" };

/* The version that the connection speaks: 1 until a Hello is accepted, then that Hello's. */
static uint16_t version(void) { return counters.version2 ? 2 : 1; }

/* Takes one whole frame and shows what a host would send back; 0 if the connection must end. */
static int answer(const uint8_t *frame, size_t len) {
    uint8_t out[WZ_ANSWER];
    wz_answer_t given = wz_on_frame(LENT, frame, len, settings);
    if (given.refusal) {
        printf("%s: refused, %u (docs/REFUSALS.md); the connection ends\n", kinds[frame[4]], given.refusal);
        return 0;
    }
    size_t count = WZ_COUNT(wz_answer(given, bytes, sizeof bytes, out, sizeof out, version()));
    printf("%s: %s ", kinds[frame[4]], kinds[given.kind]);
    for (size_t i = 0; i < count; i++) printf("%02x", out[i]);
    putchar('\n');
    return 1;
}

/* Cuts a stream into frames; what there is of a next frame stays for the next read. */
static void connection(int stream) {
    static uint8_t buffer[WZ_MAX_FRAME];
    size_t have = 0;
    ssize_t got;
    while ((got = read(stream, buffer + have, sizeof buffer - have)) > 0) {
        size_t at = 0;
        uint64_t code = WZ_MORE;
        have += (size_t)got;
        while (at < have && (code = wz_read(buffer + at, have - at, version()), WZ_OK(code))) {
            if (!answer(buffer + at, WZ_COUNT(code))) goto ended;
            at += WZ_COUNT(code);
        }
        if (at < have && code != WZ_MORE) {
            printf("not a frame: refused, %d\n", WZ_REFUSAL(code));
            break;
        }
        memmove(buffer, buffer + at, have -= at);
    }
ended:
    wz_disconnected_from(LENT, counters.connections, settings);
}

int main(void) {
    if (wz_version() != WZ_VERSION) {
        fputs("standby: the archive isn't that of the header\n", stderr);
        return 1;
    }
    /* A restart that has kept words and bytes leaves out the first of these two. */
    if (wz_store_make(STORE, settings.shape) || wz_standby_make(&counters, row, HANDLES, STORE, settings).refusal) {
        fputs("standby: the areas don't fit the settings\n", stderr);
        return 1;
    }
    connection(0);
    show_sessions("the connection has ended");
    wz_answer_t taken = wz_promote(LENT, settings);
    if (taken.refusal == WZ_REFUSED_UNCHECKED) {
        puts("nobody has checked this copy: taking over all the same");
        taken = wz_promote_unchecked(LENT, settings);
    }
    if (taken.refusal) {
        printf("not taken over: refused, %u\n", taken.refusal);
        return 1;
    }
    show_sessions("taken over");
    resend("FIX.4.4", "A", "B", 1, 6);
    return 0;
}

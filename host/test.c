/*
 * The calls as a host in C sees them: answers, counts and lines, and every byte that must not
 * change. Each buffer lies between guards, and each call is checked against a copy of all of them.
 * Ends with a line `N passed, M failed`; status 1 where one failed.
 */
#include <stdio.h>
#include <stdlib.h>
#include <string.h>

#include "iceshaft.h"

#define GUARD 64
#define OUT_BYTES 4096
#define UNSET 987654321

#define RDF "http://www.w3.org/1999/02/22-rdf-syntax-ns#"

/* A list: one of every kind of event but text. */
static const char list[] =
    "(e:P\n"
    "Axmlns:rdf " RDF "\n"
    "Axmlns:e http://e/\n"
    "Axml:base http://e/d\n"
    "Ardf:about p\n"
    "(e:by\n"
    "Ardf:parseType Collection\n"
    "(rdf:Description\n"
    "Ardf:about #a\n"
    ")rdf:Description\n"
    "(rdf:Description\n"
    "Ardf:nodeID k\n"
    ")rdf:Description\n"
    ")e:by\n"
    ")e:P\n";
static const char list_lines[] =
    "<http://e/p> <" RDF "type> <http://e/P> .\n"
    "_:riog00000004 <" RDF "first> _:k .\n"
    "_:riog00000004 <" RDF "rest> <" RDF "nil> .\n"
    "_:riog00000005 <" RDF "first> <http://e/d#a> .\n"
    "_:riog00000005 <" RDF "rest> _:riog00000004 .\n"
    "<http://e/p> <http://e/by> _:riog00000005 .\n";

/* Text, a language, an rdf:ID on a start base, and a Literal. */
static const char notes[] =
    "(rdf:RDF\n"
    "Axmlns:rdf " RDF "\n"
    "Axmlns:e http://e/\n"
    "?xml-stylesheet none\n"
    "(e:Note\n"
    "Ardf:ID n\n"
    "(e:says\n"
    "Axml:lang EN-gb\n"
    "-one \\\\ two\n"
    "-\\nthree\n"
    ")e:says\n"
    "(e:marked\n"
    "Ardf:parseType Literal\n"
    "(e:b\n"
    "-<bold>\n"
    ")e:b\n"
    ")e:marked\n"
    ")e:Note\n"
    ")rdf:RDF\n";
static const char notes_lines[] =
    "<http://base/x#n> <" RDF "type> <http://e/Note> .\n"
    "<http://base/x#n> <http://e/says> \"one \\\\ two\\nthree\"@en-gb .\n"
    "<http://base/x#n> <http://e/marked> \"<e:b>&lt;bold&gt;</e:b>\"^^<" RDF "XMLLiteral> .\n";

/* A packet: an instruction, the wrapper with an attribute, the start base by an empty rdf:about. */
#define PACKET \
    "?xpacket begin=\"\"\n" \
    "(x:xmpmeta\n" \
    "Axmlns:x adobe:ns:meta/\n" \
    "Ax:xmptk by hand\n" \
    "-\\n\n" \
    "(rdf:RDF\n" \
    "Axmlns:rdf " RDF "\n" \
    "Axmlns:e http://e/\n" \
    "(rdf:Description\n" \
    "Ardf:about \n" \
    "Ae:date 2026-11-17\n" \
    "(e:title\n" \
    "(rdf:Alt\n" \
    "(rdf:li\n" \
    "Axml:lang x-default\n" \
    "-ice\n" \
    ")rdf:li\n"
static const char packet[] =
    PACKET
    "(rdf:li\n"
    "Axml:lang de\n"
    "-Eis\n"
    ")rdf:li\n"
    ")rdf:Alt\n"
    ")e:title\n"
    ")rdf:Description\n"
    ")rdf:RDF\n"
    "-\\n\n"
    ")x:xmpmeta\n"
    "?xpacket end=\"w\"\n";
static const char packet_lines[] =
    "<http://base/x> <http://e/date> \"2026-11-17\" .\n"
    "_:riog00000002 <" RDF "type> <" RDF "Alt> .\n"
    "_:riog00000002 <" RDF "_1> \"ice\"@x-default .\n"
    "_:riog00000002 <" RDF "_2> \"Eis\"@de .\n"
    "<http://base/x> <http://e/title> _:riog00000002 .\n";

/* A second rdf:li that carries no xml:lang, where the first does. */
static const char uncarried[] = PACKET "(rdf:li\n";

static int passed, failed;

static void check(int ok, const char *what)
{
    if (ok) {
        passed++;
    } else {
        failed++;
        printf("FAILED: %s\n", what);
    }
}

/* ---- buffers between guards */

struct buffers {
    uint8_t state_[GUARD + ICESHAFT_STATE_BYTES + GUARD];
    uint8_t work_[GUARD + ICESHAFT_WORK_BYTES + GUARD];
    uint8_t ids_[GUARD + ICESHAFT_IDS_BYTES + GUARD];
    uint8_t out_[GUARD + OUT_BYTES + GUARD];
};

static struct buffers b, before;

#define STATE (b.state_ + GUARD)
#define WORK (b.work_ + GUARD)
#define IDS (b.ids_ + GUARD)
#define OUT (b.out_ + GUARD)

static uint32_t seed = 1;

/* Noise: a linear congruential sequence. */
static uint8_t noise(void)
{
    seed = seed * 1664525u + 1013904223u;
    return (uint8_t)(seed >> 24);
}

static void noise_all(void)
{
    uint8_t *p = (uint8_t *)&b;
    for (size_t i = 0; i < sizeof b; i++)
        p[i] = noise();
}

static void remember(void)
{
    memcpy(&before, &b, sizeof b);
}

static int nothing_changed(void)
{
    return memcmp(&before, &b, sizeof b) == 0;
}

/* A closing refusal: the mark is the first byte of the state. */
static int only_the_mark(void)
{
    before.state_[GUARD] = 1;
    return nothing_changed();
}

/* Guards, and the output behind what was written. */
static int guards_kept(size_t written)
{
    return memcmp(before.state_, b.state_, GUARD) == 0
        && memcmp(before.state_ + GUARD + ICESHAFT_STATE_BYTES, STATE + ICESHAFT_STATE_BYTES, GUARD) == 0
        && memcmp(before.work_, b.work_, GUARD) == 0
        && memcmp(before.work_ + GUARD + ICESHAFT_WORK_BYTES, WORK + ICESHAFT_WORK_BYTES, GUARD) == 0
        && memcmp(before.ids_, b.ids_, GUARD) == 0
        && memcmp(before.ids_ + GUARD + ICESHAFT_IDS_BYTES, IDS + ICESHAFT_IDS_BYTES, GUARD) == 0
        && memcmp(before.out_, b.out_, GUARD) == 0
        && memcmp(before.out_ + GUARD + written, OUT + written, OUT_BYTES - written + GUARD) == 0;
}

/* ---- the calls on them; each checks what holds of every call */

static size_t consumed, written;

static uint8_t start_in(uint32_t mode, const char *base)
{
    remember();
    uint8_t n = iceshaft_start(STATE, ICESHAFT_STATE_BYTES, WORK, ICESHAFT_WORK_BYTES,
                               IDS, ICESHAFT_IDS_BYTES, mode, base != NULL,
                               (const uint8_t *)base, base == NULL ? 0 : strlen(base));
    check(n == 0 ? guards_kept(0) : nothing_changed(), "start: bytes that must stay");
    return n;
}

static uint8_t start_on(const char *base)
{
    return start_in(ICESHAFT_BASE, base);
}

static uint8_t step_on(const char *input, size_t size, uint32_t last, size_t room)
{
    remember();
    consumed = written = UNSET;
    uint8_t n = iceshaft_step(STATE, ICESHAFT_STATE_BYTES, WORK, ICESHAFT_WORK_BYTES,
                              IDS, ICESHAFT_IDS_BYTES, (const uint8_t *)input, size, last,
                              OUT, room, &consumed, &written);
    if (n == 0) {
        check(0 < consumed && consumed <= size && written <= room, "step: counts");
        check(guards_kept(written), "step: bytes that must stay");
    } else {
        check(consumed == 0 && written == 0, "step: counts of a refusal");
        check(n <= 4 ? nothing_changed() : only_the_mark(), "step: bytes that a refusal leaves");
    }
    return n;
}

static uint8_t finish_on(void)
{
    remember();
    uint8_t n = iceshaft_finish(STATE, ICESHAFT_STATE_BYTES, WORK, ICESHAFT_WORK_BYTES,
                                IDS, ICESHAFT_IDS_BYTES);
    check(n == 3 || n == 4 ? nothing_changed() : only_the_mark(), "finish: bytes that must stay");
    return n;
}

/* ---- documents */

static char lines[1 << 16];
static size_t lines_size;

/* Steps until one refuses, over input of which `piece` bytes more are at hand each time 1 is
   answered; the lines are kept. Answers what ended it. */
static uint8_t steps(const char *text, size_t size, size_t piece)
{
    size_t at = 0, end = piece < size ? piece : size;
    for (;;) {
        uint8_t n = step_on(text + at, end - at, end == size, OUT_BYTES);
        if (n == 1 && end < size) {
            end = end + piece < size ? end + piece : size;
            continue;
        }
        if (n != 0)
            return n;
        memcpy(lines + lines_size, OUT, written);
        lines_size += written;
        at += consumed;
    }
}

/* A whole document, which must be accepted in this mode and give these lines. */
static void whole_in(uint32_t mode, const char *text, const char *base, size_t piece,
                     const char *expected, const char *what)
{
    lines_size = 0;
    int ok = start_in(mode, base) == 0 && steps(text, strlen(text), piece) == 1 && finish_on() == 0;
    check(ok && lines_size == strlen(expected) && memcmp(lines, expected, lines_size) == 0, what);
}

static void whole(const char *text, const char *base, size_t piece, const char *expected,
                  const char *what)
{
    whole_in(ICESHAFT_BASE, text, base, piece, expected, what);
}

/* A document that is refused by n in this mode, and closed by it. */
static void refused_in(uint32_t mode, const char *base, const char *text, uint8_t n, const char *what)
{
    noise_all();
    lines_size = 0;
    check(start_in(mode, base) == 0 && steps(text, strlen(text), 1 << 16) == n, what);
    check(step_on("?x\n", 3, 1, OUT_BYTES) == 4, "closed: step gets 4");
    check(finish_on() == 4, "closed: finish gets 4");
}

static void refused(const char *text, uint8_t n, const char *what)
{
    refused_in(ICESHAFT_BASE, NULL, text, n, what);
}

/* ---- tests */

static void test_sizes(void)
{
    check(iceshaft_state_bytes() == ICESHAFT_STATE_BYTES, "bytes of a state");
}

static void test_null(void)
{
    consumed = written = UNSET;
    check(iceshaft_start(NULL, 0, NULL, 0, NULL, 0, ICESHAFT_BASE, 0, NULL, 0) == 3, "start on nothing");
    check(iceshaft_step(NULL, 0, NULL, 0, NULL, 0, NULL, 0, 0, NULL, 0, &consumed, &written) == 3
          && consumed == 0 && written == 0, "step on nothing");
    check(iceshaft_finish(NULL, 0, NULL, 0, NULL, 0) == 3, "finish on nothing");

    noise_all();
    check(start_on(NULL) == 0, "start without base");
    check(iceshaft_step(STATE, ICESHAFT_STATE_BYTES, WORK, ICESHAFT_WORK_BYTES, IDS,
                        ICESHAFT_IDS_BYTES, NULL, 0, 0, NULL, 0, &consumed, &written) == 1,
          "no input, no room");
    check(step_on(list, strlen(list), 1, 0) == 2, "no room");
    check(iceshaft_start(STATE, ICESHAFT_STATE_BYTES, WORK, ICESHAFT_WORK_BYTES, IDS,
                         ICESHAFT_IDS_BYTES, ICESHAFT_BASE, 1, NULL, 0) == 11, "an empty base is no IRI");
}

/* Each buffer is one byte short, one byte long, and empty, in a document that is open. */
static void test_lengths(void)
{
    static const int off[] = { -1, 1, -ICESHAFT_STATE_BYTES };
    noise_all();
    start_on(NULL);
    for (int which = 0; which < 3; which++) {
        for (int k = 0; k < 3; k++) {
            size_t s = ICESHAFT_STATE_BYTES + (size_t)(which == 0 ? off[k] : 0);
            size_t w = ICESHAFT_WORK_BYTES + (size_t)(which == 1 ? off[k] : 0);
            size_t i = ICESHAFT_IDS_BYTES + (size_t)(which == 2 ? off[k] : 0);
            remember();
            consumed = written = UNSET;
            check(iceshaft_start(STATE, s, WORK, w, IDS, i, ICESHAFT_BASE, 0, NULL, 0) == 3,
                  "start, wrong length");
            check(nothing_changed(), "start, wrong length: bytes");
            check(iceshaft_step(STATE, s, WORK, w, IDS, i, (const uint8_t *)list, strlen(list), 1,
                                OUT, OUT_BYTES, &consumed, &written) == 3
                  && consumed == 0 && written == 0, "step, wrong length");
            check(nothing_changed(), "step, wrong length: bytes");
            check(iceshaft_finish(STATE, s, WORK, w, IDS, i) == 3, "finish, wrong length");
            check(nothing_changed(), "finish, wrong length: bytes");
        }
    }
    lines_size = 0;
    check(steps(list, strlen(list), 1 << 16) == 1 && finish_on() == 0
          && lines_size == strlen(list_lines) && memcmp(lines, list_lines, lines_size) == 0,
          "the document goes on");
}

/* Bytes that are no state: 3. */
static void test_noise(void)
{
    for (int k = 0; k < 200; k++) {
        noise_all();
        check(step_on(list, strlen(list), 1, OUT_BYTES) == 3, "step on noise");
        check(finish_on() == 3, "finish on noise");
        /* the flags and the mode are 0 or 1, all else is noise */
        for (int i = 0; i < 32; i++)
            STATE[i] = i % 8 == 0 ? noise() & 1 : 0;
        check(step_on(list, strlen(list), 1, OUT_BYTES) == 3, "step on noise with flags");
        check(finish_on() == 3, "finish on noise with flags");
    }
    whole(list, NULL, 1 << 16, list_lines, "start on noise");
}

/* Every byte of the state behind these events is damaged, one at a time: each call answers, and keeps
   to its buffers. */
static void damage(uint32_t mode, const char *text, int events, const char *what)
{
    static struct buffers good;
    noise_all();
    start_in(mode, "http://base/x");
    size_t at = 0;
    for (int k = 0; k < events; k++) {
        step_on(text + at, strlen(text) - at, 1, OUT_BYTES);
        at += consumed;
    }
    memcpy(&good, &b, sizeof b);
    unsigned counts[20] = { 0 };
    for (size_t i = 0; i < ICESHAFT_STATE_BYTES; i++) {
        memcpy(&b, &good, sizeof b);
        STATE[i] ^= (uint8_t)(1 + noise() % 255);
        uint8_t n = step_on(text + at, strlen(text) - at, 1, OUT_BYTES);
        check(n <= 19, "a number");
        counts[n <= 19 ? n : 19]++;
        memcpy(&b, &good, sizeof b);
        STATE[i] ^= (uint8_t)(1 + noise() % 255);
        n = finish_on();
        check(n == 3 || n == 4 || n == 6, "a number at finish");
    }
    printf("damaged states of %s: %u of %u refused by 3\n", what, counts[3], ICESHAFT_STATE_BYTES);
    memcpy(&b, &good, sizeof b);
    lines_size = 0;
    check(steps(text + at, strlen(text) - at, 1 << 16) == 1 && finish_on() == 0, "undamaged");
}

static void test_damage(void)
{
    damage(ICESHAFT_BASE, notes, 5, "a note");
    damage(ICESHAFT_XMP, packet, 10, "a packet");
}

/* The same buffers serve a second document, after finish, after a refusal, and in the middle. */
static void test_again(void)
{
    noise_all();
    whole(list, NULL, 1 << 16, list_lines, "first document");
    whole(notes, "http://base/x", 1 << 16, notes_lines, "second document");
    whole(notes, "http://base/x", 1 << 16, notes_lines, "third document, the same IDs");
    check(start_on(NULL) == 0 && step_on("x\n", 2, 1, OUT_BYTES) == 5, "a refusal");
    whole(list, NULL, 1 << 16, list_lines, "after a refusal");
    check(start_on(NULL) == 0 && step_on(list, strlen(list), 1, OUT_BYTES) == 0, "one event");
    whole(list, NULL, 1 << 16, list_lines, "started again in the middle");
    check(finish_on() == 4, "finish twice");
}

/* A refused start in the middle of a document changes nothing, and the document goes on. */
static void test_refused_start(void)
{
    static char base[1026];
    memset(base, 'a', sizeof base - 1);
    memcpy(base, "http://", 7);
    noise_all();
    check(start_on("http://base/x") == 0, "start with base");
    check(start_on("x") == 11, "a relative base");
    check(start_on("http://\xff") == 11, "a base that is no UTF-8");
    check(start_on(base) == 7, "a base of 1,025 bytes");
    lines_size = 0;
    check(steps(notes, strlen(notes), 1 << 16) == 1 && finish_on() == 0
          && lines_size == strlen(notes_lines) && memcmp(lines, notes_lines, lines_size) == 0,
          "the first base holds");
    base[1024] = 0;
    check(start_on(base) == 0, "a base of 1,024 bytes");
    check(start_on("x") == 11 && step_on("", 0, 1, OUT_BYTES) == 1, "still open");
}

/* Input at hand in pieces. */
static void test_pieces(void)
{
    static const size_t sizes[] = { 1, 2, 3, 7, 64, 1 << 16 };
    for (size_t k = 0; k < sizeof sizes / sizeof sizes[0]; k++) {
        noise_all();
        whole(list, NULL, sizes[k], list_lines, "a list in pieces");
        whole(notes, "http://base/x", sizes[k], notes_lines, "notes in pieces");
    }
}

/* Every event first gets one byte less than it needs, then just enough. */
static void test_room(void)
{
    const char *rest = list;
    size_t end = strlen(list_lines), had = 0;
    noise_all();
    start_on(NULL);
    while (*rest != 0) {
        size_t size = strlen(rest);
        /* what it needs, found on copies */
        static struct buffers copy;
        memcpy(&copy, &b, sizeof b);
        check(step_on(rest, size, 1, OUT_BYTES) == 0, "with room");
        size_t need = written;
        memcpy(&b, &copy, sizeof b);
        if (need > 0) {
            check(step_on(rest, size, 1, need - 1) == 2, "one byte short");
            check(step_on(rest, size, 1, 0) == 2, "no room at all");
        }
        check(step_on(rest, size, 1, need) == 0 && written == need, "just enough");
        check(had + need <= end && memcmp(list_lines + had, OUT, need) == 0, "the lines");
        had += need;
        rest += consumed;
    }
    check(had == end && finish_on() == 0, "all lines");
}

/* Every number but 0 says yes. */
static void test_flags(void)
{
    static const uint32_t yes[] = { 1, 2, 256, 65536, 0xffffffffu };
    noise_all();
    for (size_t k = 0; k < sizeof yes / sizeof yes[0]; k++) {
        check(iceshaft_start(STATE, ICESHAFT_STATE_BYTES, WORK, ICESHAFT_WORK_BYTES, IDS,
                             ICESHAFT_IDS_BYTES, ICESHAFT_BASE, yes[k], (const uint8_t *)"x", 1) == 11,
              "based");
        check(start_on(NULL) == 0, "not based");
        check(step_on("?x", 2, 0, OUT_BYTES) == 1, "more may follow");
        check(step_on("?x", 2, yes[k], OUT_BYTES) == 5, "no more follows");
    }
}

/* A number that is no mode: 3, whatever the buffers hold and before the base is looked at. */
static void test_unknown_modes(void)
{
    static const uint32_t none[] = { 2, 3, 255, 256, 257, 65536, 0x80000000u, 0xffffffffu };
    for (size_t k = 0; k < sizeof none / sizeof none[0]; k++) {
        noise_all();
        check(start_in(none[k], NULL) == 3, "an unknown mode");
        check(start_in(none[k], "http://base/x") == 3, "an unknown mode with a base");
        check(start_in(none[k], "x") == 3, "an unknown mode and a bad base");
        check(start_in(ICESHAFT_XMP, "http://base/x") == 0 && start_in(none[k], NULL) == 3,
              "an unknown mode behind a start");
        lines_size = 0;
        check(steps(packet, strlen(packet), 1 << 16) == 1 && finish_on() == 0
              && lines_size == strlen(packet_lines) && memcmp(lines, packet_lines, lines_size) == 0,
              "the packet goes on");
    }
}

/* A packet: read in the profile and refused where it breaks a rule; in the base mode 14 at rdf:RDF. */
static void test_packets(void)
{
    static const size_t sizes[] = { 1, 7, 1 << 16 };
    for (size_t k = 0; k < sizeof sizes / sizeof sizes[0]; k++) {
        noise_all();
        whole_in(ICESHAFT_XMP, packet, "http://base/x", sizes[k], packet_lines, "a packet in pieces");
    }
    refused_in(ICESHAFT_BASE, "http://base/x", packet, 14, "a packet in the base mode");
    refused_in(ICESHAFT_XMP, NULL, packet, 11, "a packet without a base");
    refused_in(ICESHAFT_XMP, "http://base/x", uncarried, 19, "an rdf:li that carries no language");
    check(lines_size > 0 && lines_size < strlen(packet_lines)
          && memcmp(lines, packet_lines, lines_size) == 0, "the lines before it stand");
    refused_in(ICESHAFT_XMP, NULL, list, 19, "a root that is a node");
    refused_in(ICESHAFT_XMP, NULL, "(x:xmpmeta\nAxmlns:x adobe:ns:meta/\n)x:xmpmeta\n", 19,
               "a wrapper without rdf:RDF");
    refused_in(ICESHAFT_XMP, NULL, "(r:RDF\nAxmlns:r " RDF "\nAr:nodeID n\n", 19, "rdf:nodeID");

    /* each start chooses anew, a refused one does not */
    noise_all();
    whole_in(ICESHAFT_XMP, packet, "http://base/x", 1 << 16, packet_lines, "a packet");
    whole(list, NULL, 1 << 16, list_lines, "then a list in the base mode");
    whole_in(ICESHAFT_XMP, packet, "http://base/x", 1 << 16, packet_lines, "then a packet again");
    check(start_in(ICESHAFT_XMP, NULL) == 0 && start_in(ICESHAFT_BASE, "x") == 11
          && step_on(list, strlen(list), 1, OUT_BYTES) == 19, "a refused start leaves the profile");
    check(start_on(NULL) == 0 && start_in(ICESHAFT_XMP, "x") == 11
          && step_on(list, strlen(list), 1, OUT_BYTES) == 0, "a refused start leaves the base mode");
}

/* All three buffers moved elsewhere, and a document gone on with from a copy. */
static void test_moved(void)
{
    static struct buffers copy;
    const char *rest = list;
    char first[sizeof list_lines];
    noise_all();
    start_on(NULL);
    for (int k = 0; k < 3; k++) {
        step_on(rest, strlen(rest), 1, OUT_BYTES);
        rest += consumed;
    }
    memcpy(&copy, &b, sizeof b);
    lines_size = 0;
    check(steps(rest, strlen(rest), 1 << 16) == 1 && finish_on() == 0, "the original");
    size_t size = lines_size;
    memcpy(first, lines, size);
    noise_all();
    memcpy(STATE, copy.state_ + GUARD, ICESHAFT_STATE_BYTES);
    memcpy(WORK, copy.work_ + GUARD, ICESHAFT_WORK_BYTES);
    memcpy(IDS, copy.ids_ + GUARD, ICESHAFT_IDS_BYTES);
    lines_size = 0;
    check(steps(rest, strlen(rest), 3) == 1 && finish_on() == 0, "the copy");
    check(size == lines_size && memcmp(first, lines, size) == 0, "the same lines");
}

/* Refusals: each closes by the mark alone. */
static void test_refusals(void)
{
    refused("x\n", 5, "not PYX");
    refused("(a", 5, "unended");
    refused(")a\n", 6, "no match");
    refused("(a\n", 8, "no namespace");
    refused("(e:a\nAxmlns:e http://e/\nAxmlns:r " RDF "\nAr:ID 1\n", 9, "no NCName");
    refused("(e:a\nAxmlns:e http://e/\nAxml:lang 1-\n", 10, "bad language");
    refused("(e:a\nAxmlns:e http://e/\nAxmlns:r " RDF "\nAr:about x\n", 11, "no base");
    refused("(e:a\nAxmlns:e http://e/\nAxmlns:r " RDF "\nAxml:base http://b/\nAr:ID i\n(e:b\n(e:c\nAr:ID i\n",
            12, "repeated ID");
    refused("(e:a\nAxmlns:e http://e/\nAxmlns:r " RDF "\nAr:nodeID riog00000001\n", 13, "bad label");
    refused("(r:li\nAxmlns:r " RDF "\n", 14, "reserved");
    refused("(e:a\nAxmlns:e http://e/\nAxmlns:r " RDF "\nAr:nodeID i\nAr:about http://e/\n", 15, "two names");
    refused("(e:a\nAxmlns:e http://e/\n-text\n", 16, "stray text");
    refused("(e:a\nAxmlns:e http://e/\nAxmlns:r " RDF "\n(e:b\nAr:parseType Literal\n)e:b\n", 17,
            "empty Literal");
    static char line[ICESHAFT_MOST_EVENT_BYTES + 2];
    memset(line, 'x', sizeof line);
    line[0] = '?';
    check(start_on(NULL) == 0, "start");
    check(step_on(line, ICESHAFT_MOST_EVENT_BYTES, 0, OUT_BYTES) == 1, "32,768 bytes at hand");
    check(step_on(line, ICESHAFT_MOST_EVENT_BYTES + 1, 0, OUT_BYTES) == 7, "32,769 bytes at hand");
    check(start_on(NULL) == 0, "start");
    line[ICESHAFT_MOST_EVENT_BYTES - 1] = '\n';
    check(step_on(line, sizeof line, 0, OUT_BYTES) == 0 && consumed == ICESHAFT_MOST_EVENT_BYTES,
          "an event of 32,768 bytes");
    check(finish_on() == 6, "no root");
}

int main(void)
{
    test_sizes();
    test_null();
    test_lengths();
    test_noise();
    test_damage();
    test_again();
    test_refused_start();
    test_pieces();
    test_room();
    test_flags();
    test_unknown_modes();
    test_packets();
    test_moved();
    test_refusals();
    printf("%d passed, %d failed\n", passed, failed);
    return failed != 0;
}

/*
 * Iceshaft for a host program in C: a reader of RDF/XML, PYX lines in, N-Triples lines out.
 *
 * Three calls, start, step and finish, on numbers and byte buffers. They allocate nothing, keep
 * nothing between calls but what is in the buffers, and read and write nothing else. Their answers
 * are proved: crates/reader_host/specs/Meets.antt has the contracts, crates/reader_host/specs/Use.antt the rules
 * below as theorems. Link with libreader_host.a, which `sh host/run.sh`
 * leaves in target/staticlib.
 */
#ifndef ICESHAFT_H
#define ICESHAFT_H

#include <stddef.h>
#include <stdint.h>

#ifdef __cplusplus
extern "C" {
#endif

/*
 * Buffers. The host lends them for the time of a call, and each has exactly the length given here.
 *
 *   state  what is kept of a document: its bytes mean nothing to the host
 *   work   what open elements hold
 *   ids    the rdf:IDs used so far
 *
 * A document is the calls from one accepted start up to the next. From one call to the next the
 * host keeps the three as the call left them; it may move them elsewhere, or copy all three and go
 * on from the copy. It changes none of their bytes. Changed bytes do no harm to the host: each
 * call answers on every content, and refuses by 3 what is no state.
 *
 * Two buffers of one call do not overlap. A length of 0 goes with any pointer, NULL too: no byte
 * is read or written there.
 */
#define ICESHAFT_STATE_BYTES 11128
#define ICESHAFT_WORK_BYTES 65536
#define ICESHAFT_IDS_BYTES 32768

/* Answers: 0 is done, any other number a refusal. */
enum {
    ICESHAFT_DONE = 0,             /* done; the document goes on */
    ICESHAFT_INCOMPLETE = 1,       /* no complete event yet; with "no more", the rest is empty */
    ICESHAFT_NO_ROOM = 2,          /* this event's lines exceed the output room */
    ICESHAFT_BAD_STATE = 3,        /* a buffer of wrong length, bytes that are no state, or a mode
                                      that is none */
    ICESHAFT_CLOSED = 4,           /* closed by finish or by a refusal */
    ICESHAFT_NOT_PYX = 5,          /* not UTF-8, a forbidden character, not PYX, last line unended */
    ICESHAFT_NOT_WELL_FORMED = 6,  /* end tag without match, second root, repeated attribute, illegal
                                      xmlns; at finish: an open element, or no root */
    ICESHAFT_OVER_LIMIT = 7,       /* a limit below is passed */
    ICESHAFT_NO_NAMESPACE = 8,     /* unknown prefix; an element without namespace, or an attribute
                                      without prefix whose name does not begin `xml` */
    ICESHAFT_NOT_NCNAME = 9,       /* rdf:ID, rdf:bagID or rdf:nodeID is no NCName */
    ICESHAFT_BAD_LANGUAGE = 10,    /* bad xml:lang; an empty one is good, it clears the language */
    ICESHAFT_BAD_IRI = 11,         /* bad IRI, or relative with no base */
    ICESHAFT_REPEATED_ID = 12,     /* an earlier event had the same resolved rdf:ID */
    ICESHAFT_BAD_LABEL = 13,       /* rdf:nodeID ends in a full stop, or is riog and eight digits */
    ICESHAFT_RESERVED = 14,        /* reserved element or attribute here */
    ICESHAFT_TWO_NAMES = 15,       /* two of rdf:ID, rdf:nodeID, rdf:about on a node element;
                                      rdf:resource and rdf:nodeID on a property */
    ICESHAFT_STRAY_TEXT = 16,      /* text that is not blank where none may stand */
    ICESHAFT_EMPTY_LITERAL = 17,   /* a parseType Literal closes with its XML text empty */
    ICESHAFT_LABELS_SPENT = 18,    /* a 100,000,000th label, or a 100,000,000th rdf:li in one node */
    ICESHAFT_NOT_IN_PROFILE = 19   /* in the mode ICESHAFT_XMP: a rule of the XMP profile is broken */
};

/*
 * Modes: what a document is read as. It is chosen at start and holds up to the next accepted start.
 *
 *   ICESHAFT_BASE  any RDF/XML
 *   ICESHAFT_XMP   an XMP packet. Its root is rdf:RDF, or the wrapper, adobe:ns:meta/ xmpmeta, with
 *                  exactly one rdf:RDF in it; the wrapper's attributes but its namespaces mean
 *                  nothing. The elements in rdf:RDF are rdf:Description, with one resolved rdf:about.
 *                  rdf:ID, rdf:nodeID, rdf:datatype and every rdf:parseType but Resource are out.
 *                  Where the first rdf:li of an rdf:Alt carries xml:lang, every other one does.
 *                  What breaks one of these rules gets 19. The lines are those of rdf:RDF alone.
 *                  Most packets have rdf:about="" and so need a start base.
 */
enum {
    ICESHAFT_BASE = 0,
    ICESHAFT_XMP = 1
};

/* Limits, refused by 7 where they are passed; the last by 18. */
#define ICESHAFT_MOST_EVENT_BYTES 32768  /* of one event */
#define ICESHAFT_MOST_OPEN_ELEMENTS 64
#define ICESHAFT_MOST_ATTRIBUTES 64      /* on one element, xmlns included */
#define ICESHAFT_MOST_BINDINGS 128       /* namespaces declared by open elements */
#define ICESHAFT_MOST_NAME_BYTES 1024    /* of an expanded name, an IRI, a base */
#define ICESHAFT_MOST_IDS 512            /* rdf:IDs of a document */
#define ICESHAFT_MOST_ID_BYTES 32768     /* all of them together, resolved */
#define ICESHAFT_MOST_HELD_BYTES 49152   /* held for open elements behind an event */
#define ICESHAFT_MOST_LABELS 99999999    /* generated labels of a document, rdf:li of a node */

/*
 * Rules of use.
 *
 *  1. Start first, whatever the buffers hold; they need not be cleared. The same buffers serve the
 *     next document: start again, after finish or at any time.
 *  2. Hand step the input from where the last event ended, as much of it as is at hand. Behind a 0
 *     the next call begins at `input + *consumed`, and the lines are the first `*written` bytes of
 *     `out`. Bytes of `out` behind them stay as they were.
 *  3. 1 and 2 mean: call again. At 1 hand in the same rest with more input behind it, or say that
 *     no more follows; at 2 the same input with more room. Nothing has changed. With more than
 *     32,768 bytes at hand 1 is never given. How the input is cut into calls changes no line.
 *  4. With "no more" 1 is given for an empty rest alone. Then call finish. Only its 0 says that the
 *     document was whole.
 *  5. 3 changes nothing. 4 changes nothing: start anew. 5 to 19 close the document, by a mark in
 *     `state`, and change nothing else: every further step or finish gets 4. Lines of earlier
 *     events stand.
 *  6. On every answer but 0 `*consumed` and `*written` are 0, and `out`, `work` and `ids` are as
 *     they were. A refused start changes no byte at all.
 *
 * A call needs some 600 KB of stack, and 700 for a start tag with more than 64 attributes. Calls on different buffers may run at the same time.
 */

/* Bytes of the state's buffer: ICESHAFT_STATE_BYTES. */
size_t iceshaft_state_bytes(void);

/*
 * A document begins, in this mode: ICESHAFT_BASE or ICESHAFT_XMP; any other number gets 3 and
 * changes nothing. Where `based` is not 0, `base` is its start base: an absolute IRI of at most
 * 1,024 bytes. Answers 0, 3, 11 or 7.
 */
uint8_t iceshaft_start(uint8_t *state, size_t state_bytes,
                       uint8_t *work, size_t work_bytes,
                       const uint8_t *ids, size_t ids_bytes,
                       uint32_t mode,
                       uint32_t based, const uint8_t *base, size_t base_bytes);

/*
 * The first event of `input`; where `last` is not 0, no more input follows. Its lines go to the
 * front of `out`. Answers 0 to 19, and 19 in the mode ICESHAFT_XMP alone.
 */
uint8_t iceshaft_step(uint8_t *state, size_t state_bytes,
                      uint8_t *work, size_t work_bytes,
                      uint8_t *ids, size_t ids_bytes,
                      const uint8_t *input, size_t input_bytes, uint32_t last,
                      uint8_t *out, size_t out_bytes,
                      size_t *consumed, size_t *written);

/* The document is over: every element is closed, and there was a root. Answers 0, 3, 4 or 6. */
uint8_t iceshaft_finish(uint8_t *state, size_t state_bytes,
                        const uint8_t *work, size_t work_bytes,
                        const uint8_t *ids, size_t ids_bytes);

#ifdef __cplusplus
}
#endif

#endif

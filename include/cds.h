/* cds.h: the forms of `cdsreplay` as a call of a program in C, and a house that such a program steps. docs/EMBEDDING.md says how to begin,
 * docs/SCRIPT.md and docs/FORMS.md what each form reads and says, docs/LINES.md what a house reads and says.
 *
 * What is proved of a call holds if its caller does his part:
 *   1. He uses this header with the library of its number: cds_abi() == CDS_ABI.
 *   2. Each pointer is good for its length, and none is null, also if its length is 0. Nothing that is written (out, *len) overlaps
 *      anything else that is passed, and no other thread touches any of it during the call.
 *   3. malloc, realloc and free are of one allocator, which aligns as C demands.
 *   4. He does not call from a signal handler, nor in the forked child of a process with threads.
 *   5. The thread has 64 KiB of stack left.
 * A call of a form keeps nothing: many threads may call at once.
 *
 * Of a house he does this beside:
 *   6. A handle is {0} at first; from then on only these calls write it, and nobody touches what it points to. It may be moved, but a copy of
 *      one that holds a house is not used. One call at a time for each handle, on the thread that called first with it.
 *   7. He calls cds_house_kept only after the record that waits is durable, in the order of the records. He opens a house from the records of
 *      the last segment that he has kept, all of them in their order, and from no earlier one.
 *   8. No two houses of a cell have one number or one node. */
#ifndef CDS_H
#define CDS_H

#include <stddef.h>
#include <stdint.h>

#ifdef __cplusplus
extern "C" {
#endif

#define CDS_ABI 2

enum {
    CDS_OK = 0,
    CDS_USAGE = 2,       /* the words name no form; nothing was said */
    CDS_BAD_INPUT = 3,   /* the input is at fault: the text has the answers in front of the fault, and last the line of the fault if the form has one */
    CDS_NO_ROOM = 5,     /* out has no room for the text: it has the front of it; call again with *len octets */
    CDS_NO_MEMORY = 6,   /* memory ran out: the text is a front of what is due */
    CDS_JOURNAL_FULL = 7, /* of the form `journal`: a journal has no room; the text has the answers in front of that line */
    /* of a house; but for CDS_NO_RECORD and CDS_NO_MEMORY the house is as it was */
    CDS_EMPTY = 16,       /* the handle holds no house */
    CDS_HELD = 17,        /* the handle holds one already */
    CDS_NO_RECORD = 18,   /* these octets are not the next record of the house: it is spent */
    CDS_NOT_KEPT = 19,    /* a record waits: make it durable, and call cds_house_kept */
    CDS_SPENT = 20,       /* it was spent before: free it, and open it again from the records that you kept */
    CDS_BAD_LINE = 21,    /* octets that are not from 20 to 7E, or more than 4,080 of them */
    CDS_NOT_STARTED = 22, /* it reads records: call cds_house_start first */
    CDS_STARTED = 23,     /* it has started already */
    CDS_NONE_WAITS = 24   /* no record waits */
};

/* The number of these calls. It rises when a name, a parameter, a code or a duty changes. */
uint32_t cds_abi(void);

/* What a form says of an input, as `cdsreplay WORDS <INPUT` writes it: words are those of its command line with a space between them ("run",
 * "audit 3", ..). The front of that text for which out has room is put there; no octet of out behind it changes. *len is how long the whole
 * text is. The code is that of the program, except CDS_NO_ROOM. Each call does all the work again. */
uint32_t cds_run(const uint8_t *words, size_t words_len, const uint8_t *input, size_t input_len, uint8_t *out, size_t out_len, size_t *len);

/* What holds a house: {0} holds none. */
struct cds_house {
    void *state;
};

/* First one of these two, in a handle that holds none: a house that has no record yet; or the house whose last segment begins with this
 * record. Then the other records of that segment, each again, in their order. Then the start: the life of the house before ends, and the
 * record of that waits. It is the first one of a next segment. */
uint32_t cds_house_new(struct cds_house *house);
uint32_t cds_house_open(struct cds_house *house, const uint8_t *record, size_t record_len);
uint32_t cds_house_redo(struct cds_house *house, const uint8_t *record, size_t record_len);
uint32_t cds_house_start(struct cds_house *house);

/* Answers a line, which is given without its end. If that was a turn, its record waits. After CDS_NO_MEMORY the house is spent. */
uint32_t cds_house_line(struct cds_house *house, const uint8_t *line, size_t line_len);

/* Begins a next segment: its first record waits. A house is then opened from that one on. CDS_NO_MEMORY changes nothing. */
uint32_t cds_house_next_segment(struct cds_house *house);

/* Puts the record that waits into out, as much of it as fits. *len is how long all of it is; CDS_NO_ROOM: call again with so much room. */
uint32_t cds_house_record(struct cds_house *house, uint8_t *out, size_t out_len, size_t *len);

/* The record that waits is durable. */
uint32_t cds_house_kept(struct cds_house *house);

/* Puts into out, in the same way, what is said of the last line or of the start: there is none while a record waits. */
uint32_t cds_house_text(struct cds_house *house, uint8_t *out, size_t out_len, size_t *len);

/* Lets the house go: the handle is {0} then. */
uint32_t cds_house_free(struct cds_house *house);

#ifdef __cplusplus
}
#endif

#endif

/* houses: a house by the calls of the library for C: an example from its first call on, opened again, and calls out of order. Each allocation
 * is refused in turn. Ends with 0; or says what differs, and ends with 1. Link it with -pthread and -Wl,--wrap=malloc,--wrap=realloc. */
#include "cds.h"
#include <pthread.h>
#include <stdio.h>
#include <stdlib.h>
#include <string.h>

#define MOST 8

static size_t allocations, refused;
void *__real_malloc(size_t size);
void *__real_realloc(void *at, size_t size);

void *__wrap_malloc(size_t size) {
    return ++allocations == refused ? NULL : __real_malloc(size);
}

void *__wrap_realloc(void *at, size_t size) {
    return ++allocations == refused ? NULL : __real_realloc(at, size);
}

/* The records of the last segment. */
struct kept {
    size_t count, len[MOST];
    uint8_t octets[MOST][4096];
};

static void hold(int holds, const char *what, size_t which) {
    if (!holds) {
        printf("%s, at %zu\n", what, which);
        exit(1);
    }
}

static const uint8_t *octets_of(const char *text) {
    return (const uint8_t *)text;
}

/* Whether memory was refused; any other code is a fault. */
static int no_memory(uint32_t code, const char *what) {
    hold(code == CDS_OK || (code == CDS_NO_MEMORY && refused), what, code);
    return code == CDS_NO_MEMORY;
}

/* Keeps the record that waits, if there is one; only after that there is a text. */
static void keep(struct cds_house *house, struct kept *kept) {
    uint8_t out[64];
    size_t len;
    hold(kept->count < MOST, "too many records", kept->count);
    uint32_t code = cds_house_record(house, kept->octets[kept->count], 4096, &kept->len[kept->count]);
    if (code == CDS_NONE_WAITS)
        return;
    hold(code == CDS_OK, "no record", code);
    hold(cds_house_text(house, out, sizeof out, &len) == CDS_NOT_KEPT, "a text before the record is kept", len);
    hold(cds_house_line(house, octets_of("root"), 4) == CDS_NOT_KEPT, "a line while a record waits", 0);
    hold(cds_house_next_segment(house) == CDS_NOT_KEPT, "a segment while a record waits", 0);
    hold(cds_house_kept(house) == CDS_OK, "not kept", 0);
    hold(cds_house_kept(house) == CDS_NONE_WAITS, "kept twice", 0);
    kept->count++;
}

static void says(struct cds_house *house, const char *text) {
    uint8_t out[256];
    size_t len = 99;
    for (size_t room = 0; room <= strlen(text); room++) {
        memset(out, 0xAA, sizeof out);
        uint32_t wanted = room < strlen(text) ? CDS_NO_ROOM : CDS_OK;
        hold(cds_house_text(house, out, room, &len) == wanted && len == strlen(text), "another length", len);
        hold(memcmp(out, text, room) == 0 && out[room] == 0xAA, "another text", room);
    }
}

/* A line and what is said of it; whether memory was refused. */
static int line(struct cds_house *house, struct kept *kept, const char *line, const char *text) {
    if (no_memory(cds_house_line(house, octets_of(line), strlen(line)), line)) {
        hold(cds_house_line(house, octets_of(line), strlen(line)) == CDS_SPENT, "goes on without memory", 0);
        return 1;
    }
    keep(house, kept);
    says(house, text);
    return 0;
}

/* The example: 1 where memory was refused in it. */
static int example(struct cds_house *house, struct kept *kept) {
    kept->count = 0;
    if (no_memory(cds_house_new(house), "new"))
        return 1;
    hold(cds_house_new(house) == CDS_HELD && cds_house_open(house, octets_of(""), 0) == CDS_HELD, "a second house", 0);
    hold(cds_house_line(house, octets_of("root"), 4) == CDS_NOT_STARTED, "a line before the start", 0);
    if (no_memory(cds_house_start(house), "start"))
        return 1;
    keep(house, kept);
    says(house, "0 new\n");
    hold(cds_house_start(house) == CDS_STARTED, "a second start", 0);
    hold(cds_house_line(house, octets_of("ro\nt"), 4) == CDS_BAD_LINE, "a line end in a line", 0);
    return line(house, kept, "house 1 00000000000a", "1 ok\n") || line(house, kept, "root", "2 ok\n")
        || line(house, kept, "create 1 lpr", "3 ok 1@00000000000a\n") || line(house, kept, "create 1 lpr", "4 refused EntryExists\n");
}

/* The house of these records, opened again. */
static int again(struct cds_house *house, struct kept *kept) {
    if (no_memory(cds_house_open(house, kept->octets[0], kept->len[0]), "open"))
        return 1;
    for (size_t at = 1; at < kept->count; at++)
        if (no_memory(cds_house_redo(house, kept->octets[at], kept->len[at]), "redo"))
            return 1;
    if (no_memory(cds_house_start(house), "start again"))
        return 1;
    kept->count = 0;
    keep(house, kept);
    says(house, "0 house 1 00000000000a\n0 last create 1 lpr\n0 ok 1@00000000000a\n");
    uint32_t code = cds_house_next_segment(house);
    if (no_memory(code, "next segment"))
        return line(house, kept, "delete 1 lpr", "1 ok 2@00000000000a\n");
    kept->count = 0;
    keep(house, kept);
    says(house, "");
    return line(house, kept, "delete 1 lpr", "1 ok 2@00000000000a\n");
}

static void empty(struct cds_house *house) {
    uint8_t out[1];
    size_t len = 9;
    hold(house->state == NULL, "not empty", 0);
    hold(cds_house_redo(house, octets_of(""), 0) == CDS_EMPTY && cds_house_start(house) == CDS_EMPTY, "empty", 1);
    hold(cds_house_line(house, octets_of("root"), 4) == CDS_EMPTY && cds_house_next_segment(house) == CDS_EMPTY, "empty", 2);
    hold(cds_house_record(house, out, 1, &len) == CDS_EMPTY && cds_house_kept(house) == CDS_EMPTY, "empty", 3);
    hold(cds_house_text(house, out, 1, &len) == CDS_EMPTY && cds_house_free(house) == CDS_EMPTY, "empty", 4);
}

static void *all(void *unused) {
    static struct kept kept, records;
    for (refused = 0; refused == 0 || allocations >= refused; refused++) {
        struct cds_house house = {0}, moved;
        allocations = 0;
        empty(&house);
        if (!example(&house, &kept)) {
            records = kept;
            moved = house;
            hold(cds_house_free(&moved) == CDS_OK, "not freed", refused);
            empty(&moved);
            house.state = NULL;
            again(&house, &kept);
        }
        cds_house_free(&house);
        empty(&house);
    }
    refused = 0;
    struct cds_house other = {0};
    hold(cds_house_open(&other, octets_of("nonsense"), 8) == CDS_NO_RECORD && other.state == NULL, "no record", 0);
    hold(cds_house_open(&other, records.octets[0], records.len[0]) == CDS_OK, "the first record", 0);
    hold(cds_house_redo(&other, records.octets[0], records.len[0]) == CDS_NO_RECORD, "another record", 0);
    hold(cds_house_redo(&other, records.octets[1], records.len[1]) == CDS_SPENT && cds_house_start(&other) == CDS_SPENT, "spent", 0);
    hold(cds_house_free(&other) == CDS_OK && cds_house_free(&other) == CDS_EMPTY, "freed twice", 0);
    return unused;
}

int main(void) {
    pthread_t thread;
    pthread_attr_t with;
    hold(cds_abi() == CDS_ABI && sizeof(struct cds_house) == sizeof(void *), "another number", cds_abi());
    pthread_attr_init(&with);
    pthread_attr_setstacksize(&with, 1 << 16);
    if (pthread_create(&thread, &with, all, NULL) || pthread_join(thread, NULL))
        return 2;
    return 0;
}

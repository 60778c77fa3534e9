/* calls WORDS INPUT TEXT STATUS: what the library has to say of an input, and how it has to end, by these files and this number. It is called
 * with room enough, with smaller rooms, and with allocations refused in turn, with each of them if there are few. Prints how many calls there were, and ends with 0;
 * or says what differs, and ends with 1. All calls are made in a thread whose stack has the 64 KiB that cds.h asks for. Link it with -pthread
 * and -Wl,--wrap=malloc,--wrap=realloc. */
#include "cds.h"
#include <pthread.h>
#include <stdio.h>
#include <stdlib.h>
#include <string.h>

static size_t allocations, refused, calls;
void *__real_malloc(size_t size);
void *__real_realloc(void *at, size_t size);

void *__wrap_malloc(size_t size) {
    return ++allocations == refused ? NULL : __real_malloc(size);
}

void *__wrap_realloc(void *at, size_t size) {
    return ++allocations == refused ? NULL : __real_realloc(at, size);
}

static uint8_t words[4096], input[1 << 20], text[1 << 20];
static size_t words_len, input_len, text_len;
static uint32_t status;

static size_t read_all(const char *path, uint8_t *octets, size_t most) {
    FILE *file = fopen(path, "rb");
    size_t len = file == NULL ? 0 : fread(octets, 1, most, file);
    if (file == NULL || len == most)
        exit(2);
    fclose(file);
    return len;
}

static void hold(int holds, const char *what, size_t which) {
    if (!holds) {
        printf("%s, at %zu\n", what, which);
        exit(1);
    }
}

/* One call. Octets of the room behind the text, and behind the room, have to stay as they are. */
static uint32_t call(uint8_t *out, size_t room, size_t *len) {
    memset(out, 0xAA, room + 1);
    calls++;
    uint32_t code = cds_run(words, words_len, input, input_len, out, room, len);
    for (size_t at = *len < room ? *len : room; at <= room; at++)
        hold(out[at] == 0xAA, "an octet behind the text was changed", at);
    return code;
}

static void *all_calls(void *out) {
    size_t len = 0;
    hold(cds_abi() == CDS_ABI, "another number", cds_abi());
    allocations = 0;
    hold(call(out, text_len, &len) == status && len == text_len && memcmp(out, text, len) == 0, "another text or status", len);
    size_t all = allocations;
    for (size_t room = 0; room < text_len; room += 1 + text_len / 500)
        hold(call(out, room, &len) == CDS_NO_ROOM && len == text_len && memcmp(out, text, room) == 0, "another answer for want of room", room);
    for (refused = 1; refused <= all; refused += 1 + all / 300) {
        allocations = 0;
        /* a front of the text; or all of it, where the core does without that memory */
        uint32_t code = call(out, text_len, &len);
        hold(code == CDS_NO_MEMORY || (code == status && len == text_len), "another status for want of memory", refused);
        hold(len <= text_len && memcmp(out, text, len) == 0, "another text for want of memory", refused);
    }
    refused = 0;
    hold(call(out, text_len, &len) == status && len == text_len && memcmp(out, text, len) == 0, "another text at last", len);
    printf("%zu calls, %zu allocations\n", calls, all);
    return NULL;
}

int main(int argc, char **argv) {
    if (argc != 5)
        return 2;
    words_len = read_all(argv[1], words, sizeof words);
    input_len = read_all(argv[2], input, sizeof input);
    text_len = read_all(argv[3], text, sizeof text);
    status = (uint32_t)atoi(argv[4]);
    uint8_t *out = malloc(text_len + 1);
    pthread_attr_t small;
    pthread_t thread;
    if (out == NULL || pthread_attr_init(&small) || pthread_attr_setstacksize(&small, 65536) || pthread_create(&thread, &small, all_calls, out))
        return 2;
    pthread_join(thread, NULL);
    free(out);
    return 0;
}

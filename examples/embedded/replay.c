/* replay WORD.. <INPUT >TEXT: `cdsreplay` again, as a program in C over the library.
 *
 *     cc replay.c -I include lib/libcds.a -o replay */
#include "cds.h"
#include <stdio.h>
#include <stdlib.h>
#include <string.h>

/* All of standard input, or none if a read failed or there was no memory: then *status says which. */
static uint8_t *read_all(size_t *len, uint32_t *status) {
    size_t room = 65536;
    uint8_t *octets = malloc(room);
    *len = 0;
    while (octets != NULL) {
        *len += fread(octets + *len, 1, room - *len, stdin);
        if (*len < room)
            break;
        uint8_t *more = realloc(octets, room *= 2);
        if (more == NULL)
            free(octets);
        octets = more;
    }
    *status = octets == NULL ? CDS_NO_MEMORY : ferror(stdin) ? 4 : CDS_OK;
    return octets;
}

int main(int argc, char **argv) {
    char words[4096] = "";
    for (int i = 1; i < argc && strlen(words) + strlen(argv[i]) + 2 < sizeof words; i++)
        strcat(strcat(words, i > 1 ? " " : ""), argv[i]);
    size_t input_len, room = 65536, len = 0;
    uint32_t status;
    uint8_t *input = read_all(&input_len, &status), *out = malloc(room);
    if (status != CDS_OK || out == NULL)
        return status != CDS_OK ? (int)status : CDS_NO_MEMORY;
    status = cds_run((const uint8_t *)words, strlen(words), input, input_len, out, room, &len);
    if (status == CDS_NO_ROOM) {
        free(out);
        if ((out = malloc(room = len)) == NULL)
            return CDS_NO_MEMORY;
        status = cds_run((const uint8_t *)words, strlen(words), input, input_len, out, room, &len);
    }
    size_t said = len < room ? len : room;
    if (fwrite(out, 1, said, stdout) < said || fflush(stdout) != 0)
        return 5;
    free(input), free(out);
    return (int)status;
}

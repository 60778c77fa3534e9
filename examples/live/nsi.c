/* nsi in C: one command of the name service, to the door at CDS_DOOR. cc -o nsi nsi.c */
#include <stdio.h>
#include <stdlib.h>
#include <string.h>
#include <sys/socket.h>
#include <sys/un.h>

int main(int argc, char **argv) {
    const char *path = getenv("CDS_DOOR") ? getenv("CDS_DOOR") : "/run/cds/door";
    struct sockaddr_un at = {.sun_family = AF_UNIX};
    strncpy(at.sun_path, path, sizeof at.sun_path - 1);
    int door = socket(AF_UNIX, SOCK_STREAM, 0);
    if (argc < 2 || connect(door, (struct sockaddr *)&at, sizeof at)) return 2;
    for (int i = 1; i < argc; i++) dprintf(door, "%s%c", argv[i], i + 1 < argc ? ' ' : '\n');
    FILE *answer = fdopen(door, "r");
    char line[8192], word[16];
    while (fgets(line, sizeof line, answer)) {
        fputs(line, stdout);
        if (sscanf(line, "%15s", word) != 1) return 2;
        if (!strcmp(word, "ok") || !strcmp(word, "end")) return 0;
        if (!strcmp(word, "refused") || !strcmp(word, "fault")) return 1;
    }
    return 2; /* the door went away: nobody knows whether the command is done */
}

/* Answers standard input: solve.c WORD [OPTION[=NUMBER] ..], by the line and the status of a call. */
#include <stdio.h>
#include <stdlib.h>
#include <string.h>
#include "tsumego.h"

static char input[TSUMEGO_MOST_BYTES + 1];

int main(int count, char **words) {
    size_t size = fread(input, 1, sizeof input, stdin), length = 0, capacity = TSUMEGO_LINE;
    const char *word = count > 1 ? words[1] : "";
    tsumego_options options = TSUMEGO_DEFAULTS;
    uint32_t parts = 0, *at[] = {&options.budget, &options.depth, &options.total, &options.dfpn, &options.cert, &parts};
    const char *names[] = {"budget", "depth", "total", "dfpn", "cert", "parts"};
    for (int i = 2; i < count; i++)
        for (size_t k = 0; k < 6; k++)
            if (!strncmp(words[i], names[k], strlen(names[k])))
                *at[k] = strchr(words[i], '=') ? (uint32_t)strtoul(strchr(words[i], '=') + 1, NULL, 10) : 1;
    if (parts) options.cert = 2;
    char *line = malloc(capacity);
    int status = TSUMEGO_NO_ROOM;
    /* A certificate may take more room than there is: then the answer is asked for again, with room for it. */
    while (line && status == TSUMEGO_NO_ROOM) {
        if (!strcmp(word, "solve")) status = tsumego_solve(input, size, &options, line, capacity, &length);
        else if (!strcmp(word, "check")) status = tsumego_check(input, size, (int)parts, line, capacity, &length);
        else status = tsumego_score(input, size, line, capacity, &length);
        if (status == TSUMEGO_NO_ROOM) line = realloc(line, capacity = length);
    }
    if (line && status <= TSUMEGO_REFUSED) fwrite(line, 1, length, stdout);
    free(line);
    return status;
}

/* Calls the library from eight threads, with null, and with each room that is too small.

   c_library FILE..: each file is a problem; what it prints is the line of each, as `tsumego solve --cert` writes it. What lies
   behind `out` and behind the input can't be touched, and what stands at `out` has to stay where nothing is written. */
#define _DEFAULT_SOURCE
#include <pthread.h>
#include <stdio.h>
#include <stdlib.h>
#include <string.h>
#include <sys/mman.h>
#include <unistd.h>
#include "tsumego.h"

enum { THREADS = 8, MOST = 1 << 20 };

static int wrong;
static char **files;
static int count;
static const tsumego_options options = {100000, 512, 0, 0, 1};

static void see(int holds, const char *what) {
    if (!holds) {
        fprintf(stderr, "c_library: %s\n", what);
        __atomic_store_n(&wrong, 1, __ATOMIC_SEQ_CST);
    }
}

/* So many bytes, behind which nothing can be read or written. */
static char *guarded(size_t size) {
    size_t page = (size_t)sysconf(_SC_PAGESIZE), pages = (size + page - 1) / page;
    char *all = mmap(NULL, (pages + 1) * page, PROT_READ | PROT_WRITE, MAP_PRIVATE | MAP_ANONYMOUS, -1, 0);
    if (all == MAP_FAILED || mprotect(all + pages * page, page, PROT_NONE)) exit(2);
    return all + pages * page - size;
}

static char *read_file(const char *name, size_t *size) {
    static __thread char bytes[MOST];
    FILE *file = fopen(name, "rb");
    if (!file) exit(2);
    *size = fread(bytes, 1, MOST, file);
    fclose(file);
    char *at = guarded(*size);
    memcpy(at, bytes, *size);
    return at;
}

/* The line of a problem; a room that is one too small leaves what stood there. */
static char *line_of(const char *name, size_t *length) {
    size_t size, again = 0;
    char *sgf = read_file(name, &size);
    see(tsumego_solve(sgf, size, &options, NULL, 0, length) == TSUMEGO_NO_ROOM, "no room for a line");
    char *small = guarded(*length - 1), *line = guarded(*length);
    memset(small, '#', *length - 1);
    see(tsumego_solve(sgf, size, &options, small, *length - 1, &again) == TSUMEGO_NO_ROOM && again == *length, "room for all but one byte");
    for (size_t i = 0; i + 1 < *length; i++) see(small[i] == '#', "nothing is written where there is no room");
    see(tsumego_solve(sgf, size, &options, line, *length, &again) <= TSUMEGO_REFUSED && again == *length, "room for the line");
    return line;
}

static void *work(void *given) {
    int thread = (int)(size_t)given;
    for (int i = 0; i < count; i++) {
        int at = (i + thread) % count;
        size_t length = 0;
        char *line = line_of(files[at], &length);
        flockfile(stdout);
        printf("%d %s ", thread, files[at]);
        fwrite(line, 1, length, stdout);
        funlockfile(stdout);
    }
    return NULL;
}

/* Null, sizes that no memory has, and options out of range. */
static void refusals(void) {
    const char *sgf = "(;SZ[2:1]AW[ba]PL[B]TR[ba])";
    size_t size = strlen(sgf), length = 7, huge = (size_t)PTRDIFF_MAX + 1;
    char out[64] = "##";
    see(tsumego_solve(NULL, size, &options, out, 64, &length) == TSUMEGO_BAD_POINTER && !length, "a null input");
    see(tsumego_solve(sgf, size, NULL, out, 64, &length) == TSUMEGO_BAD_POINTER && !length, "null options");
    see(tsumego_solve(sgf, size, &options, NULL, 64, &length) == TSUMEGO_BAD_POINTER && !length, "a null output");
    see(tsumego_solve(sgf, size, &options, out, 64, NULL) == TSUMEGO_BAD_POINTER, "a null length");
    see(tsumego_solve(sgf, huge, &options, out, 64, &length) == TSUMEGO_BAD_POINTER && !length, "a huge input");
    see(tsumego_solve(sgf, size, &options, out, huge, &length) == TSUMEGO_BAD_POINTER && !length, "a huge output");
    see(tsumego_check(NULL, 1, 0, out, 64, &length) == TSUMEGO_BAD_POINTER && tsumego_score(sgf, size, out, 64, NULL) == TSUMEGO_BAD_POINTER, "null elsewhere");
    const tsumego_options bad[] = {{0, 512, 0, 0, 0}, {1000001, 512, 0, 0, 0}, {1, 0, 0, 0, 0}, {1, 513, 0, 0, 0}, {1, 65536 + 512, 0, 0, 0},
                                   {1, 512, 362000001, 0, 0}, {1, 512, 0, 100000001, 0}, {1, 512, 0, 0, 3}};
    for (size_t i = 0; i < sizeof bad / sizeof *bad; i++)
        see(tsumego_solve(sgf, size, &bad[i], out, 64, &length) == TSUMEGO_BAD_OPTION && !length, "an option out of range");
    see(!memcmp(out, "##", 3), "nothing is written");
    see(tsumego_score(NULL, 0, out, 64, &length) == TSUMEGO_REFUSED && length == 12 && !memcmp(out, "1 refused 1\n", 12), "no input at null");
    see(!strcmp(tsumego_version(), TSUMEGO_VERSION), "the version");
}

/* The place of a refusal of a text. */
static void place(const char *sgf, int record, int end, tsumego_refusal want) {
    tsumego_refusal found = {7, 7, 7, 7, 7};
    see(tsumego_explain(sgf, strlen(sgf), record, &found) == end, sgf);
    see(found.number == want.number && found.node == want.node && found.property == want.property && found.value == want.value && found.point == want.point, sgf);
}

/* A node, a property with a value, a point, no place, and what no caller owes. */
static void places(void) {
    const size_t none = TSUMEGO_NONE;
    tsumego_refusal found = {7, 7, 7, 7, 7};
    place("(;SZ[3];B[aa];W[bb]B[cc])", 1, TSUMEGO_REFUSED, (tsumego_refusal){14, 3, none, none, none});
    place("(;SZ[3];C[x]AB[aa]AW[bb]AW[cc][ab:cb][dd][ee])", 0, TSUMEGO_REFUSED, (tsumego_refusal){12, 2, 3, 2, none});
    place("(;SZ[3:2];B[cb];W[cb])", 1, TSUMEGO_REFUSED, (tsumego_refusal){16, 3, none, none, 5});
    place("(;SZ[3]", 1, TSUMEGO_REFUSED, (tsumego_refusal){1, none, none, none, none});
    place("(;SZ[3]AW[aa])", 1, TSUMEGO_DONE, (tsumego_refusal){0, none, none, none, none});
    see(tsumego_explain(NULL, 1, 0, &found) == TSUMEGO_BAD_POINTER && !found.number && found.node == none, "a null input to explain");
    see(tsumego_explain("", 0, 0, NULL) == TSUMEGO_BAD_POINTER, "a null refusal");
    see(tsumego_explain(NULL, 0, 0, &found) == TSUMEGO_REFUSED && found.number == 1, "no input to explain at null");
    see(strlen(tsumego_reason(20)) > 20 && tsumego_reason(20) == tsumego_reason(20), "words that stay");
    see(!*tsumego_reason(0) && !*tsumego_reason(21) && !*tsumego_reason(256 + 20) && !*tsumego_reason(UINT32_MAX), "numbers without words");
}

int main(int words, char **names) {
    pthread_t threads[THREADS];
    files = names + 1;
    count = words - 1;
    refusals();
    places();
    for (int i = 0; i < THREADS; i++)
        if (pthread_create(&threads[i], NULL, work, (void *)(size_t)i)) return 2;
    for (int i = 0; i < THREADS; i++) pthread_join(threads[i], NULL);
    return wrong;
}

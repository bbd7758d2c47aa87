/* tsumego: a solver of life-and-death problems in Go, for programs in C and whatever calls C.

   A call takes bytes of SGF and answers by a line of text, the line that the program tsumego writes on the first game
   tree of these bytes, with number 1. docs/FORMATS.md says what lines there are, docs/USING.md how a problem is marked.
   tsumego_explain says where a tree is refused, tsumego_reason says why.

   A call starts no thread, keeps nothing behind and frees all memory that it took, so there is no handle to free. Any number
   of threads may call at once. A call can't be stopped: only its options bound it. Set `total`, since with the defaults a call
   may run for many minutes. 100,000 nodes take about half a second, and a million positions of df-pn up to a minute.

   The caller owns all memory that is passed. Nothing passed may overlap what is written to, or change during the call. Memory
   comes from malloc and realloc. Where they refuse, the program isn't ended: the status says so, or in a search the line, which then
   is `1 unsettled memory`. Where they refuse it to df-pn, the search begins. Don't call from a signal handler, nor from the forked
   child of a process with threads. A call needs up to TSUMEGO_STACK bytes of stack: threads of Rust and Java have less if they
   aren't given more.

   Link with libtsumego.a; or with libtsumego.so and -Wl,-rpath,FOLDER, so that the program finds it. */
#ifndef TSUMEGO_H
#define TSUMEGO_H

#include <stddef.h>
#include <stdint.h>

#ifdef __cplusplus
extern "C" {
#endif

#define TSUMEGO_VERSION "0.1.0"

/* Bytes of input that are read at most: a longer input is refused with number 2. */
#define TSUMEGO_MOST_BYTES 1048576

/* Bytes that suffice for an answer without a certificate. */
#define TSUMEGO_LINE 128

/* Bytes of stack that suffice for a call. */
#define TSUMEGO_STACK 4194304

/* How a call ended. */
enum {
    TSUMEGO_DONE = 0,       /* the line is written */
    TSUMEGO_REFUSED = 1,    /* it is written, and says that something was refused, or that the certificate is invalid */
    TSUMEGO_NO_MEMORY = 2,  /* memory was refused; nothing is written */
    TSUMEGO_NO_ROOM = 3,    /* the line takes *length bytes, which is more than capacity; nothing is written, and a
                               further call solves anew */
    TSUMEGO_BAD_OPTION = 4, /* an option is out of its range; nothing is written */
    TSUMEGO_BAD_POINTER = 5 /* a pointer is null, or a size is above PTRDIFF_MAX; nothing is written */
};

/* How a problem is solved, as by the options of `tsumego solve`. */
typedef struct {
    /* tools/options begins */
    uint32_t budget; /* how many nodes may be expanded after each first turn: 1 to 1000000 */
    uint32_t depth;  /* how many turns deep a search may go from the problem: 1 to 512 */
    uint32_t total;  /* how many nodes may be expanded after all first turns together: 1 to 362000000; 0: none */
    uint32_t dfpn;   /* how many positions df-pn may visit before the search begins: 1 to 100000000; 0: none */
    /* tools/options ends */
    uint32_t cert;   /* 0: no certificate; 1: it follows the verdict on a line of its own; 2: the same, with shared parts. A
                        strategy of df-pn whose certificate is too long for a check isn't used, so 1 may answer `unsettled`
                        where 0 answers `killed` or `lives`, and 2 seldom does */
} tsumego_options;

/* What `tsumego solve` takes without options: tsumego_options options = TSUMEGO_DEFAULTS; */
#define TSUMEGO_DEFAULTS {100000, 512, 0, 0, 0}

/* Each function below reads `size` bytes at `sgf`, writes its line to `out` where it takes at most `capacity` bytes, says in
   *length how many it takes, and returns how it ended. A byte of 10 ends the line, and counts; no byte of 0 follows. With `cert`,
   `killed` and `lives` are two lines. Behind them `out` stays as it was. *length is 0 where the end is none of DONE, REFUSED and
   NO_ROOM. `sgf` may be null where `size` is 0, and `out` where `capacity` is 0; no other pointer may be null. */

/* Solves the problem that is the first tree. */
int tsumego_solve(const char *sgf, size_t size, const tsumego_options *options, char *out, size_t capacity, size_t *length);

/* Checks the certificate that follows the first tree, a problem: `valid`, `invalid` or `refused` with a number. So pass the bytes
   of one tree, and then the second line of an answer. Where `parts` isn't 0 the certificate may share parts; else such a one is
   refused with 30. */
int tsumego_check(const char *sgf, size_t size, int parts, char *out, size_t capacity, size_t *length);

/* Scores the record that is the first tree. */
int tsumego_score(const char *sgf, size_t size, char *out, size_t capacity, size_t *length);

/* A number that there isn't. */
#define TSUMEGO_NONE SIZE_MAX

/* What is refused, and where. Each of the last four is TSUMEGO_NONE where there is none. */
typedef struct {
    uint32_t number; /* of the refusal, as the line has it; 0: nothing is refused */
    size_t node;     /* of the main line, from 1 */
    size_t property; /* of this node, from 0: the one with a value that is no point and no colour (12) */
    size_t value;    /* of this property, from 0 */
    size_t point;    /* at fault: its row times the columns of the board and its column, both from 0 */
} tsumego_refusal;

/* Says where the first tree is refused: by tsumego_score where `record` isn't 0, else by tsumego_solve and, for its problem, by
   tsumego_check. It solves nothing, so it takes the time of a score. It returns DONE where nothing is refused, REFUSED,
   NO_MEMORY or BAD_POINTER. `sgf` may be null where `size` is 0; `refusal` may not be null. */
int tsumego_explain(const char *sgf, size_t size, int record, tsumego_refusal *refusal);

/* Why something is refused with this number, in English, behind which a byte of 0 stands; "" where no refusal has the number. The
   text stays there until the program ends: don't write to it, nor free it. */
const char *tsumego_reason(uint32_t number);

/* TSUMEGO_VERSION of the library. */
const char *tsumego_version(void);

#ifdef __cplusplus
}
#endif

#endif

/* What stands between a caller and the proved functions: null pointers and sizes that no memory has are refused here. */
#include "tsumego.h"

/* The functions of crates/tsumego_c. A slice is a pointer, which isn't null, and a length. */
uint32_t tsumego_c_solve(const char *, size_t, const tsumego_options *, char *, size_t, size_t *);
uint32_t tsumego_c_check(const char *, size_t, _Bool, char *, size_t, size_t *);
uint32_t tsumego_c_score(const char *, size_t, char *, size_t, size_t *);
uint32_t tsumego_c_explain(const char *, size_t, _Bool, tsumego_refusal *);
uint32_t tsumego_c_reason(uint8_t, char *, size_t, size_t *);

/* Whether there are so many bytes at a pointer, or none are asked for. */
static int is_slice(const char *at, size_t size) {
    return size <= PTRDIFF_MAX && (at || !size);
}

/* What an empty slice points to. */
static char nothing[1];

/* Whether the arguments are fit to be passed on. Without a line its length is 0. */
static int are_fit(const char **sgf, size_t size, char **out, size_t capacity, size_t *length) {
    if (!length) return 0;
    *length = 0;
    if (!is_slice(*sgf, size) || !is_slice(*out, capacity)) return 0;
    if (!*sgf) *sgf = nothing;
    if (!*out) *out = nothing;
    return 1;
}

int tsumego_solve(const char *sgf, size_t size, const tsumego_options *options, char *out, size_t capacity, size_t *length) {
    if (!are_fit(&sgf, size, &out, capacity, length) || !options) return TSUMEGO_BAD_POINTER;
    return (int)tsumego_c_solve(sgf, size, options, out, capacity, length);
}

int tsumego_check(const char *sgf, size_t size, int parts, char *out, size_t capacity, size_t *length) {
    if (!are_fit(&sgf, size, &out, capacity, length)) return TSUMEGO_BAD_POINTER;
    return (int)tsumego_c_check(sgf, size, parts != 0, out, capacity, length);
}

int tsumego_score(const char *sgf, size_t size, char *out, size_t capacity, size_t *length) {
    if (!are_fit(&sgf, size, &out, capacity, length)) return TSUMEGO_BAD_POINTER;
    return (int)tsumego_c_score(sgf, size, out, capacity, length);
}

int tsumego_explain(const char *sgf, size_t size, int record, tsumego_refusal *refusal) {
    if (!refusal) return TSUMEGO_BAD_POINTER;
    *refusal = (tsumego_refusal){0, TSUMEGO_NONE, TSUMEGO_NONE, TSUMEGO_NONE, TSUMEGO_NONE};
    if (!is_slice(sgf, size)) return TSUMEGO_BAD_POINTER;
    return (int)tsumego_c_explain(sgf ? sgf : nothing, size, record != 0, refusal);
}

/* The words of each refusal, with bytes of 0 behind them. */
static char reasons[UINT8_MAX + 1][256];

/* Copies them before any call, so that threads only read. */
__attribute__((constructor)) static void copy_reasons(void) {
    size_t length;
    for (size_t number = 0; number <= UINT8_MAX; number++)
        tsumego_c_reason((uint8_t)number, reasons[number], sizeof reasons[number] - 1, &length);
}

const char *tsumego_reason(uint32_t number) {
    return number <= UINT8_MAX ? reasons[number] : "";
}

const char *tsumego_version(void) {
    return TSUMEGO_VERSION;
}

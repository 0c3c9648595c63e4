/* The boundary: what the dashboard's Rust server links against.
 *
 * The crate `market_time_c` exports these, and `tools/native-staticlib market_time target/staticlib/libmarket_time.a` writes
 * the archive (x86-64).
 * A slice passes as a pointer and then a length; an empty slice may have any pointer, null too. `out` overlaps no other
 * buffer. size_t has 64 bits.
 * No entry point has a precondition: every byte, length and number is answered or refused.
 *
 * number: 0, or the refusal's number in document 01. Where it is not 0, every other result is 0 and no lent byte is
 * altered. Where it is 0, out[0..length] holds the answer and the bytes past it are as they were.
 * Instants and window edges are nanoseconds since 1970-01-01T00:00:00Z.
 */
#ifndef MARKET_TIME_H
#define MARKET_TIME_H

#include <stdbool.h>
#include <stddef.h>
#include <stdint.h>

_Static_assert(sizeof(size_t) == 8, "a length has 64 bits");

typedef struct {
    uint32_t number;
    size_t length;
} market_time_reply;

/* What a row shows at an instant. 0 stands only beside a refusal. */
enum {
    MARKET_TIME_NO_CLASS = 0,
    MARKET_TIME_TRADING = 1,
    MARKET_TIME_NOT_TRADING = 2,
    MARKET_TIME_NOT_KNOWN = 3,
    MARKET_TIME_NOT_SHOWN = 4,
};

typedef struct {
    uint32_t number;
    uint32_t shown; /* one of the five above */
} market_time_class_reply;

/* The rows that are of none of the three classes show nothing at the instant. */
typedef struct {
    uint32_t number;
    uint64_t venues;
    uint64_t trading;
    uint64_t not_trading;
    uint64_t not_known;
} market_time_count_reply;

/* Kind 16 with its 18s, or kind 19. */
market_time_reply market_time_point(const uint8_t *book, size_t book_len, int64_t at,
                                    uint8_t *out, size_t out_len);

/* Kinds 16, 17 and 18. */
market_time_reply market_time_window(const uint8_t *book, size_t book_len, int64_t start, int64_t end,
                                     uint8_t *out, size_t out_len);

/* Kinds 22 and one 23. */
market_time_reply market_time_tally(const uint8_t *book, size_t book_len, int64_t start, int64_t end,
                                    uint8_t *out, size_t out_len);

/* The row's cells between brackets: kinds 16, 17 and 18 in, columns + 2 bytes out. Columns below 12, negative ones too,
 * become 12. `now` counts only where `marked`; where it does not it is not judged. */
market_time_reply market_time_cells(const uint8_t *row, size_t row_len, int64_t start, int64_t end,
                                    int64_t columns, bool marked, int64_t now, uint8_t *out, size_t out_len);

/* The row's class at an instant. */
market_time_class_reply market_time_class(const uint8_t *row, size_t row_len, int64_t at);

/* How many rows, each behind its mark of kind 21, are of each class at an instant.
 * Off x86-64 (native code made for tests and benchmarks) the 40-byte result comes through a pointer that is the first
 * argument. */
#if defined(__x86_64__)
market_time_count_reply market_time_count(const uint8_t *rows, size_t rows_len, int64_t at);
#else
void market_time_count(market_time_count_reply *reply, const uint8_t *rows, size_t rows_len, int64_t at);
#endif

#endif

/*
 * A libFuzzer target over the frame reader and writer of the archive, compared with the
 * plain C ones: results and every byte of the lent buffer. The first byte of an
 * input chooses the function, the second the length of the lent buffer; the rest
 * is what is given.
 */
#include <stdint.h>
#include <stdlib.h>
#include <string.h>

#include "oatlantern.h"
#include "plain.h"

typedef int32_t function(const uint8_t *given, size_t given_len, uint8_t *lent, size_t lent_len);

static void compare(function *ours, function *plain, const uint8_t *given, size_t given_len, size_t lent_len)
{
    uint8_t a[256 + 2], b[256 + 2];
    /* a block of exactly the input's size, so that the instrumented code below sees a stray read */
    uint8_t *copy = given_len == 0 ? NULL : malloc(given_len);
    int32_t r;

    if (given_len != 0 && copy == NULL)
        return;
    if (given_len != 0)
        memcpy(copy, given, given_len);
    memset(a, 0xa5, sizeof a);
    memset(b, 0xa5, sizeof b);
    r = ours(copy, given_len, lent_len == 0 ? NULL : a + 1, lent_len);
    if (r != plain(given, given_len, b + 1, lent_len))
        abort();
    if (memcmp(a, b, sizeof a) != 0)
        abort();
    if (given_len != 0 && memcmp(copy, given, given_len) != 0)
        abort();
    if (r < 0)
        for (size_t i = 0; i < sizeof a; i++)
            if (a[i] != 0xa5)
                abort();
    free(copy);
}

int LLVMFuzzerTestOneInput(const uint8_t *data, size_t size)
{
    if (size < 2)
        return 0;
    uint8_t which = data[0];
    size_t lent = data[1];
    data += 2;
    size -= 2;
    /* mostly the right lengths */
    if (which & 2)
        lent = which & 1 ? OATLANTERN_FRAME_BYTES : OATLANTERN_RECORD_BYTES;
    if (which & 1)
        compare(oatlantern_write_frame, plain_write_frame, data, size, lent);
    else
        compare(oatlantern_read_frame, plain_read_frame, data, size, lent);

    /* a frame is also read and written back by both */
    if (size == OATLANTERN_FRAME_BYTES) {
        uint8_t record[OATLANTERN_RECORD_BYTES];
        if (oatlantern_read_frame(data, size, record, sizeof record) < 0)
            abort();
        compare(oatlantern_write_frame, plain_write_frame, record, sizeof record, OATLANTERN_FRAME_BYTES);
    }
    return 0;
}

/* Wrong libraries, to see that the driver notices: the calls of copybook.h over the right ones (right_ before each
   name), with one fault, WRONG. */
#include <stddef.h>
#include <stdint.h>

typedef uint32_t written(const uint8_t *, size_t, uint32_t *, size_t, uint8_t *, size_t, uint64_t *, size_t);
written right_copybook_layout, right_copybook_details;
uint32_t right_copybook_picture(const uint8_t *, size_t, uint8_t, uint8_t, uint64_t *, size_t);
uint32_t right_copybook_mask(const uint8_t *, size_t, uint8_t, uint8_t *, size_t, uint64_t *, size_t);
uint32_t right_copybook_owner(const uint8_t *, size_t, uint64_t, uint32_t *, size_t, uint64_t *, size_t);
uint32_t right_copybook_check_record(uint64_t, uint8_t, uint64_t);

uint32_t copybook_layout(const uint8_t *text, size_t n, uint32_t *work, size_t w, uint8_t *out, size_t m,
                         uint64_t *answer, size_t k)
{
    uint64_t a[2];
    uint32_t r = right_copybook_layout(text, n, work, w, out, m, a, 2);
    if (WRONG == 1 && r == 0 && a[0] > 90)
        out[60] ^= 1; /* a byte of the second entry */
    if (WRONG == 2 && w > 0)
        work[w - 1] = 1; /* work memory not zero */
    if (WRONG == 3 && r != 0 && m > 0)
        out[m - 1] ^= 1; /* the output of a refusal touched */
    if (WRONG == 4 && r == 31)
        a[1] += 1; /* 31 with an invented length */
    if (WRONG == 5 && r == 28)
        a[0] += 1; /* a position that is off */
    if (WRONG == 6 && r == 21)
        r = 25; /* another refusal */
    if (WRONG == 7 && r == 0 && m > a[0])
        out[a[0]] = 0; /* a byte past the listing */
    if (WRONG == 8 && r == 0)
        out[1] = 0, out[2] = 0; /* record length 0 */
    if (WRONG == 9 && k == 1)
        answer[0] = a[0]; /* an answer that is too short written to */
    if (WRONG == 10 && r == 0 && a[0] > 47 && out[10] == 3)
        out[19] += 1; /* a binary item's offset */
    if (WRONG == 11 && r == 29)
        r = 0, a[0] = 0; /* 29 accepted */
    if (k >= 2)
        answer[0] = a[0], answer[1] = a[1];
    return r;
}

/* The place of something in the last of the rows of details. */
static uint8_t *last_row(uint8_t *out, uint64_t n, int place)
{
    return out + n - 47 + place;
}

uint32_t copybook_details(const uint8_t *text, size_t n, uint32_t *work, size_t w, uint8_t *out, size_t m,
                          uint64_t *answer, size_t k)
{
    uint64_t a[2];
    uint32_t r = right_copybook_details(text, n, work, w, out, m, a, 2);
    int some = r == 0 && a[0] > 0;
    if (WRONG == 19 && some)
        *last_row(out, a[0], 0) += 1; /* a position */
    if (WRONG == 20 && some && *last_row(out, a[0], 5) > 0)
        *last_row(out, a[0], 11) = 0; /* a place in the record that is the one in the group */
    if (WRONG == 21 && some)
        *last_row(out, a[0], 19) = 0; /* no slack */
    if (WRONG == 22 && some)
        *last_row(out, a[0], 31) = 0, *last_row(out, a[0], 35) = 0; /* no REDEFINES */
    if (WRONG == 23 && some)
        out[6] = 0; /* no group made by folding */
    if (WRONG == 24 && some)
        out[7] = 0; /* no entries below */
    if (k >= 2)
        answer[0] = a[0], answer[1] = a[1];
    return r;
}

uint32_t copybook_picture(const uint8_t *pic, size_t n, uint8_t usage, uint8_t sign, uint64_t *answer, size_t k)
{
    if (WRONG == 12 && sign == 3)
        sign = 4; /* leading taken for trailing */
    if (WRONG == 13 && usage == 3)
        usage = 2; /* a usage that is none */
    uint32_t r = right_copybook_picture(pic, n, usage, sign, answer, k);
    if (WRONG == 14 && r == 26)
        r = 25; /* mixed taken for no symbol */
    return r;
}

uint32_t copybook_mask(const uint8_t *pic, size_t n, uint8_t usage, uint8_t *out, size_t m, uint64_t *answer,
                       size_t k)
{
    uint32_t r = right_copybook_mask(pic, n, usage, out, m, answer, k);
    if (WRONG == 15 && r == 0 && m > 0 && out[0] == '*')
        out[0] = 'Z'; /* a wrong symbol */
    return r;
}

uint32_t copybook_owner(const uint8_t *text, size_t n, uint64_t position, uint32_t *work, size_t w, uint64_t *answer,
                        size_t k)
{
    uint32_t r = right_copybook_owner(text, n, position, work, w, answer, k);
    if (WRONG == 17 && r == 0 && k >= 4)
        answer[2] += answer[3], answer[3] = 0; /* every byte a piece of its own */
    if (WRONG == 18 && r == 0 && k >= 4 && answer[0] == 1)
        answer[0] = 0; /* no slack */
    return r;
}

uint32_t copybook_check_record(uint64_t record_len, uint8_t variable, uint64_t len)
{
    if (WRONG == 16 && variable == 0 && len == record_len)
        return 42; /* a record of just the length refused */
    return right_copybook_check_record(record_len, variable, len);
}

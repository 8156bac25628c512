/* Calls in numbers through the header, on the sheet of Joint A (document 01): a start, by which node 0 is scheduled;
 * what is returned for wrong numbers and lengths; and arrays beside memory that may not be touched. C11 and C++. */
#include "checks.h"

static uint64_t untouched[KUXHOVEZA_ANSWER];

static uint32_t transition(size_t length)
{
    return kuxhoveza_transition(sheet, KUXHOVEZA_SHEET, call, KUXHOVEZA_CALL, record, KUXHOVEZA_RECORD, answer, length);
}

static void numbers(void)
{
    memset(answer, 0xff, sizeof answer);
    is("a short buffer", transition(KUXHOVEZA_ANSWER - 1), KUXHOVEZA_SHORT_BUFFER);
    call[KUXHOVEZA_CALL_HAS_RECORD] = 2;
    is("a mark of 2", transition(KUXHOVEZA_ANSWER), KUXHOVEZA_BAD_CALL);
    call[KUXHOVEZA_CALL_HAS_RECORD] = 1;
    record[KUXHOVEZA_RECORD_VISITS] = UINT64_C(1) << 32;
    is("a visit count of 2^32", transition(KUXHOVEZA_ANSWER), KUXHOVEZA_BAD_RECORD);
    record[KUXHOVEZA_RECORD_VISITS] = 0;
    record[KUXHOVEZA_RECORD_POSITION_NODE] = 256;
    is("a position at node 256", transition(KUXHOVEZA_ANSWER), KUXHOVEZA_BAD_RECORD);
    call[KUXHOVEZA_CALL_ERROR_CODE] = 65536;
    is("a code of 65536 in a start", transition(KUXHOVEZA_ANSWER), KUXHOVEZA_BAD_CALL);
    call[KUXHOVEZA_CALL_ERROR_CODE] = 65535;
    is("the untouched buffer", memcmp(answer, untouched, sizeof answer) == 0, 1);
    call[KUXHOVEZA_CALL_HAS_RECORD] = 0;
}

/* The answer to the start. */
static void scheduled(const uint64_t *numbers)
{
    is("the kind", numbers[KUXHOVEZA_ANSWER_KIND], KUXHOVEZA_NEXT);
    is("the microsteps", numbers[KUXHOVEZA_ANSWER_MICROSTEPS], 1);
    is("the order", numbers[KUXHOVEZA_ANSWER_ORDER], 1);
    is("the order's node", numbers[KUXHOVEZA_ANSWER_ORDER_NODE], 0);
    is("the order's visit", numbers[KUXHOVEZA_ANSWER_ORDER_VISIT], 1);
    is("the order's attempt", numbers[KUXHOVEZA_ANSWER_ORDER_ATTEMPT], 1);
    is("the order's input", numbers[KUXHOVEZA_ANSWER_ORDER_INPUT], 501);
    is("the record's input", numbers[KUXHOVEZA_ANSWER_RECORD + KUXHOVEZA_RECORD_INPUT], 42);
    is("the record's phase", numbers[KUXHOVEZA_ANSWER_RECORD + KUXHOVEZA_RECORD_PHASE], 1);
}

static void verdicts(void)
{
    uint32_t verdict[KUXHOVEZA_VERDICT + 1] = {7, 7, 7};
    is("a short verdict", kuxhoveza_verdict(sheet, KUXHOVEZA_SHEET, 64, 64, 64, 64, verdict, KUXHOVEZA_VERDICT - 1),
       KUXHOVEZA_SHORT_BUFFER);
    is("the untouched verdict", verdict[KUXHOVEZA_VERDICT_NUMBER], 7);
    is("a verdict", kuxhoveza_verdict(sheet, KUXHOVEZA_SHEET, 64, 64, 64, 64, verdict, KUXHOVEZA_VERDICT + 1),
       KUXHOVEZA_WRITTEN);
    is("the verdict's number", verdict[KUXHOVEZA_VERDICT_NUMBER], 0);
    is("the verdict's item", verdict[KUXHOVEZA_VERDICT_ITEM], 0);
    sheet[KUXHOVEZA_SHEET_LIMIT_LIMIT] = 3;
    is("a verdict at limit 3", kuxhoveza_verdict(sheet, KUXHOVEZA_SHEET, 64, 64, 64, 64, verdict, KUXHOVEZA_VERDICT),
       KUXHOVEZA_WRITTEN);
    sheet[KUXHOVEZA_SHEET_LIMIT_LIMIT] = 1;
    is("the number at limit 3", verdict[KUXHOVEZA_VERDICT_NUMBER], 12);
    is("the item at limit 3", verdict[KUXHOVEZA_VERDICT_ITEM], 1);
    is("behind the verdict", verdict[KUXHOVEZA_VERDICT], 7);
}

static uint64_t due(size_t sheets, size_t calls, size_t records, size_t answers)
{
    if (sheets != KUXHOVEZA_SHEET)
        return KUXHOVEZA_BAD_SHEET_LENGTH;
    if (calls != KUXHOVEZA_CALL)
        return KUXHOVEZA_BAD_CALL_LENGTH;
    if (records != KUXHOVEZA_RECORD)
        return KUXHOVEZA_BAD_RECORD_LENGTH;
    return answers < KUXHOVEZA_ANSWER ? KUXHOVEZA_SHORT_BUFFER : KUXHOVEZA_WRITTEN;
}

/* Every array with every length, each ending where memory does: what is due comes back, and there is no read behind an
 * end. Where a length is wrong the arrays are lent once more with no number that may be read: none is. */
static void fenced(void)
{
    struct fenced open[4] = {fence(1), fence(1), fence(1), fence(1)};
    struct fenced shut[4] = {fence(0), fence(0), fence(0), fence(0)};
    for (size_t all = 0; all < TRIED * TRIED * TRIED * TRIED; all++) {
        size_t sheets = tried(all % TRIED, KUXHOVEZA_SHEET);
        size_t calls = tried(all / TRIED % TRIED, KUXHOVEZA_CALL);
        size_t records = tried(all / TRIED / TRIED % TRIED, KUXHOVEZA_RECORD);
        size_t answers = tried(all / TRIED / TRIED / TRIED, KUXHOVEZA_ANSWER);
        uint64_t expected = due(sheets, calls, records, answers);
        for (int pass = 0; pass < (expected == KUXHOVEZA_WRITTEN ? 1 : 2); pass++) {
            struct fenced *in = pass == 0 ? open : shut;
            uint32_t *s = numbers_32(in[0], sheet, KUXHOVEZA_SHEET, sheets);
            uint64_t *c = numbers_64(in[1], call, KUXHOVEZA_CALL, calls);
            uint64_t *r = numbers_64(in[2], record, KUXHOVEZA_RECORD, records);
            uint64_t *a = numbers_64(in[3], untouched, KUXHOVEZA_ANSWER, answers);
            is("a fenced call", kuxhoveza_transition(s, sheets, c, calls, r, records, a, answers), expected);
            if (expected == KUXHOVEZA_WRITTEN)
                scheduled(a);
            else if (pass == 0)
                is("the fenced buffer",
                   memcmp(a, untouched, (answers < KUXHOVEZA_ANSWER ? answers : KUXHOVEZA_ANSWER) * sizeof *a) == 0, 1);
        }
    }
    for (size_t i = 0; i < TRIED; i++) {
        size_t sheets = tried(i, KUXHOVEZA_SHEET);
        for (size_t length = 0; length <= KUXHOVEZA_VERDICT + 1; length++) {
            uint64_t expected = length < KUXHOVEZA_VERDICT ? KUXHOVEZA_SHORT_BUFFER : KUXHOVEZA_WRITTEN;
            if (sheets != KUXHOVEZA_SHEET)
                expected = KUXHOVEZA_BAD_SHEET_LENGTH;
            for (int pass = 0; pass < (expected == KUXHOVEZA_WRITTEN ? 1 : 2); pass++) {
                struct fenced *in = pass == 0 ? open : shut;
                uint32_t *s = numbers_32(in[0], sheet, KUXHOVEZA_SHEET, sheets);
                uint32_t *v = numbers_32(in[1], sheet, 0, length);
                is("a fenced verdict", kuxhoveza_verdict(s, sheets, 64, 64, 64, 64, v, length), expected);
            }
        }
    }
}

int main(void)
{
    is("the layout's version", kuxhoveza_layout_version(), KUXHOVEZA_LAYOUT_VERSION);
    joint_a();
    call_with(1, 1);
    call[KUXHOVEZA_CALL_INPUT] = 42;
    memset(untouched, 0xff, sizeof untouched);
    numbers();
    is("a start", transition(KUXHOVEZA_ANSWER), KUXHOVEZA_WRITTEN);
    scheduled(answer);
    verdicts();
    fenced();
    return failures != 0;
}

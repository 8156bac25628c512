/* Joint A (document 01) for the header's tests: its sheet, and a call with one value within its limits. */
#include "kuxhoveza.h"

#include <string.h>

static uint32_t sheet[KUXHOVEZA_SHEET];
static uint64_t call[KUXHOVEZA_CALL], record[KUXHOVEZA_RECORD], answer[KUXHOVEZA_ANSWER];

static void route(uint32_t row, uint32_t node, uint32_t outcome, uint32_t target)
{
    sheet[KUXHOVEZA_SHEET_ROUTE_NODE + row] = node;
    sheet[KUXHOVEZA_SHEET_ROUTE_OUTCOME + row] = outcome;
    sheet[KUXHOVEZA_SHEET_ROUTE_TARGET + row] = target;
}

static void joint_a(void)
{
    sheet[KUXHOVEZA_SHEET_FORMAT] = 2;
    sheet[KUXHOVEZA_SHEET_MAX_VISITS_PER_NODE] = 3;
    sheet[KUXHOVEZA_SHEET_MAX_ACTIVATIONS] = 10;
    sheet[KUXHOVEZA_SHEET_NODE_COUNT] = 4;
    for (uint32_t node = 0; node < 4; node++)
        sheet[KUXHOVEZA_SHEET_NODE_KIND + node] = node + 1;
    sheet[KUXHOVEZA_SHEET_NODE_SIGNAL + 1] = 5;
    sheet[KUXHOVEZA_SHEET_NODE_HAS_LIMITS + 1] = 1;
    sheet[KUXHOVEZA_SHEET_ROUTE_COUNT] = 4;
    route(0, 0, 0, 1);
    route(1, 1, 1, 2);
    route(2, 1, 3, 3);
    route(3, 1, 4, 0);
    sheet[KUXHOVEZA_SHEET_LIMIT_COUNT] = 1;
    sheet[KUXHOVEZA_SHEET_LIMIT_NODE] = 1;
    sheet[KUXHOVEZA_SHEET_LIMIT_OUTCOME] = 4;
    sheet[KUXHOVEZA_SHEET_LIMIT_LIMIT] = 1;
    sheet[KUXHOVEZA_SHEET_ACTION_COUNT] = 1;
    sheet[KUXHOVEZA_SHEET_ACTION_EFFECT] = 1;
    sheet[KUXHOVEZA_SHEET_ACTION_MAX_ATTEMPTS] = 2;
    sheet[KUXHOVEZA_SHEET_DECLARED_COUNT] = 1;
}

static void call_with(uint64_t sequence, uint64_t kind)
{
    memset(call, 0, sizeof call);
    for (size_t ceiling = 0; ceiling < 4; ceiling++)
        call[KUXHOVEZA_CALL_CEILING_NODES + ceiling] = 64;
    call[KUXHOVEZA_CALL_LIMIT_MICROSTEPS] = 130;
    call[KUXHOVEZA_CALL_LIMIT_COMMANDS] = 10;
    call[KUXHOVEZA_CALL_LIMIT_OPERATIONS] = 10;
    call[KUXHOVEZA_CALL_HAS_RECORD] = sequence > 1;
    call[KUXHOVEZA_CALL_SEQUENCE] = sequence;
    call[KUXHOVEZA_CALL_KIND] = kind;
    call[KUXHOVEZA_CALL_OUTCOME] = KUXHOVEZA_NONE;
    call[KUXHOVEZA_CALL_ANSWERED] = 1;
    call[KUXHOVEZA_CALL_MAPPINGS] = 1;
    call[KUXHOVEZA_CALL_MAPPINGS + 1] = 501;
}

/* The stack of a call: it runs on a painted stack, and the deepest changed byte counts. */
#include "../include/joint_a.h"

#include <pthread.h>
#include <stdio.h>
#include <stdlib.h>

#define SIZE (1 << 20)
#define PAINT 0xA5

static void *nothing(void *unused)
{
    return unused;
}

static void *transition(void *unused)
{
    kuxhoveza_transition(sheet, KUXHOVEZA_SHEET, call, KUXHOVEZA_CALL, record, KUXHOVEZA_RECORD, answer,
                         KUXHOVEZA_ANSWER);
    return unused;
}

static size_t depth(void *(*run)(void *))
{
    unsigned char *stack = aligned_alloc(4096, SIZE);
    pthread_attr_t attributes;
    pthread_t thread;
    size_t i = 0;
    memset(stack, PAINT, SIZE);
    pthread_attr_init(&attributes);
    pthread_attr_setstack(&attributes, stack, SIZE);
    if (pthread_create(&thread, &attributes, run, NULL) != 0)
        exit(1);
    pthread_join(thread, NULL);
    while (i < SIZE && stack[i] == PAINT)
        i++;
    free(stack);
    return SIZE - i;
}

/* The bytes that the call takes beyond those of a thread that does nothing. The record of an accepted call is kept. */
static void show(const char *what)
{
    size_t taken = depth(transition) - depth(nothing);
    printf("%s: %zu bytes\n", what, taken);
    if (answer[KUXHOVEZA_ANSWER_KIND] == KUXHOVEZA_NEXT)
        memcpy(record, answer + KUXHOVEZA_ANSWER_RECORD, sizeof record);
}

int main(void)
{
    joint_a();
    call_with(1, 1);
    show("start");
    call_with(2, 3);
    call[KUXHOVEZA_CALL_VISIT] = call[KUXHOVEZA_CALL_ATTEMPT] = call[KUXHOVEZA_CALL_STATUS] = 1;
    show("success");
    call_with(3, 2);
    call[KUXHOVEZA_CALL_SIGNAL] = 5;
    call[KUXHOVEZA_CALL_OUTCOME] = 4;
    show("verdict: shoot again");
    call_with(9, 5);
    show("refused with 22");
    return 0;
}

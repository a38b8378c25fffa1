/* Prints how many bytes of stack one call uses: the day and its first block come on standard input. */
#define _DEFAULT_SOURCE
#include <flehwella.h>

#include <stdio.h>
#include <string.h>
#include <ucontext.h>

enum { STACK = 65536, FILLER = 0xA5 };

static uint8_t bytes[FLEHWELLA_DAY_LENGTH + FLEHWELLA_BLOCK_MAX], room[FLEHWELLA_RESULT_MAX], stack[STACK];
static size_t length;
static int32_t reply;
static ucontext_t here, there;

static void nothing(void)
{
}

static void call(void)
{
    reply = flehwella_check(bytes, FLEHWELLA_DAY_LENGTH, bytes + FLEHWELLA_DAY_LENGTH, length - FLEHWELLA_DAY_LENGTH, room,
                            sizeof room);
}

/* The bytes that a function changes of a stack of its own. */
static long used_by(void (*function)(void))
{
    memset(stack, FILLER, sizeof stack);
    getcontext(&there);
    there.uc_stack.ss_sp = stack;
    there.uc_stack.ss_size = sizeof stack;
    there.uc_link = &here;
    makecontext(&there, function, 0);
    swapcontext(&here, &there);
    long untouched = 0;
    while (untouched < STACK && stack[untouched] == FILLER)
        untouched++;
    return STACK - untouched;
}

int main(void)
{
    length = fread(bytes, 1, sizeof bytes, stdin);
    if (length <= FLEHWELLA_DAY_LENGTH)
        return 2;
    const long bare = used_by(nothing);
    printf("%ld\n", used_by(call) - bare);
    return reply > 0 ? 0 : 1;
}

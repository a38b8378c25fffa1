/* A client of the C call: reads a day record and a block, each from its own file, and prints the result in the day list's
 * words, or the refusal.
 *
 *   desk DAY BLOCK
 *
 * It exits with 0 where the block is accepted, 1 where it is refused and 2 where it could not run. DAY may be a whole day's
 * file: bytes after the day record are not read. Compiles as C11 and as C++. */
#include <flehwella.h>

#include <stdio.h>

static const char *sentence(int32_t number)
{
    switch (number) {
    /* tests/refusals */
    case FLEHWELLA_CUT_SHORT: return "the record is cut short";
    case FLEHWELLA_KIND: return "a record of a kind that may not come there";
    case FLEHWELLA_QUARTERS: return "quarters of the day other than 92, 96 or 100";
    case FLEHWELLA_QUARTER: return "a quarter that the day does not have";
    case FLEHWELLA_UNIT_COUNT: return "no unit, or more than 64";
    case FLEHWELLA_UNIT_NUMBER: return "unit numbers that do not rise";
    case FLEHWELLA_FLAG: return "class, coincide or nominated other than 0 or 1, or N not 0 though not nominated";
    case FLEHWELLA_RANGE: return "a quantity outside -1,000,000 to 1,000,000 kWh";
    case FLEHWELLA_CROSSED: return "the step-down margin lies above the step-up margin, or an interval's lower end above its upper";
    case FLEHWELLA_POSITION_AGE: return "positions older than the limit";
    case FLEHWELLA_MARGIN_AGE: return "margins older than the limit";
    case FLEHWELLA_ROOM: return "the room lent is too small";
    case FLEHWELLA_POSITION_AHEAD: return "positions made after the run";
    case FLEHWELLA_MARGIN_AHEAD: return "margins made after the run";
    case FLEHWELLA_WORKING_CROSSED: return "the interval leaves no room between the margins";
    /* */
    default: return "a refusal that this call does not give";
    }
}

/* The day is judged first, so a block of no bytes is what is refused exactly where the day is not. */
static int is_of_the_day(const uint8_t *day, size_t day_length)
{
    uint8_t room[1];
    return day_length < FLEHWELLA_DAY_LENGTH || flehwella_check(day, day_length, day, 0, room, 0) != -FLEHWELLA_CUT_SHORT;
}

static uint32_t number_at(const uint8_t *at, int bytes)
{
    uint32_t number = 0;
    for (int i = 0; i < bytes; i++)
        number = number << 8 | at[i];
    return number;
}

/* Whether a refusal speaks of one unit. */
static int is_of_a_unit(int32_t number)
{
    switch (number) {
    /* tests/refusals */
    case FLEHWELLA_UNIT_NUMBER: return 1;
    case FLEHWELLA_FLAG: return 1;
    case FLEHWELLA_RANGE: return 1;
    case FLEHWELLA_CROSSED: return 1;
    case FLEHWELLA_MARGIN_AGE: return 1;
    case FLEHWELLA_MARGIN_AHEAD: return 1;
    case FLEHWELLA_WORKING_CROSSED: return 1;
    /* */
    default: return 0;
    }
}

/* The length of a unit record by its kind. */
static size_t unit_length(const uint8_t *unit)
{
    return unit[0] == 0x04 ? FLEHWELLA_INTERVAL_UNIT_LENGTH : FLEHWELLA_UNIT_LENGTH;
}

/* The number of the unit that a refusal of the block speaks of, or -1: the last of the shortest beginning of the block which is
 * refused alike. It leaves the block with another unit count. */
static long unit_of(const uint8_t *day, uint8_t *block, int32_t reply)
{
    uint8_t room[FLEHWELLA_RESULT_MAX];
    const int units = block[5];
    if (!is_of_a_unit(-reply))
        return -1;
    size_t last = FLEHWELLA_GROUP_LENGTH;
    for (block[5] = 1; block[5] < units; block[5]++) {
        const size_t length = last + unit_length(block + last);
        if (flehwella_check(day, FLEHWELLA_DAY_LENGTH, block, length, room, sizeof room) == reply)
            break;
        last = length;
    }
    return (long)number_at(block + last + 1, 2);
}

/* Two's complement, with no step that C leaves to the compiler. */
static int32_t signed_at(const uint8_t *at)
{
    const uint32_t bits = number_at(at, 4);
    return bits <= INT32_MAX ? (int32_t)bits : -1 - (int32_t)(UINT32_MAX - bits);
}

static void print_refusal(const uint8_t *day, size_t day_length, uint8_t *block, int32_t reply)
{
    printf("REFUSED %ld of the ", (long)-reply);
    if (is_of_the_day(day, day_length)) {
        printf("day");
    } else {
        const long unit = unit_of(day, block, reply);
        printf("block");
        if (unit >= 0)
            printf(", unit %ld", unit);
    }
    printf(": %s\n", sentence(-reply));
}

static void print_fields(const uint8_t *at, int count)
{
    for (int i = 0; i < count; i++)
        printf(" %ld", (long)signed_at(at + 4 * i));
    printf("\n");
}

static void print_result(const uint8_t *result)
{
    const int units = result[6];
    printf("GROUP %lu %d %d %d %d", (unsigned long)number_at(result + 1, 2), result[3], result[4], result[5], units);
    print_fields(result + 7, 5);
    const uint8_t *unit = result + FLEHWELLA_GROUP_RESULT_LENGTH;
    for (int i = 0; i < units; i++, unit += FLEHWELLA_UNIT_RESULT_LENGTH) {
        printf("UNIT %lu %d", (unsigned long)number_at(unit + 1, 2), unit[3]);
        print_fields(unit + 4, 4);
    }
}

/* Reads as much of a file as there is room for; false where it could not be read. */
static int read_file(const char *name, uint8_t *room, size_t room_length, size_t *length)
{
    FILE *file = fopen(name, "rb");
    if (file == NULL) {
        perror(name);
        return 0;
    }
    *length = fread(room, 1, room_length, file);
    const int sound = !ferror(file);
    if (!sound)
        perror(name);
    fclose(file);
    return sound;
}

int main(int words, char **word)
{
    if (words != 3) {
        fprintf(stderr, "usage: desk DAY BLOCK\n");
        return 2;
    }
    uint8_t day[FLEHWELLA_DAY_LENGTH], block[FLEHWELLA_BLOCK_MAX], room[FLEHWELLA_RESULT_MAX];
    size_t day_length, block_length;
    if (!read_file(word[1], day, sizeof day, &day_length) || !read_file(word[2], block, sizeof block, &block_length))
        return 2;
    const int32_t reply = flehwella_check(day, day_length, block, block_length, room, sizeof room);
    if (reply < 0)
        print_refusal(day, day_length, block, reply);
    else
        print_result(room);
    if (fflush(stdout) != 0) {
        perror("desk");
        return 2;
    }
    return reply < 0 ? 1 : 0;
}

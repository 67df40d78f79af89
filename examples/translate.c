/* Lowers each kernel file named on the command line to every level, writes its pages and runs it on every machine:
 * prints instruction counts, the number of pages, then how a fixed schedule ends, or the refusal. */
#include "../include/lanes.h"

#include <stdio.h>

enum { ROUNDS = 16, MOST_LANES = 4, REGISTERS = 8, LINE = 33 };

typedef uint64_t lowering(const uint8_t *, size_t, uint8_t *, size_t);
typedef uint64_t running(const uint8_t *, size_t, const uint8_t *, size_t, uint8_t *, size_t);

static unsigned word_at(const uint8_t *bytes)
{
    return bytes[0] + 256u * bytes[1];
}

static unsigned long quad_at(const uint8_t *bytes)
{
    return word_at(bytes) + 65536ul * word_at(bytes + 2);
}

static int refused(uint64_t answer)
{
    if (LANES_NUMBER(answer) != 0)
        printf("refused %u record %u\n", (unsigned)LANES_NUMBER(answer), (unsigned)LANES_RECORD(answer));
    return LANES_NUMBER(answer) != 0;
}

static void lower(lowering *call, const uint8_t *kernel, size_t length)
{
    uint8_t sheet[LANES_SHEET1_MAX];
    uint64_t answer = call(kernel, length, sheet, sizeof sheet);
    if (refused(answer))
        return;
    printf("level %u, %u bytes, instructions", (unsigned)sheet[3], (unsigned)answer);
    for (int lane = 0; lane < sheet[0]; lane++)
        printf(" %u", word_at(sheet + 8 + 2 * lane));
    printf("\n");
}

/* A page begins with the one line that has a letter in its first column. */
static void write_pages(const uint8_t *kernel, size_t length)
{
    uint8_t page[LANES_PAGE_MAX];
    uint64_t answer = lanes_page(kernel, length, page, sizeof page);
    unsigned pages = 0;
    if (refused(answer))
        return;
    for (size_t at = 0; at < answer; at += LINE)
        pages += page[at] == 'p';
    printf("page: %u bytes, %u pages\n", (unsigned)answer, pages);
}

/* In each round every lane carries out an instruction, then commits its oldest entry; what cannot be done waits. */
static size_t fill_schedule(uint8_t *moves, int lanes)
{
    size_t length = 0;
    for (int round = 0; round < ROUNDS; round++)
        for (int lane = 0; lane < lanes; lane++)
            for (int choice = 0; choice < 2; choice++) {
                moves[length++] = (uint8_t)lane;
                moves[length++] = (uint8_t)choice;
            }
    return length;
}

static void print_state(const char *machine, const uint8_t *kernel, const uint8_t *state)
{
    printf("%s: done %lu waited %lu, %s, memory", machine, quad_at(state + 8), quad_at(state + 16),
           state[0] ? "finished" : "not finished");
    for (int location = 0; location < kernel[1]; location++)
        printf(" %lu", quad_at(state + 24 + 4 * location));
    for (int lane = 0; lane < kernel[0]; lane++) {
        printf(", lane %d registers", lane);
        for (int i = 0; i < REGISTERS; i++)
            printf(" %lu", quad_at(state + 88 + 548 * lane + 4 + 4 * i));
    }
    printf("\n");
}

static void run(const char *machine, running *call, const uint8_t *kernel, size_t length)
{
    uint8_t moves[ROUNDS * MOST_LANES * 4];
    uint8_t state[LANES_STATE_SIZE];
    int lanes = length > 0 && kernel[0] <= MOST_LANES ? kernel[0] : 0;
    uint64_t answer = call(kernel, length, moves, fill_schedule(moves, lanes), state, sizeof state);
    if (!refused(answer))
        print_state(machine, kernel, state);
}

int main(int argc, char **argv)
{
    for (int i = 1; i < argc; i++) {
        uint8_t kernel[3089];
        FILE *file = fopen(argv[i], "rb");
        if (file == NULL) {
            perror(argv[i]);
            return 1;
        }
        size_t length = fread(kernel, 1, sizeof kernel, file);
        fclose(file);
        printf("%s\n", argv[i]);
        lower(lanes_lower1, kernel, length);
        lower(lanes_lower2, kernel, length);
        lower(lanes_lower3, kernel, length);
        write_pages(kernel, length);
        run("source", lanes_run_source, kernel, length);
        run("tso", lanes_run_tso, kernel, length);
        run("pso", lanes_run_pso, kernel, length);
    }
    return 0;
}

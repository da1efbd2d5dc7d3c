/* Calls every function of include/st62.h through the static library, with answers known from the papers. Prints
 * `smoke: N calls` and exits with 0, or names the first call that answered something else and exits with 1. */
#include "st62.h"

#include <stdio.h>
#include <stdlib.h>
#include <string.h>

enum { SIZE = 2048, LOW = 0x800 };

static int calls;

/* An answer's word. */
static uint64_t word(unsigned number, unsigned address, uint64_t value)
{
    return number | (uint64_t)address << 8 | value << 24;
}

/* Counts a call, and ends the program if its answer is another than the one wanted. */
static void answers(const char *call, uint64_t answer, uint64_t wanted)
{
    calls++;
    if (answer != wanted) {
        printf("smoke: %s: number %u, address %03X, value %lu; wanted %u, %03X, %lu\n", call, st62_number(answer),
               st62_address(answer), (unsigned long)st62_value(answer), st62_number(wanted), st62_address(wanted),
               (unsigned long)st62_value(wanted));
        exit(1);
    }
}

/* Ends the program if what a call left is not what is wanted. */
static void holds(const char *what, int is)
{
    if (!is) {
        printf("smoke: %s\n", what);
        exit(1);
    }
}

static void put(uint8_t *image, unsigned address, const char *bytes, size_t count)
{
    memcpy(image + address - LOW, bytes, count);
}

/* P11: a subroutine and an NMI service. */
static void pump(uint8_t *image, uint8_t *marks)
{
    memset(image, 0, SIZE);
    put(image, 0x880, "\x4D\x01\x89\x19\x88", 5);
    put(image, 0x890, "\xCD", 1);
    put(image, 0xFFC, "\x4D", 1);
    put(image, 0xFFE, "\x09\x88", 2);
    memset(marks, 0, SIZE);
    put(marks, 0x880, "\x11\x21\x00\x21", 4);
    put(marks, 0x890, "\x40", 1);
    put(marks, 0xFFC, "\x30", 1);
    put(marks, 0xFFE, "\x11", 1);
}

static void fresh(uint8_t *state)
{
    memset(state, 0, ST62_STATE_LENGTH);
    answers("reset", st62_reset(state, ST62_STATE_LENGTH), word(0, 0, 0));
    holds("a reset machine's PC is not FFEh", state[ST62_STATE_PC] == 0xFE && state[ST62_STATE_PC + 1] == 0x0F);
}

/* P8 and P10, decoded and written back, and what both refuse. */
static void instructions(void)
{
    static uint8_t image[4096];
    static const uint8_t jrr[] = {ST62_JRR, ST62_KIND_NONE, 0x70, 0, 0, 4, 0xEA, 3, 5, 0};
    static const uint8_t call[] = {ST62_CALL, ST62_KIND_NONE, 0xDC, 0x08, 0, 0, 0, 2, 4, 0};
    uint8_t row[ST62_ROW_DECODED], out[3] = {0, 0, 0};
    memcpy(image + 110, "\x23\x70\xEA\xC1\x8D\x05", 6);
    answers("decode of JRR", st62_decode(image, 4096, 110, 0, row, sizeof row), word(0, 0, 3));
    holds("the row of JRR is wrong", memcmp(row, jrr, sizeof row) == 0);
    answers("write of JRR", st62_write(row, ST62_ROW_WRITTEN, out, 3), word(0, 0, 3));
    holds("the bytes of JRR are wrong", memcmp(out, "\x23\x70\xEA", 3) == 0);
    answers("decode of CALL", st62_decode(image, 4096, 113, 0, row, sizeof row), word(0, 0, 2));
    holds("the row of CALL is wrong", memcmp(row, call, sizeof row) == 0);
    answers("write in one byte", st62_write(row, ST62_ROW_WRITTEN, out, 1), word(ST62_BUFFER_LENGTH, 0, 0));
    answers("decode of 05h", st62_decode(image, 4096, 115, 0, row, sizeof row), word(ST62_UNDEFINED_OPCODE, 115, 0));
    answers("decode at 1000h", st62_decode(image, 4096, 4096, 0, row, sizeof row), word(ST62_ADDRESS_RANGE, 0, 0));
    answers("decode in 4095", st62_decode(image, 4095, 110, 0, row, sizeof row), word(ST62_IMAGE_LENGTH, 0, 0));
    answers("decode, bank 256", st62_decode(image, 4096, 110, 256, row, sizeof row), word(ST62_OPERAND_RANGE, 0, 0));
    row[ST62_ROW_FORM] = ST62_WAIT + 1;
    answers("write of no form", st62_write(row, ST62_ROW_WRITTEN, out, 3), word(ST62_OPERAND_RANGE, 0, 0));
    holds("a refused write left other bytes", memcmp(out, "\x23\x70\xEA", 3) == 0);
}

/* P1 on a machine made by hand, and bytes read with their origins. */
static void steps(void)
{
    static uint8_t image[SIZE];
    uint8_t state[ST62_STATE_LENGTH];
    uint64_t answer;
    put(image, 0x900, "\x5F\x22\x05", 3);
    fresh(state);
    answers("store at 22h", st62_store(state, sizeof state, 0x22, 0x33), word(0, 0, 0));
    answers("store at FFh", st62_store(state, sizeof state, 0xFF, 0x20), word(0, 0, 0));
    answers("store at 40h", st62_store(state, sizeof state, 0x40, 0), word(ST62_WINDOW_ADDRESS, 0, 0));
    answers("store at 100h", st62_store(state, sizeof state, 0x100, 0), word(ST62_OPERAND_RANGE, 0, 0));
    state[ST62_STATE_PC] = 0x00;
    state[ST62_STATE_PC + 1] = 0x09;
    answer = st62_step(image, SIZE, state, sizeof state, 0);
    answers("step of ADD A,22h", answer, word(0, 0, 4 | ST62_ORIGIN_RAM << 8));
    holds("ADD's cycles or origin", st62_cycles(answer) == 4 && st62_origin(answer) == ST62_ORIGIN_RAM);
    holds("ADD's sum is not 53h", state[0xFF] == 0x53);
    answers("step of 05h", st62_step(image, SIZE, state, sizeof state, 0), word(ST62_UNDEFINED_OPCODE, 0x902, 0));
    answers("step with bit 5", st62_step(image, SIZE, state, sizeof state, 0x20), word(ST62_UNKNOWN_SOURCE, 0, 0));
    answers("store of page 24h", st62_store(state, sizeof state, 0xC9, 0x24), word(0, 0, 0));
    answer = st62_read(image, SIZE, state, sizeof state, 0x41);
    answers("read of 41h", answer, word(0, 0, 0x22 | ST62_ORIGIN_ROM << 8 | (uint64_t)0x901 << 16));
    holds("the byte at 41h", st62_byte(answer) == 0x22 && st62_rom_address(answer) == 0x901);
    answers("read of C9h", st62_read(image, SIZE, state, sizeof state, 0xC9), word(0, 0, ST62_ORIGIN_REGISTER << 8));
    answers("read of 100h", st62_read(image, SIZE, state, sizeof state, 0x100), word(ST62_OPERAND_RANGE, 0, 0));
    answers("reset of 279 bytes", st62_reset(state, 279), word(ST62_ILL_FORMED_MACHINE, 0, 0));
}

/* P11 as a run with NMI at the fourth step, and the record of the landing page. */
static void sessions(const uint8_t *image)
{
    static const uint8_t requests[] = {0, 0, 0, ST62_NMI};
    static const uint8_t session[] = {1, 0, 8, 1, 0x20, 0x30, 0, 0, 0, 1, 2};
    uint8_t state[ST62_STATE_LENGTH], report[ST62_REPORT_LENGTH];
    fresh(state);
    answers("run", st62_run(image, SIZE, state, sizeof state, requests, 4, 4, report, 8), word(0, 0, 0));
    holds("a run's report", memcmp(report, "\x04\0\0\0\x0B\0\0\0", 8) == 0);
    holds("levels and mode after a run",
          state[ST62_STATE_LEVELS] == 2 && state[ST62_STATE_MODE] == ST62_MODE_NMI_OVER_NORMAL);
    holds("return addresses after a run", memcmp(state + ST62_STATE_RETURNS, "\x83\x08\x90\x08", 4) == 0);
    answers("run of 65,536", st62_run(image, SIZE, state, sizeof state, requests, 4, 65536, report, 8),
            word(ST62_STEP_COUNT, 0, 0));
    answers("run, report of 7", st62_run(image, SIZE, state, sizeof state, requests, 4, 1, report, 7),
            word(ST62_BUFFER_LENGTH, 0, 0));
    answers("play", st62_play(image, SIZE, session, sizeof session, state, sizeof state, report, 8), word(0, 0, 0));
    holds("a playing's report", memcmp(report, "\x04\0\0\0\x06\0\0\0", 8) == 0);
    holds("the machine after a playing", state[0x20] == 0x30 && state[ST62_STATE_MODE] == ST62_MODE_RESET);
    answers("play of a cut record", st62_play(image, SIZE, session, 10, state, sizeof state, report, 8),
            word(ST62_RECORD_LENGTH, 0, 0));
}

/* P11 and P12: checked, made, and as jobs. */
static void certificates(const uint8_t *image, uint8_t *marks)
{
    static uint8_t made[SIZE], job[4 + 2 * SIZE] = {1, 0x10, 0x01, ST62_NMI};
    uint8_t line[ST62_LINE_LENGTH];
    answers("check of P11", st62_check(image, SIZE, marks, SIZE, ST62_NMI), word(0, 0, 2));
    answers("make", st62_make(image, SIZE, ST62_NMI, made, SIZE), word(0, 0, 2));
    holds("the made certificate is not P11's", memcmp(made, marks, SIZE) == 0);
    answers("make into 2047", st62_make(image, SIZE, 0, made, 2047), word(ST62_CERTIFICATE_BUFFER, 0, 0));
    memcpy(job + 4, image, SIZE);
    memcpy(job + 4 + SIZE, marks, SIZE);
    answers("job of P11", st62_job(job, sizeof job, line, sizeof line), word(0, 0, 11));
    holds("the line of P11", memcmp(line, "accepted 2\n", 11) == 0);
    put(marks, 0x883, "\x20", 1);
    answers("check of P12", st62_check(image, SIZE, marks, SIZE, ST62_NMI), word(ST62_NEED_TOO_SMALL, 0x883, 0));
    memcpy(job + 4 + SIZE, marks, SIZE);
    answers("job of P12", st62_job(job, sizeof job, line, sizeof line), word(0, 0, 15));
    holds("the line of P12", memcmp(line, "refused 17 883\n", 15) == 0);
    answers("job of 2 bytes", st62_job(job, 2, line, sizeof line), word(0, 0, 11));
    holds("the line of 2 bytes", memcmp(line, "refused 20\n", 11) == 0);
    answers("job, line of 10", st62_job(job, sizeof job, line, 10), word(ST62_BUFFER_LENGTH, 0, 0));
}

/* LD A,0C0h; LD 85h,A; STOP: the count is the width, asleep after five steps. */
static void widths(void)
{
    static uint8_t image[SIZE], marks[SIZE];
    uint64_t answer;
    put(image, 0x880, "\x4D\x1F\xC0\x9F\x85\x6D\x59\x88", 8);
    put(image, 0xFFE, "\x09\x88", 2);
    answers("make of a sizing program", st62_make(image, SIZE, 0, marks, SIZE), word(0, 0, 0));
    /* Its zeros at FFCh lead on to FFEh, which would be of two kinds. */
    answers("make with NMI", st62_make(image, SIZE, ST62_NMI, marks, SIZE), word(ST62_NO_CERTIFICATE, 0, 0));
    answer = st62_width(image, SIZE, marks, SIZE, 200);
    answers("width", answer, word(0, 0, 200 | 5 << 16));
    holds("a width's parts", st62_tenths(answer) == 200 && st62_steps(answer) == 5);
    answers("width of count 256", st62_width(image, SIZE, marks, SIZE, 256), word(ST62_OPERAND_RANGE, 0, 0));
    put(image, 0x885, "\x04", 1);
    answers("width without sleep", st62_width(image, SIZE, marks, SIZE, 200), word(ST62_NO_SLEEP, 0, 0));
    put(marks, 0x885, "\x00", 1);
    answers("width without a mark", st62_width(image, SIZE, marks, SIZE, 200), word(ST62_CHECK_REFUSED, 0, 0));
}

/* Two pages and the fixed half: LDI CAh,01 in the fixed half, then JP 000h, where page 0 has RETI and page 1 STOP; both
 * have JP 001h after it. */
static void pages(void)
{
    static uint8_t image[3 * 2048], marks[4096];
    uint8_t state[ST62_STATE_LENGTH], row[ST62_ROW_DECODED], report[ST62_REPORT_LENGTH];
    memcpy(image, "\x4D\x19\x00", 3);
    memcpy(image + 2048, "\x6D\x19\x00", 3);
    memcpy(image + sizeof image - 5, "\x0D\xCA\x01\x09\x00", 5);
    answers("decode in page 0", st62_decode(image, sizeof image, 0, 2, row, sizeof row), word(0, 0, 1));
    holds("page 0 has no RETI", row[ST62_ROW_FORM] == ST62_RETI);
    answers("decode in page 1", st62_decode(image, sizeof image, 0, 5, row, sizeof row), word(0, 0, 1));
    holds("page 1 has no STOP", row[ST62_ROW_FORM] == ST62_STOP);
    fresh(state);
    state[ST62_STATE_PC] = 0xFB;
    answers("run into page 1", st62_run(image, sizeof image, state, sizeof state, row, 0, 3, report, 8), word(0, 0, 0));
    holds("page 1 did not sleep", state[0xCA] == 1 && state[ST62_STATE_ASLEEP] == 1 && state[ST62_STATE_PC] == 1);
    answers("reset", st62_reset(state, sizeof state), word(0, 0, 0));
    holds("reset left the bank byte", state[0xCA] == 0);
    answers("check, marks as long as the image", st62_check(image, sizeof image, image, sizeof image, 0),
            word(ST62_CERTIFICATE_LENGTH, 0, 0));
    /* With page 0 in place 001h is main code, after RETI; with page 1 it is start-up code, after STOP. */
    answers("make of pages that differ", st62_make(image, sizeof image, 0, marks, sizeof marks),
            word(ST62_NO_CERTIFICATE, 0, 0));
    image[2048] = 0x4D;
    answers("make", st62_make(image, sizeof image, 0, marks, sizeof marks), word(0, 0, 0));
    answers("check", st62_check(image, sizeof image, marks, sizeof marks, 0), word(0, 0, 0));
    answers("width of 6K", st62_width(image, sizeof image, marks, sizeof marks, 0), word(ST62_CHECK_REFUSED, 0, 0));
}

int main(void)
{
    static uint8_t image[SIZE], marks[SIZE];
    pump(image, marks);
    instructions();
    steps();
    sessions(image);
    certificates(image, marks);
    widths();
    pages();
    printf("smoke: %d calls\n", calls);
    return fflush(stdout) ? 1 : 0;
}

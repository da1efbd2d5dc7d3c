/* The proved ST62 bench for C and C++: the functions of crate exports, which `tools/build exports` builds into
 * target/staticlib/libexports.a. It needs only memcpy, memmove and memset. The rules behind these comments stand in
 * docs/REFERENCE.md, sections 10 and 11.
 *
 * A slice is a pointer and its length in bytes. A const slice is only read; one that is not const is written, and must
 * not overlap another of the same call. Nothing is kept after a call, nothing is allocated, and every call returns.
 *
 * An image is 1 to 10 halves of 2048 bytes: its pages, seen at 000h to 7FFh, page 0 first, and last the fixed half,
 * seen at 800h to FFFh. The bank byte, at data address CAh of a machine, modulo the number of pages picks the page.
 * A certificate has 2048 marks for 2048 bytes, and 4096 for every longer image. */
#ifndef ST62_H
#define ST62_H

#include <stddef.h>
#include <stdint.h>

#ifdef __cplusplus
extern "C" {
#endif

/* ANSWERS. Every function answers one word: bits 0-7 the number of a refusal or stop (0: done), bits 8-23 its address
 * (0 where it has none), bits 24-55 a value (0 after a refusal). A refusal leaves what was lent as it was, but for
 * a stop in a run and an entry that ends a playing. The first refusal that applies is given. */
static inline unsigned st62_number(uint64_t answer) { return (unsigned)(answer & 0xFF); }
static inline unsigned st62_address(uint64_t answer) { return (unsigned)(answer >> 8 & 0xFFFF); }
static inline uint32_t st62_value(uint64_t answer) { return (uint32_t)(answer >> 24); }

/* The value of st62_step and st62_read: cycles or byte, origin of the data byte, its ROM address (ST62_ORIGIN_ROM). */
static inline unsigned st62_cycles(uint64_t answer) { return (unsigned)(answer >> 24 & 0xFF); }
static inline unsigned st62_byte(uint64_t answer) { return (unsigned)(answer >> 24 & 0xFF); }
static inline unsigned st62_origin(uint64_t answer) { return (unsigned)(answer >> 32 & 0xFF); }
static inline unsigned st62_rom_address(uint64_t answer) { return (unsigned)(answer >> 40 & 0xFFFF); }

/* The value of st62_width: tenths of a millimetre, and the steps until the machine slept. */
static inline unsigned st62_tenths(uint64_t answer) { return (unsigned)(answer >> 24 & 0xFFFF); }
static inline unsigned st62_steps(uint64_t answer) { return (unsigned)(answer >> 40 & 0xFFFF); }

enum st62_origins {
    ST62_ORIGIN_NONE = 0,     /* the step read no data operand */
    ST62_ORIGIN_RAM = 1,      /* 00h-3Fh */
    ST62_ORIGIN_REGISTER = 2, /* 80h-FFh */
    ST62_ORIGIN_ROM = 3,      /* the ROM window, with the byte's ROM address */
    ST62_ORIGIN_NO_ROM = 4    /* the ROM window where the image has nothing: reads 00h */
};

/* Numbers of refusals and stops. [a]: with an address. */
enum st62_refusals {
    ST62_DONE = 0,
    ST62_IMAGE_LENGTH = 1,        /* the image is not 1 to 10 halves of 2048 bytes */
    ST62_ILL_FORMED_MACHINE = 2,  /* the state is no machine's, or PC, a return address or the levels are too great */
    ST62_ADDRESS_RANGE = 3,       /* an address above FFFh */
    ST62_OUTSIDE_ROM = 4,         /* [a] the opcode or an operand byte lies outside ROM */
    ST62_UNDEFINED_OPCODE = 5,    /* [a] */
    ST62_STACK_FULL = 6,          /* [a] a push on six levels: a CALL, or a request that is taken (address: PC) */
    ST62_STACK_EMPTY = 7,         /* [a] a pop of an empty stack */
    ST62_OPERAND_RANGE = 8,       /* an operand beyond its field or of a kind the form lacks; a number beyond a byte */
    ST62_BUFFER_LENGTH = 9,       /* a buffer too short for what is to be written */
    ST62_WINDOW_ADDRESS = 10,     /* a host store to 40h-7Fh */
    ST62_UNKNOWN_SOURCE = 11,     /* a bit above bit 4 in a request or in the wired sources */
    ST62_STEP_COUNT = 12,         /* a run of more than 65,535 steps */
    ST62_CERTIFICATE_LENGTH = 13, /* the certificate has not 2048 marks (image of 2048 bytes) or 4096 (longer) */
    ST62_MALFORMED_MARK = 14,     /* [a] kind above 4, need above 6, or a need without a kind */
    ST62_MISPLACED_RETURN = 15,   /* [a] RET outside kind 4, or RETI outside kinds 1 and 3 */
    ST62_SUCCESSOR_KIND = 16,     /* [a] it leads outside ROM, to an unmarked address, or to one of the wrong kind */
    ST62_NEED_TOO_SMALL = 17,     /* [a] the need is smaller than where it leads asks for */
    ST62_VECTOR_KIND = 18,        /* [a] FFEh is not of kind 1, or a wired source's vector not of kind 3 */
    ST62_TOO_MANY_LEVELS = 19,    /* more than six levels in all */
    ST62_JOB_TOO_SHORT = 20,      /* a job of fewer than three bytes */
    ST62_JOB_VERSION = 21,        /* a job whose first byte is not 1 */
    ST62_JOB_LENGTH = 22,         /* a job of a wrong length */
    ST62_CHECK_REFUSED = 23,      /* the gauge: the check with nothing wired refuses, or above 4096 bytes */
    ST62_NO_SLEEP = 24,           /* the gauge: no sleep within 65,535 steps */
    ST62_CERTIFICATE_BUFFER = 25, /* the maker: the buffer is not as long as the certificate */
    ST62_NO_CERTIFICATE = 26,     /* the maker: no certificate would be accepted */
    ST62_RECORD_VERSION = 27,     /* a record whose first byte is neither 1 nor 2 */
    ST62_RECORD_LENGTH = 28,      /* a record shorter than its head, or with a wrong count */
    ST62_RECORD_ENTRY = 29,       /* a record with an unknown or cut entry */
    ST62_RECORD_TOO_LONG = 30     /* a record with more than 1,048,576 bytes of entries */
};

/* SOURCES, in requests and in the wired sources. Bits 5 to 7, and a number above 255, are refused with 11. */
enum st62_sources {
    ST62_NMI = 0x01,
    ST62_SOURCE_1 = 0x02,
    ST62_SOURCE_2 = 0x04,
    ST62_SOURCE_3 = 0x08,
    ST62_SOURCE_4 = 0x10
};

/* MACHINES. A machine is a state of 280 bytes. Two-byte numbers stand low byte first. A fresh machine: 280 zeros, then
 * st62_reset. */
enum st62_state {
    ST62_STATE_DATA = 0,      /* 256 data bytes; C8h and C9h as stored; those at 40h-7Fh are never looked at */
    ST62_STATE_PC = 256,      /* two bytes */
    ST62_STATE_LEVELS = 258,  /* return addresses in use */
    ST62_STATE_MODE = 259,    /* one of st62_modes */
    ST62_STATE_ASLEEP = 260,  /* 0 or 1 */
    ST62_STATE_FLAGS = 261,   /* six bytes, 0 or 1: Z and C of normal, of interrupt, of NMI */
    ST62_STATE_ZERO = 267,    /* 0 */
    ST62_STATE_RETURNS = 268, /* six return addresses of two bytes, lowest level first */
    ST62_STATE_LENGTH = 280
};

enum st62_modes {
    ST62_MODE_RESET = 0,
    ST62_MODE_NORMAL = 1,
    ST62_MODE_INTERRUPT = 2,
    ST62_MODE_NMI_OVER_NORMAL = 3,
    ST62_MODE_NMI_OVER_INTERRUPT = 4
};

/* INSTRUCTIONS. A row of fields, a byte each. What a form does not use is 0. */
enum st62_row {
    ST62_ROW_FORM = 0,         /* one of st62_forms */
    ST62_ROW_KIND = 1,         /* one of st62_kinds; none for JRR, JRS, RES, SET and LDI of a data address */
    ST62_ROW_VALUE = 2,        /* data address, register, immediate, or a target's low byte */
    ST62_ROW_HIGH = 3,         /* a target's high byte */
    ST62_ROW_SECOND = 4,       /* the immediate of LDI of a data address */
    ST62_ROW_BIT = 5,          /* bit number */
    ST62_ROW_DISPLACEMENT = 6, /* in two's complement: short from the opcode plus 1, of JRR and JRS from it plus 2 */
    ST62_ROW_WRITTEN = 7,      /* so many fields st62_write reads */
    ST62_ROW_LENGTH = 7,       /* bytes, from st62_decode */
    ST62_ROW_CYCLES = 8,       /* from st62_decode */
    ST62_ROW_ZERO = 9,         /* 0 */
    ST62_ROW_DECODED = 10      /* so many bytes st62_decode writes */
};

enum st62_kinds {
    ST62_KIND_NONE = 0,
    ST62_KIND_DIRECT = 1,
    ST62_KIND_SHORT = 2, /* the value is 0 for X, 1 for Y, 2 for V, 3 for W */
    ST62_KIND_X = 3,     /* through X */
    ST62_KIND_Y = 4      /* through Y */
};

enum st62_forms {
    ST62_JRNZ = 0,
    ST62_JRNC = 1,
    ST62_JRZ = 2,
    ST62_JRC = 3,
    ST62_CALL = 4,
    ST62_JP = 5,
    ST62_JRR = 6,
    ST62_JRS = 7,
    ST62_RES = 8,
    ST62_SET = 9,
    ST62_LD_A = 10,  /* A takes the operand's byte */
    ST62_LD_TO = 11, /* the operand's byte takes A */
    ST62_LDI_A = 12,
    ST62_LDI = 13,   /* of a data address */
    ST62_INC = 14,
    ST62_DEC = 15,
    ST62_ADD = 16,
    ST62_ADDI = 17,
    ST62_SUB = 18,
    ST62_SUBI = 19,
    ST62_AND = 20,
    ST62_ANDI = 21,
    ST62_CP = 22,
    ST62_CPI = 23,
    ST62_COM = 24,
    ST62_RLC = 25,
    ST62_RET = 26,
    ST62_RETI = 27,
    ST62_STOP = 28,
    ST62_WAIT = 29
};

/* REPORTS of st62_run and st62_play. Four-byte numbers, low byte first. */
enum st62_report {
    ST62_REPORT_COUNT = 0,  /* steps completed, or entries played: where one ended the playing, its number from 0 */
    ST62_REPORT_CYCLES = 4, /* their cycles */
    ST62_REPORT_LENGTH = 8
};

/* The longest line of a job, its newline too. */
#define ST62_LINE_LENGTH 16

/* Decodes at a program address, with a bank byte, into out, a row of 10 bytes; the value is the length. 8 for a bank
 * above 255; 1, 3, 4, 5, 9. */
uint64_t st62_decode(const uint8_t *image, size_t image_length, uint32_t address, uint32_t bank, uint8_t *out,
                     size_t out_length);

/* Writes the instruction of the first seven fields into out; the value is its length. 8, 9. */
uint64_t st62_write(const uint8_t *fields, size_t fields_length, uint8_t *out, size_t out_length);

/* Resets a machine, an ill-formed one too; CAh is cleared. 2 for a state that is no machine's. */
uint64_t st62_reset(uint8_t *state, size_t state_length);

/* The host's store of a byte at a data address. 8, 2, 10. */
uint64_t st62_store(uint8_t *state, size_t state_length, uint32_t address, uint32_t value);

/* One step with a request (0: none). 1, 2, 11, and the stops 6, 4, 5, 7. */
uint64_t st62_step(const uint8_t *image, size_t image_length, uint8_t *state, size_t state_length, uint32_t request);

/* Reads a data byte as a program does, with its origin. 8, 1, 2. */
uint64_t st62_read(const uint8_t *image, size_t image_length, const uint8_t *state, size_t state_length,
                   uint32_t address);

/* n steps with request i at step i, none past the list's end. 1, 2, 12, 11, 9; a stop keeps the steps before it. */
uint64_t st62_run(const uint8_t *image, size_t image_length, uint8_t *state, size_t state_length,
                  const uint8_t *requests, size_t requests_length, uint32_t n, uint8_t *report, size_t report_length);

/* Plays a session's record on a fresh machine into state and report. 1, 28, 27, 30, 29, 2 for a state of another
 * length, 9; then an entry's own refusal or stop, with the machine and the report before it. */
uint64_t st62_play(const uint8_t *image, size_t image_length, const uint8_t *recording, size_t recording_length,
                   uint8_t *state, size_t state_length, uint8_t *report, size_t report_length);

/* Checks a certificate for the wired sources; the value is the levels. 1, 13, 11; at each marked address, upward, 14,
 * then with each page in place 4, 5, 15, 16, 17; then 18, 19. */
uint64_t st62_check(const uint8_t *image, size_t image_length, const uint8_t *certificate, size_t certificate_length,
                    uint32_t wired);

/* Makes the least certificate into out, which is as long; the value is its levels. 1, 11, 25, 26. */
uint64_t st62_make(const uint8_t *image, size_t image_length, uint32_t wired, uint8_t *out, size_t out_length);

/* The width that the gauge would show for a slide count, nothing wired. 8, 23, 24. */
uint64_t st62_width(const uint8_t *image, size_t image_length, const uint8_t *certificate, size_t certificate_length,
                    uint32_t count);

/* Answers a job by its line, with a newline and no NUL; the value is the line's length. 9 where it does not fit. */
uint64_t st62_job(const uint8_t *job, size_t job_length, uint8_t *line, size_t line_length);

#ifdef __cplusplus
}
#endif

#endif

/* What a machine allows: the operators of four loops of this folder as one switch in C, with the checks that these loops need: room,
   cells that are there, tags, whole numbers within their range, indexes. Nothing is paged or proved, and one task runs. The code is
   read syllable by syllable. `switch LOOP TURNS`, where LOOP is counting, locals, calls or elements; it prints the operators made. */
#include <inttypes.h>
#include <stdbool.h>
#include <stdint.h>
#include <stdio.h>
#include <stdlib.h>
#include <string.h>

enum { ADD = 0x80, SUBT, GRTR = 0x8A, NEQL = 0x8D, BRTR = 0xA1, EXIT = 0xA3, INDX = 0xA6, ENTR = 0xAB, NXLV = 0xAD, MKST,
       ZERO = 0xB0, ONE, LT8, DUPL = 0xB7, STOD, STON };
enum { OPERAND = 0, REFERENCE = 1, CONTROL = 3, DATA = 5, PROCEDURE = 7 };
enum { STACK = 2, LAST = 4000, ARRAY = 5000, LENGTH = 100 };

/* A word is 48 bits under its tag. An operand's sign is bit 46, its magnitude the lowest 39 bits; it is whole if bits 39 to 45 and 47
   are zero. A descriptor has its length, or its index, from bit 20 on, and an address below. */
#define BITS(tag, bits) ((uint64_t)(tag) << 48 | (bits))
#define SIGN (1ull << 46)
#define MAGNITUDE ((1ull << 39) - 1)
#define PRESENT (1ull << 47)
#define COPY (1ull << 46)
#define INDEXED (1ull << 45)
#define READ_ONLY (1ull << 43)
#define IS_ENTERED (1ull << 46)

static uint64_t core[1 << 16];
static uint8_t code[256];
static uint32_t display[32], s, f, level = 2;

static inline unsigned tag(uint64_t word) { return (unsigned)(word >> 48); }

static inline bool number(uint64_t word, int64_t *value) {
    if (tag(word) != OPERAND || (word & ~(SIGN | MAGNITUDE))) return false;
    *value = word & SIGN ? -(int64_t)(word & MAGNITUDE) : (int64_t)(word & MAGNITUDE);
    return true;
}

static inline bool operand(int64_t value, uint64_t *word) {
    uint64_t magnitude = (uint64_t)(value < 0 ? -value : value);
    if (magnitude > MAGNITUDE) return false;
    *word = magnitude | (value < 0 ? SIGN : 0);
    return true;
}

/* The address of the cell that a couple names, 0 if there is none. The running level splits it: its level's bits stand reversed. */
static inline uint32_t cell(unsigned couple) {
    static const uint8_t reversed[32] = {0, 16, 8, 24, 4, 20, 12, 28, 2, 18, 10, 26, 6, 22, 14, 30,
                                         1, 17, 9, 25, 5, 21, 13, 29, 3, 19, 11, 27, 7, 23, 15, 31};
    static const uint8_t bits[32] = {1, 1, 2, 2, 3, 3, 3, 3, 4, 4, 4, 4, 4, 4, 4, 4, 5, 5, 5, 5, 5, 5, 5, 5, 5, 5, 5, 5, 5, 5, 5, 5};
    unsigned many = bits[level], at = reversed[couple >> 9] & ((1u << many) - 1), disp = couple & ((1u << (14 - many)) - 1);
    if (at > level || disp < 2) return 0;
    uint32_t address = display[at] + disp;
    return address <= (at == level ? s : LAST) ? address : 0;
}

static inline bool numbers(int64_t *lower, int64_t *upper) {
    return s > f + 2 && number(core[s - 1], lower) && number(core[s], upper);
}

static inline bool push(uint64_t word) {
    if (s >= LAST) return false;
    core[++s] = word;
    return true;
}

/* The element that the two top cells give, in either order: its array's descriptor stands in the cell that is answered. */
static inline uint32_t item(int64_t *index) {
    if (s <= f + 2) return 0;
    uint64_t reference = core[s - 1], number_word = core[s];
    if (tag(number_word) != OPERAND) reference = core[s], number_word = core[s - 1];
    if (tag(reference) != REFERENCE) return 0;
    uint32_t at = cell(reference & 0x3FFF);
    if (!at || tag(core[at]) != DATA || !number(number_word, index)) return 0;
    return *index >= 0 && *index < (int64_t)(core[at] >> 20 & 0xFFFFF) ? at : 0;
}

/* Where a word leads into which an operand may be stored, 0 if it leads nowhere. */
static inline uint32_t target(uint64_t word) {
    if (tag(word) == REFERENCE) {
        uint32_t at = cell(word & 0x3FFF);
        return at && tag(core[at]) == OPERAND ? at : 0;
    }
    if (tag(word) != DATA || !(word & INDEXED)) return 0;
    uint64_t original = core[word & 0xFFFFF];
    uint32_t index = word >> 20 & 0xFFFFF;
    if (!(original & PRESENT) || original & READ_ONLY || index >= (original >> 20 & 0xFFFFF)) return 0;
    return (original & 0xFFFFF) + index;
}

static const uint8_t counting[] = {ONE, SUBT, DUPL, ZERO, NEQL, BRTR, 0, 0, EXIT};
static const uint8_t locals[] = {0x10, 2, ONE, SUBT, 0x50, 2, STON, ZERO, GRTR, BRTR, 0, 0, EXIT};
static const uint8_t calls[] = {MKST, 0x50, 2, ENTR, ONE, SUBT, DUPL, ZERO, NEQL, BRTR, 0, 0, EXIT};
static const uint8_t elements[] = {0x50, 2, LT8, 7, NXLV, ONE, ADD, 0x50, 2, LT8, 7, INDX, STOD, ONE, SUBT, DUPL, ZERO, NEQL, BRTR, 0, 0, EXIT};

/* The operators made until the outer block is left; -1 at a fault. */
static int64_t run(void) {
    const uint8_t *at = code;
    int64_t lower, upper, made = 0;
    for (;;) {
        unsigned first = *at++;
        uint64_t word;
        made++;
        switch (first) {
        case ADD:
            if (!numbers(&lower, &upper) || !operand(lower + upper, &word)) return -1;
            core[--s] = word;
            break;
        case SUBT:
            if (!numbers(&lower, &upper) || !operand(lower - upper, &word)) return -1;
            core[--s] = word;
            break;
        case GRTR:
            if (!numbers(&lower, &upper)) return -1;
            core[--s] = lower > upper;
            break;
        case NEQL:
            if (!numbers(&lower, &upper)) return -1;
            core[--s] = lower != upper;
            break;
        case ZERO:
            if (!push(0)) return -1;
            break;
        case ONE:
            if (!push(1)) return -1;
            break;
        case LT8:
            if (!push(*at++)) return -1;
            break;
        case DUPL:
            if (s <= f + 1 || (tag(core[s]) == DATA && !(core[s] & COPY)) || !push(core[s])) return -1;
            break;
        case BRTR:
            if (s <= f + 1 || tag(core[s]) != OPERAND) return -1;
            if (core[s--] & 1) {
                unsigned place = (at[0] & 0x1Fu) << 8 | at[1];
                if (place * 6 + (at[0] >> 5) >= sizeof code) return -1;
                at = code + place * 6 + (at[0] >> 5);
            } else {
                at += 2;
            }
            break;
        case STOD:
        case STON: {
            if (s <= f + 2) return -1;
            uint64_t value = core[s - 1], reference = core[s];
            if (tag(reference) == OPERAND) value = core[s], reference = core[s - 1];
            uint32_t to = tag(value) == OPERAND ? target(reference) : 0;
            if (!to) return -1;
            core[to] = value;
            s -= first == STOD ? 2 : 1;
            if (first == STON) core[s] = value;
            break;
        }
        case INDX: {
            uint32_t original = item(&upper);
            if (!original) return -1;
            core[--s] = BITS(DATA, PRESENT | COPY | INDEXED | (uint64_t)upper << 20 | original);
            break;
        }
        case NXLV: {
            uint32_t original = item(&upper);
            if (!original || !(core[original] & PRESENT)) return -1;
            core[--s] = core[(core[original] & 0xFFFFF) + upper];
            break;
        }
        case MKST:
            if (!push(BITS(CONTROL, s + 1 - f))) return -1;
            f = s;
            break;
        case ENTR: {
            if (core[f] & IS_ENTERED || s == f || tag(core[f + 1]) != REFERENCE) return -1;
            uint32_t procedure = cell(core[f + 1] & 0x3FFF);
            if (!procedure || tag(core[procedure]) != PROCEDURE) return -1;
            uint32_t to = core[procedure] >> 14 & 31;
            if (to != 3) return -1;
            core[f] |= IS_ENTERED | (uint64_t)display[to - 1] << 20 | (uint64_t)to << 14;
            core[f + 1] = BITS(CONTROL, (uint64_t)(at - code) << 20 | level << 14);
            level = to;
            display[level] = f;
            at = code + (core[procedure] & 0x3FFF);
            break;
        }
        case EXIT: {
            if (f == STACK) return made;
            if (!(core[f] & IS_ENTERED)) return -1;
            uint64_t caller = core[f + 1];
            s = f - 1;
            f -= core[f] & 0x3FFF;
            at = code + (caller >> 20 & 0x1FFF);
            level = caller >> 14 & 31;
            display[level] = f;
            break;
        }
        default: {
            if (first >= 0x80) return -1;
            unsigned couple = (first & 0x3F) << 8 | *at++;
            if (first < 0x40) {
                uint32_t named = cell(couple);
                if (!named || tag(core[named]) != OPERAND || !push(core[named])) return -1;
            } else if (!push(BITS(REFERENCE, couple))) {
                return -1;
            }
        }
        }
    }
}

int main(int words, char **word) {
    static const struct { const char *name; const uint8_t *code; size_t size; } loops[] = {
        {"counting", counting, sizeof counting}, {"locals", locals, sizeof locals}, {"calls", calls, sizeof calls}, {"elements", elements, sizeof elements}};
    size_t loop = 0;
    while (words == 3 && loop < 4 && strcmp(word[1], loops[loop].name)) loop++;
    if (words != 3 || loop == 4 || atol(word[2]) < 1) {
        fputs("usage: switch counting|locals|calls|elements TURNS\n", stderr);
        return 2;
    }
    memcpy(code, loops[loop].code, loops[loop].size);
    code[200] = EXIT;
    f = display[2] = STACK;
    core[f] = BITS(CONTROL, IS_ENTERED);
    core[f + 1] = BITS(CONTROL, 0);
    s = f + 1;
    if (loop == 2) push(BITS(PROCEDURE, 3u << 14 | 200));
    if (loop == 3) push(BITS(DATA, PRESENT | (uint64_t)LENGTH << 20 | ARRAY));
    push((uint64_t)atol(word[2]));
    int64_t made = run();
    if (made < 0) return puts("fault"), 1;
    printf("%" PRId64 " operators\n", made);
    return 0;
}

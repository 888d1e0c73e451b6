// What the functions that wasm2c made call, in place of wabt's own runtime. The module has one memory, no table, no import, no floating-point
// number and no exception. In its memory the lowest byte of a number comes first, on every machine.
#define _GNU_SOURCE // for host.c: with strict C99, glibc declares `flock` and `pwrite` only if this is defined
#include <stdint.h>
#include <stdio.h>
#include <stdlib.h>
#include <string.h>

typedef uint8_t u8;
typedef uint16_t u16;
typedef uint32_t u32;
typedef uint64_t u64;
typedef int8_t s8;
typedef int32_t s32;
typedef int64_t s64;

#ifdef __GNUC__
#define NEVER_RETURNS __attribute__((noreturn, cold, noinline))
#else
#define NEVER_RETURNS
#endif
#ifdef __OPTIMIZE__
#define INLINE static inline __attribute__((always_inline)) // gcc leaves many of these calls otherwise
#else
#define INLINE static inline
#endif

enum { PAGE = 65536, MOST_PAGES = 65535 }; // one page less than 2^32 bytes

// What each function is given: where the module's stack ends.
typedef struct {
    u64 w2c_g0;
} Z_b67_instance_t;

// The memory has `room_pages` pages, zero at first, of which the module has asked for the first `size` bytes. It is static, so a compiler
// sees that no store into it moves it.
static u8 *memory;
static u32 room_pages;
static u64 size;

// Ends the program with a line on standard output and a reason on standard error. Nothing has been written by then, and of a long run alone
// something was printed, since a call leaves all that it makes in the memory.
NEVER_RETURNS static void ends(int status, const char *line, const char *why) {
    if (fputs(line, stdout) == EOF || fflush(stdout)) status = 8;
    if (why) fprintf(stderr, "b67: %s\n", why);
    exit(status);
}
NEVER_RETURNS static void trap(const char *why) { ends(10, "", why); }

// Each call gets a memory of its own: as many pages as the system promises. The system provides those that are used.
static void wasm_rt_allocate_memory(u32 pages, u32 most) {
    (void)most; // 65,536, as for any module
    free(memory);
    for (room_pages = MOST_PAGES; !(memory = calloc(room_pages, PAGE)); room_pages /= 2)
        if (room_pages / 2 < pages) ends(9, "NO MEMORY\n", NULL);
    size = (u64)pages * PAGE;
}
static u32 memory_pages(void) { return (u32)(size / PAGE); }
static u32 wasm_rt_grow_memory(u32 more) {
    u32 before = memory_pages();
    if (more > room_pages - before) return (u32)-1;
    size += (u64)more * PAGE;
    return before;
}

// Every access is checked here. The sum can't overflow: an address has at most 33 bits, a number of bytes 32.
INLINE void within(u64 at, u64 bytes) {
    if (at + bytes > size) trap("the machine left its memory");
}

// A number of `bytes` bytes as it stands in the memory, or a number from there. On most machines both are the same, and compilers see that.
INLINE u64 lowest_first(u64 number, size_t bytes) {
    const u16 one = 1;
    u8 first;
    u64 turned = 0;
    memcpy(&first, &one, 1);
    if (first) return number;
    for (; bytes; bytes--, number >>= 8) turned = turned << 8 | (number & 255);
    return turned;
}

#define LOAD(name, kept, middle, given)                          \
    INLINE given name(u64 at) {                                  \
        kept it;                                                 \
        within(at, sizeof it);                                   \
        memcpy(&it, memory + at, sizeof it);                     \
        return (given)(middle)(kept)lowest_first(it, sizeof it); \
    }
#define STORE(name, kept, given)                               \
    INLINE void name(u64 at, given number) {                   \
        kept it = (kept)lowest_first((kept)number, sizeof it); \
        within(at, sizeof it);                                 \
        memcpy(memory + at, &it, sizeof it);                   \
    }
LOAD(i32_load, u32, u32, u32)
LOAD(i32_load8_s, u8, s8, u32)
LOAD(i32_load8_u, u8, u32, u32)
LOAD(i32_load16_u, u16, u32, u32)
LOAD(i64_load, u64, u64, u64)
LOAD(i64_load8_u, u8, u64, u64)
LOAD(i64_load16_u, u16, u64, u64)
LOAD(i64_load32_u, u32, u64, u64)
STORE(i32_store, u32, u32)
STORE(i32_store8, u8, u32)
STORE(i32_store16, u16, u32)
STORE(i64_store, u64, u64)
STORE(i64_store8, u8, u64)
STORE(i64_store16, u16, u64)
STORE(i64_store32, u32, u64)

INLINE void memory_fill(u32 at, u32 byte, u32 bytes) {
    within(at, bytes);
    memset(memory + at, (int)(byte & 255), bytes);
}
INLINE void memory_copy(u32 to, u32 from, u32 bytes) {
    within(to, bytes);
    within(from, bytes);
    memmove(memory + to, memory + from, bytes);
}
#define LOAD_DATA(at, data, bytes) (within(at, bytes), memcpy(memory + (at), data, bytes))

INLINE s64 quotient(s64 x, s64 y) {
    if (y == 0 || (x == INT64_MIN && y == -1)) trap("the machine divided by 0, or the least number by -1");
    return x / y;
}
INLINE s64 remains(s64 x, s64 y) {
    if (y == 0) trap("the machine divided by 0");
    return y == -1 ? 0 : x % y;
}
INLINE u32 zeros_below(u64 x, u32 bits) {
#ifdef __GNUC__
    return x ? (u32)__builtin_ctzll(x) : bits;
#else
    u32 count = 0;
    while (count < bits && !(x >> count & 1)) count++;
    return count;
#endif
}
#define DIV_U(x, y) ((y) ? (x) / (y) : (trap("the machine divided by 0"), 0u))
#define REM_U(x, y) ((y) ? (x) % (y) : (trap("the machine divided by 0"), 0u))
#define I64_DIV_S(x, y) ((u64)quotient((s64)(x), (s64)(y)))
#define I64_REM_S(x, y) ((u64)remains((s64)(x), (s64)(y)))
#define I32_ROTR(x, y) ((x) >> ((y) & 31) | (x) << (-(y) & 31))
#define I64_ROTL(x, y) ((x) << ((y) & 63) | (x) >> (-(y) & 63))
#define I32_CTZ(x) zeros_below(x, 32)
#define I64_CTZ(x) zeros_below(x, 64)
#define UNREACHABLE trap("the machine came to a place that is never reached")
#define FUNC_PROLOGUE
#define FUNC_EPILOGUE

#ifdef __GNUC__
#pragma GCC diagnostic push
#pragma GCC diagnostic ignored "-Wunused-parameter" // each function is given the instance
#pragma GCC diagnostic ignored "-Wunused-function"  // one export is for the page alone
#endif

// ------------------------------------------------------------ what wasm2c made of the module

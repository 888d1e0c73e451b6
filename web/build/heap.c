// What the module of the page needs beside the machine. wasm64 has no C library, so here are the three functions of the heap that
// Rattle's `Global` calls, two for the page itself, and the product of 128 bits that the compiler calls.
//
// Pointers have 64 bits here. web/build/wasm.sh then lowers the linked module to a memory of 32 bits, which every browser has: each address
// loses its upper half, which is 0, and a page may grow to 2^32 bytes. So may the number of pages that growth answers, and its -1 may
// come back as 2^32 - 1: whether memory has grown is seen at its size alone.
//
// The memory from `top` on was never given out. Below it lie blocks: a head of 16 bytes, then 2^k bytes, 4 <= k <= 31. A block is
// given out whole, and is never split or joined. A block that was freed waits in a list of those with the same k. All these sizes
// are multiples of 16, and the first head is aligned to 16, so each block is. `Global` asks for no more, and for less than 2^63
// bytes. A call of the page has an instance, so a heap, of its own.

typedef unsigned long long u64;
typedef unsigned __int128 u128;

typedef struct Head {
    u64 power; // k
    struct Head *next; // the next free block, while this one is free
} Head;
_Static_assert(sizeof(Head) == 16, "the head of a block keeps the alignment of what follows");

// Whether there is memory, and where; if there is none, the pointer leads to a place that nobody owns.
typedef struct {
    u64 ok;
    void *p;
} Tried;

enum { LEAST = 4, MOST = 31 }; // the memory has at most 2^32 bytes

extern unsigned char __heap_base[]; // the linker's: where the stack and the data have ended
static u64 top; // 0 before the first call
static Head *freed[MOST + 1];
static Head nowhere;

// A block of at least n bytes; null if there is no memory. The heap is then as it was.
static void *take(u64 n) {
    u64 power = LEAST;
    while (power <= MOST && ((u64)1 << power) < n) power++;
    if (power > MOST) return 0;
    Head *head = freed[power];
    if (head) {
        freed[power] = head->next;
        return head + 1;
    }
    if (!top) top = ((u64)__heap_base + 15) / 16 * 16;
    // No sum overflows: `top` is at most the memory's end, so at most 2^32, and the block at most 2^31 + 16 bytes.
    u64 after = top + sizeof(Head) + ((u64)1 << power);
    u64 end = __builtin_wasm_memory_size(0) * 65536;
    if (after > end) {
        (void)__builtin_wasm_memory_grow(0, (after - end + 65535) / 65536);
        if (after > __builtin_wasm_memory_size(0) * 65536) return 0;
    }
    head = (Head *)top;
    head->power = power;
    top = after;
    return head + 1;
}

static void give(void *p) {
    Head *head = (Head *)p - 1;
    head->next = freed[head->power];
    freed[head->power] = head;
}

static Tried tried(void *p) {
    Tried answer = {p != 0, p ? p : &nowhere};
    return answer;
}

// A block of n bytes, aligned to `align`, which divides 16. Of a type of no size as many bytes as its alignment, as natively.
Tried rattle_alloc(u64 n, u64 align) { return tried(take(n ? n : align)); }

// A block of n bytes that begins with the first `kept` of p, in place of p; `kept` is no more than either has. If there is no
// memory, p is as it was.
Tried rattle_realloc(void *p, u64 kept, u64 n, u64 align) {
    if (n <= (u64)1 << ((Head *)p - 1)->power) return tried(p);
    void *moved = take(n ? n : align);
    if (moved) {
        __builtin_memcpy(moved, p, kept);
        give(p);
    }
    return tried(moved);
}

void rattle_dealloc(void *p) { give(p); }

// Room for the page's words, text, sectors and lines, null if there is none. The page asks before it calls the machine, so nothing
// was freed yet, and the room holds zeros, as a module's memory does at first. It is never freed: the instance goes with the call.
void *room(u64 n) { return take(n); }

// The low 128 bits of a product, from products of 32 by 32 bits: where LLVM multiplies 128 bits on this target it calls this.
u128 __multi3(u128 x, u128 y) {
    u64 mask = 0xffffffff, a = (u64)x, b = (u64)y;
    u64 low = (a & mask) * (b & mask);
    u64 one = (a >> 32) * (b & mask) + (low >> 32); // at most (2^32 - 1)^2 + 2^32 - 1, so below 2^64; so is the next
    u64 two = (a & mask) * (b >> 32) + (one & mask);
    u64 high = (a >> 32) * (b >> 32) + (one >> 32) + (two >> 32) + a * (u64)(y >> 64) + (u64)(x >> 64) * b;
    return (u128)high << 64 | (two << 32 | (low & mask));
}

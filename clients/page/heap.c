/* The memory of the module that a page runs. Blocks have sizes of 16 * 2^k or 24 * 2^k bytes, begin at multiples of 16,
   and each size has a list of free blocks. New ones are cut from the end of the memory, which grows and never shrinks.

   tools/page makes this for pointers of 64 bits, and binaryen then makes 32 of them: addresses from 4 GiB on would mean
   those from 0 on, and what memory.grow answers comes without its sign. */
typedef unsigned long size_t;

struct rattle_tried {
    unsigned long is_there;
    void *bytes;
};

enum { HEAD = 16, PAGE = 65536, SIZES = 96 };

/* So many addresses there are. */
static const size_t ADDRESSES = (size_t)1 << 32;

extern unsigned char __heap_base;

static char nothing;
static size_t next, end;
static void *freed[SIZES];

/* The number of the least size that has so many bytes. */
static unsigned number_of(size_t size) {
    if (size <= 16) return 0;
    unsigned bits = 63 - __builtin_clzl(size - 1);
    size_t half = (size_t)3 << (bits - 1);
    return 2 * (bits - 3) - (size <= half);
}

static size_t size_of(unsigned number) {
    return number & 1 ? (size_t)24 << (number >> 1) : (size_t)16 << (number >> 1);
}

static unsigned number_at(void *bytes) { return (unsigned)*(size_t *)((char *)bytes - HEAD); }

/* A number of 32 bits is -1 where the memory can't grow. */
static int grow(size_t pages) {
    if ((unsigned)__builtin_wasm_memory_grow(0, pages) == (unsigned)-1) return 0;
    end += pages * PAGE;
    return 1;
}

static void *take(size_t size) {
    if (size > ((size_t)1 << 31)) return 0;
    unsigned number = number_of(size);
    void *bytes = freed[number];
    if (bytes != 0) {
        freed[number] = *(void **)bytes;
        return bytes;
    }
    if (next == 0) {
        next = ((size_t)&__heap_base + 15) & ~(size_t)15;
        end = __builtin_wasm_memory_size(0) * PAGE;
    }
    size_t all = (HEAD + size_of(number) + 15) & ~(size_t)15;
    if (all > ADDRESSES - next) return 0;
    if (end - next < all) {
        size_t pages = (all - (end - next) + PAGE - 1) / PAGE, quarter = end / PAGE / 4;
        if (!(quarter > pages && grow(quarter)) && !grow(pages)) return 0;
    }
    *(size_t *)next = number;
    bytes = (void *)(next + HEAD);
    next += all;
    return bytes;
}

static void give(void *bytes) {
    unsigned number = number_at(bytes);
    *(void **)bytes = freed[number];
    freed[number] = bytes;
}

static struct rattle_tried tried(void *bytes) {
    struct rattle_tried it = {bytes != 0, bytes != 0 ? bytes : &nothing};
    return it;
}

struct rattle_tried rattle_alloc(size_t size, size_t align) { return tried(take(size != 0 ? size : align)); }

void rattle_dealloc(void *bytes) { give(bytes); }

struct rattle_tried rattle_realloc(void *bytes, size_t kept, size_t size, size_t align) {
    size_t wanted = size != 0 ? size : align, had = size_of(number_at(bytes));
    if (wanted <= had && wanted > had / 4) return tried(bytes);
    void *moved = take(wanted);
    if (moved == 0) return tried(wanted <= had ? bytes : 0);
    __builtin_memcpy(moved, bytes, kept < wanted ? kept : wanted);
    give(bytes);
    return tried(moved);
}

/* Blocks for the page's texts. */
__attribute__((export_name("landtree_take"))) void *landtree_take(size_t size) { return take(size != 0 ? size : 1); }

__attribute__((export_name("landtree_give"))) void landtree_give(void *bytes) {
    if (bytes != 0) give(bytes);
}

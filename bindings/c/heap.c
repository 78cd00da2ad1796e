/* The library's heap: what the proved code calls for memory. Blocks of up to 128 bytes, which a table has many of, lie in slabs of one
 * size. Blocks of 4 MiB or more, such as the entries of a forwarding table, are mapped by themselves. All others, and those that no
 * slab or mapping is found for, come from malloc.
 *
 * glibc keeps small blocks that are freed in lists, and sorts all of them when a larger block is allocated later: after a free of a
 * million routes, some program's next call of malloc takes a third of a second. A slab only counts its blocks, and gives its memory back
 * to the kernel when it has none left.
 *
 * A slab belongs to one of a few parts of the heap, each with a lock of its own. A thread always allocates in the same part, and frees a
 * block in the part that it is from. A lock takes longer than the rest of a free, so a call that frees a whole table keeps its blocks
 * for a while, and frees many of them under one lock.
 *
 * A random look-up reads a place of a large block that no look-up has read for long. With pages of 4 KiB it then also waits for the
 * page's translation. So the kernel is advised to use huge pages of 2 MiB for large blocks, and gives them if it has any. The first write
 * to such a page waits until the kernel has cleared it. A call that makes room for later changes has the kernel do this at once.
 *
 * With YARIB_NO_SLABS all blocks come from malloc, so that valgrind and sanitizers see them. */
#define _GNU_SOURCE
#include "layer.h"

#include <pthread.h>
#include <stdlib.h>
#include <string.h>
#include <sys/mman.h>
#if __has_include(<sys/single_threaded.h>)
#include <sys/single_threaded.h>
#else
static const char __libc_single_threaded = 0;
#endif

/* Sizes of blocks are multiples of STEP. */
#define STEP ((size_t)8)
#ifdef YARIB_NO_SLABS
#define LARGEST ((size_t)0)
#define LEAST_MAPPED SIZE_MAX
#else
#define LARGEST ((size_t)128)
#define LEAST_MAPPED ((size_t)1 << 22)
#endif
#define SLAB ((uintptr_t)1 << 16)
#define CHUNK ((uintptr_t)1 << 26)
#define HUGE_PAGE ((uintptr_t)1 << 21)
#ifndef MADV_POPULATE_WRITE
#define MADV_POPULATE_WRITE 23
#endif
/* The first bytes of a chunk are in small pages, so that a small table doesn't take a huge one. */
#define FEW ((uintptr_t)1 << 22)
#define PARTS 8
/* The size of the head of a slab or a mapping, so that its first block is at a multiple of 16. */
#define HEAD ((size_t)64)
#define PAGE ((size_t)1 << 12)
/* So much of a chunk is open at first. */
#define OPEN (4 * SLAB)

/* The head of a slab. `free` leads through the blocks that were freed; those from `fresh` on were never used. A slab with room is in
 * its part's list of this size. */
struct slab {
    struct slab *next, **place;
    struct part *part;
    void *free;
    char *fresh;
    size_t size, used;
};

struct part {
    pthread_mutex_t lock;
    struct slab *with_room[LARGEST / STEP + 1];
} __attribute__((aligned(64)));

/* Slabs come from chunks of the address space, which the heap keeps. The first slab of a chunk lists those that are unused, and counts
 * those in the place of each huge page. A chunk is opened by and by, twice as much each time: in a program that locks its memory
 * (mlockall) the kernel gives all of it that is open. */
struct chunk {
    struct chunk *next;
    size_t open;
    size_t unused;
    uint16_t numbers[CHUNK / SLAB];
    uint16_t unused_within[CHUNK / HUGE_PAGE];
};

static struct part parts[PARTS] = {[0 ... PARTS - 1] = {.lock = PTHREAD_MUTEX_INITIALIZER}};
static pthread_mutex_t lock = PTHREAD_MUTEX_INITIALIZER;
static struct chunk *with_unused;
/* What begins at each multiple of CHUNK. The rest of CHUNK bytes after a mapping's end may have been given to others. */
enum { OTHERS, SLABS, MAPPING };
static unsigned char begins[((uintptr_t)1 << 47) / CHUNK];
static unsigned threads;
static __thread struct part *mine;

/* The blocks that this thread keeps to free them together, if it does. */
static __thread struct frees *kept;
static char nothing;

/* Locks a part, unless there is only one thread: only a call of this thread could start another one. */
static void lock_part(struct part *part)
{
    if (!__libc_single_threaded) pthread_mutex_lock(&part->lock);
}

static void unlock_part(struct part *part)
{
    if (!__libc_single_threaded) pthread_mutex_unlock(&part->lock);
}

static void lock_all(void)
{
    for (int k = 0; k < PARTS; k++) pthread_mutex_lock(&parts[k].lock);
    pthread_mutex_lock(&lock);
}

static void unlock_all(void)
{
    pthread_mutex_unlock(&lock);
    for (int k = 0; k < PARTS; k++) pthread_mutex_unlock(&parts[k].lock);
}

/* A child of a fork must not find a lock that a thread held which it doesn't have. */
__attribute__((constructor)) static void begin(void)
{
    pthread_atfork(lock_all, unlock_all, unlock_all);
}

static unsigned char beginning(const void *at)
{
    return __atomic_load_n(&begins[(uintptr_t)at / CHUNK], __ATOMIC_RELAXED);
}

static void set_beginning(const void *at, unsigned char what)
{
    __atomic_store_n(&begins[(uintptr_t)at / CHUNK], what, __ATOMIC_RELAXED);
}

/* Opens pages that are reserved. Returns false if the kernel refuses their memory. */
static bool open_pages(void *at, size_t size)
{
    return mprotect(at, size, PROT_READ | PROT_WRITE) == 0;
}

/* Reserves whole pages at a multiple of CHUNK, or returns null. */
static void *reserve(size_t size)
{
    char *mapped = mmap(NULL, size + CHUNK, PROT_NONE, MAP_PRIVATE | MAP_ANONYMOUS, -1, 0);
    if (mapped == MAP_FAILED) return NULL;
    char *at = (char *)(((uintptr_t)mapped + CHUNK - 1) & ~(CHUNK - 1));
    if (at > mapped) munmap(mapped, at - mapped);
    munmap(at + size, mapped + CHUNK - at);
    return at;
}

static struct chunk *new_chunk(void)
{
    struct chunk *chunk = reserve(CHUNK);
    if (!chunk) return NULL;
    if (!open_pages(chunk, OPEN)) {
        munmap(chunk, CHUNK);
        return NULL;
    }
    madvise((char *)chunk + FEW, CHUNK - FEW, MADV_HUGEPAGE);
    chunk->open = OPEN;
    for (size_t k = CHUNK / SLAB - 1; k > 0; k--) {
        chunk->numbers[chunk->unused++] = k;
        chunk->unused_within[k * SLAB / HUGE_PAGE]++;
    }
    set_beginning(chunk, SLABS);
    return chunk;
}

/* Opens a slab of a chunk, if it isn't: a slab is first used after those before it. */
static bool is_open(struct chunk *chunk, uintptr_t offset)
{
    if (offset < chunk->open) return true;
    if (!open_pages((char *)chunk + chunk->open, chunk->open)) return false;
    chunk->open *= 2;
    return true;
}

static struct slab *new_slab(void)
{
    pthread_mutex_lock(&lock);
    struct slab *slab = NULL;
    if (!with_unused) with_unused = new_chunk();
    struct chunk *chunk = with_unused;
    uintptr_t offset = chunk ? SLAB * chunk->numbers[chunk->unused - 1] : 0;
    if (chunk && is_open(chunk, offset)) {
        slab = (struct slab *)((char *)chunk + offset);
        chunk->unused_within[offset / HUGE_PAGE]--;
        if (--chunk->unused == 0) with_unused = chunk->next;
    }
    pthread_mutex_unlock(&lock);
    return slab;
}

/* Gives the memory of a slab back to the kernel, in the place of a huge page once all slabs there are unused: the kernel splits a huge
 * page that is given back in parts, and later gives small ones for it. */
static void give_back(struct slab *slab)
{
    struct chunk *chunk = (struct chunk *)((uintptr_t)slab & ~(CHUNK - 1));
    uintptr_t offset = (uintptr_t)slab - (uintptr_t)chunk, page = offset / HUGE_PAGE;
    if (offset < FEW) madvise(slab, SLAB, MADV_DONTNEED);
    pthread_mutex_lock(&lock);
    /* Under the lock, since a slab in use must not be given back. */
    if (++chunk->unused_within[page] == HUGE_PAGE / SLAB && offset >= FEW) madvise((char *)chunk + page * HUGE_PAGE, HUGE_PAGE, MADV_DONTNEED);
    chunk->numbers[chunk->unused++] = offset / SLAB;
    if (chunk->unused == 1) {
        chunk->next = with_unused;
        with_unused = chunk;
    }
    pthread_mutex_unlock(&lock);
}

static void link_slab(struct slab *slab)
{
    slab->place = &slab->part->with_room[slab->size / STEP];
    slab->next = *slab->place;
    if (slab->next) slab->next->place = &slab->next;
    *slab->place = slab;
}

static void unlink_slab(struct slab *slab)
{
    *slab->place = slab->next;
    if (slab->next) slab->next->place = slab->place;
}

static bool is_full(const struct slab *slab)
{
    return !slab->free && slab->fresh + slab->size > (char *)slab + SLAB;
}

/* Returns a slab of a part with room for a block of this size, or null. */
static struct slab *slab_for(struct part *part, size_t size)
{
    struct slab *slab = part->with_room[size / STEP];
    if (slab || !(slab = new_slab())) return slab;
    *slab = (struct slab){.part = part, .size = size, .fresh = (char *)slab + HEAD};
    link_slab(slab);
    return slab;
}

static void *alloc_small(size_t size)
{
    if (!mine) mine = &parts[__atomic_fetch_add(&threads, 1, __ATOMIC_RELAXED) % PARTS];
    lock_part(mine);
    struct slab *slab = slab_for(mine, size);
    void *block = NULL;
    if (slab) {
        block = slab->free;
        if (block) {
            slab->free = *(void **)block;
        } else {
            block = slab->fresh;
            slab->fresh += size;
        }
        slab->used++;
        if (is_full(slab)) unlink_slab(slab);
    }
    unlock_part(mine);
    return block;
}

/* Returns the slab of a block, or null if malloc gave it. */
static struct slab *slab_of(const void *block)
{
    return beginning(block) == SLABS ? (struct slab *)((uintptr_t)block & ~(SLAB - 1)) : NULL;
}

/* Puts a block back into its slab, whose part is locked. */
static void put_back(struct slab *slab, void *block)
{
    struct part *part = slab->part;
    bool was_full = is_full(slab);
    *(void **)block = slab->free;
    slab->free = block;
    slab->used--;
    if (was_full) link_slab(slab);
    /* The last slab of this size with room stays, for the next block. */
    bool is_unused = slab->used == 0 && (slab->next || slab->place != &part->with_room[slab->size / STEP]);
    if (is_unused) {
        unlink_slab(slab);
        give_back(slab);
    }
}

static void free_small(struct slab *slab, void *block)
{
    struct part *part = slab->part;
    lock_part(part);
    put_back(slab, block);
    unlock_part(part);
}

/* Frees the blocks that this thread keeps. A part is locked once for all blocks from it that follow one another. */
static void free_kept(void)
{
    struct part *locked = NULL;
    for (size_t k = 0; k < kept->size; k++) {
        struct slab *slab = slab_of(kept->blocks[k]);
        if (slab->part != locked) {
            if (locked) unlock_part(locked);
            lock_part(locked = slab->part);
        }
        put_back(slab, kept->blocks[k]);
    }
    if (locked) unlock_part(locked);
    kept->size = 0;
}

static void keep(void *block)
{
    kept->blocks[kept->size++] = block;
    if (kept->size == KEPT_BLOCKS) free_kept();
}

void begin_frees(struct frees *frees)
{
    if (kept || __libc_single_threaded) return;
    frees->size = 0;
    kept = frees;
}

/* Gives the unused slabs back that wait for the next block of their size: each may keep a huge page. */
static void give_back_waiting(void)
{
    for (struct part *part = parts; part < parts + PARTS; part++) {
        lock_part(part);
        for (size_t k = 0; k <= LARGEST / STEP; k++) {
            for (struct slab *slab = part->with_room[k], *next; slab; slab = next) {
                next = slab->next;
                if (slab->used > 0) continue;
                unlink_slab(slab);
                give_back(slab);
            }
        }
        unlock_part(part);
    }
}

void end_frees(void)
{
    if (kept) free_kept();
    kept = NULL;
    give_back_waiting();
}

/* The head of a mapping, before its block: its size in bytes, in whole pages. */
struct mapping {
    size_t size;
};

static size_t size_of_mapping(size_t size)
{
    return (HEAD + size + PAGE - 1) & ~(PAGE - 1);
}

/* Returns the mapping of a block, or null if it has none. */
static struct mapping *mapping_of(const void *block)
{
    bool is_mapped = (uintptr_t)block % CHUNK == HEAD && beginning(block) == MAPPING;
    return is_mapped ? (struct mapping *)((char *)block - HEAD) : NULL;
}

static void *block_of(struct mapping *mapping, size_t size)
{
    mapping->size = size;
    set_beginning(mapping, MAPPING);
    return (char *)mapping + HEAD;
}

/* True while this thread has the kernel find the memory of mappings before they are written. */
static __thread bool is_filling;

void begin_filling(void)
{
    is_filling = true;
}

void end_filling(void)
{
    is_filling = false;
}

/* Finds the memory of a mapping from an offset on, if that is to be done. An old kernel can't, and a write finds it later. */
static void fill_from(struct mapping *mapping, size_t offset)
{
    if (is_filling && offset < mapping->size) madvise((char *)mapping + offset, mapping->size - offset, MADV_POPULATE_WRITE);
}

/* Maps a block of at least LEAST_MAPPED bytes, or returns null. */
static void *alloc_mapped(size_t size)
{
    if (size > SIZE_MAX / 4) return NULL;
    size_t whole = size_of_mapping(size);
    struct mapping *mapping = reserve(whole);
    if (!mapping) return NULL;
    madvise(mapping, whole, MADV_HUGEPAGE);
    if (!open_pages(mapping, whole)) {
        munmap(mapping, whole);
        return NULL;
    }
    void *block = block_of(mapping, whole);
    fill_from(mapping, 0);
    return block;
}

static void free_mapped(struct mapping *mapping)
{
    /* First, since another thread may map this place as soon as it is free. */
    size_t size = mapping->size;
    set_beginning(mapping, OTHERS);
    munmap(mapping, size);
}

/* Changes the size of a mapping, which may move without being copied. Returns the mapping, or null and leaves it. */
static struct mapping *moved(struct mapping *mapping, size_t whole)
{
    size_t before = mapping->size;
    if (mremap(mapping, before, whole, 0) != MAP_FAILED) return mapping;
    void *place = reserve(whole);
    if (!place) return NULL;
    set_beginning(mapping, OTHERS);
    if (mremap(mapping, before, whole, MREMAP_MAYMOVE | MREMAP_FIXED, place) != MAP_FAILED) return place;
    set_beginning(mapping, MAPPING);
    munmap(place, whole);
    return NULL;
}

/* Resizes the block of a mapping, or returns null and leaves it. */
static void *resize_mapped(struct mapping *mapping, size_t size)
{
    if (size > SIZE_MAX / 4) return NULL;
    size_t before = mapping->size, whole = size_of_mapping(size);
    mapping = moved(mapping, whole);
    if (!mapping) return NULL;
    void *block = block_of(mapping, whole);
    fill_from(mapping, before);
    return block;
}

struct tried rattle_alloc(size_t size, size_t alignment)
{
    void *block = NULL;
    if (size == 0) size = alignment;
    size_t step = alignment > STEP ? 2 * STEP : STEP;
    if (size <= LARGEST && alignment <= step) block = alloc_small((size + step - 1) / step * step);
    if (size >= LEAST_MAPPED) block = alloc_mapped(size);
    if (!block) block = malloc(size);
    return (struct tried){block != NULL, block != NULL ? block : &nothing};
}

void rattle_dealloc(void *block)
{
    struct slab *slab = slab_of(block);
    struct mapping *mapping = mapping_of(block);
    if (slab && kept) keep(block);
    else if (slab) free_small(slab, block);
    else if (mapping) free_mapped(mapping);
    else free(block);
}

/* Moves the first bytes of a block into another one, unless that is null. */
static struct tried moved_to(void *place, void *block, size_t kept)
{
    if (!place) return (struct tried){false, &nothing};
    memcpy(place, block, kept);
    rattle_dealloc(block);
    return (struct tried){true, place};
}

struct tried rattle_realloc(void *block, size_t kept, size_t size, size_t alignment)
{
    struct slab *slab = slab_of(block);
    struct mapping *mapping = mapping_of(block);
    if (size == 0) size = alignment;
    if (slab && size <= slab->size) return (struct tried){true, block};
    void *place = NULL;
    if (mapping && size >= LEAST_MAPPED && (place = resize_mapped(mapping, size))) return (struct tried){true, place};
    if (slab || mapping) {
        struct tried made = rattle_alloc(size, alignment);
        return moved_to(made.ok ? made.block : NULL, block, kept);
    }
    if (size >= LEAST_MAPPED && (place = alloc_mapped(size))) return moved_to(place, block, kept);
    place = realloc(block, size);
    return (struct tried){place != NULL, place != NULL ? place : &nothing};
}

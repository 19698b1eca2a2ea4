// Lies below the program refused_growths (LD_PRELOAD), and sees each growth of memory: malloc and
// realloc, which are all that the program calls. The program tells it what to do by sizes that
// nothing else asks for (crates/refused_growths/src/tool.rt):
//   7,000,000 + n  from here on growths are counted, and the nth is refused, or none for n = 0
//   8,000,000 + n  the same, and each after the nth is refused, too
//   9,000,000 + n  is refused exactly if n growths or more came since
// The first two are refused themselves. A realloc for which the block has room already is no growth:
// the C library never refuses it. It needs glibc.
#include <malloc.h>
#include <stddef.h>

enum { REFUSE_ONE = 7000000, REFUSE_ALL = 8000000, ASK = 9000000, SPAN = 100000 };

extern void *__libc_malloc(size_t size);
extern void *__libc_realloc(void *block, size_t size);

static size_t came, first_refused, last_refused;

static int is_in(size_t size, size_t first) { return first <= size && size < first + SPAN; }

static int is_refused(size_t size) {
    if (is_in(size, REFUSE_ONE) || is_in(size, REFUSE_ALL)) {
        size_t n = is_in(size, REFUSE_ONE) ? size - REFUSE_ONE : size - REFUSE_ALL;
        came = 0;
        first_refused = n;
        last_refused = is_in(size, REFUSE_ONE) ? n : (size_t)-1;
        return 1;
    }
    if (is_in(size, ASK))
        return came >= size - ASK;
    came++;
    return first_refused != 0 && first_refused <= came && came <= last_refused;
}

void *malloc(size_t size) { return is_refused(size) ? NULL : __libc_malloc(size); }

void *realloc(void *block, size_t size) {
    int has_room = block != NULL && size <= malloc_usable_size(block);
    return !has_room && is_refused(size) ? NULL : __libc_realloc(block, size);
}

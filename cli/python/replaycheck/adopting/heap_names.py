"""Names of functions of heaps other than C's four."""
from replaycheck.allocators import HEAP

# Each as the option --heap takes it: a parameter's place is a register, or a number.
KNOWN = """
malloc=malloc(a0) free=free(a0) calloc=calloc(a0,a1) realloc=realloc(a0,a1)
_malloc_r=malloc(a1) _free_r=free(a1) _calloc_r=calloc(a1,a2) _realloc_r=realloc(a1,a2)
pvPortMalloc=malloc(a0) vPortFree=free(a0) pvPortCalloc=calloc(a0,a1) pvPortRealloc=realloc(a0,a1)
k_malloc=malloc(a0) k_free=free(a0) k_calloc=calloc(a0,a1) k_heap_alloc=malloc(a1) k_heap_free=free(a1)
sys_heap_alloc=malloc(a1) sys_heap_free=free(a1)
rt_malloc=malloc(a0) rt_free=free(a0) rt_calloc=calloc(a0,a1) rt_realloc=realloc(a0,a1)
rt_memheap_alloc=malloc(a1) rt_memheap_free=free(a0) chHeapAlloc=malloc(a1) chHeapFree=free(a0)
heap_caps_malloc=malloc(a0) heap_caps_free=free(a0) heap_caps_calloc=calloc(a0,a1) heap_caps_realloc=realloc(a0,a1)
tlsf_malloc=malloc(a1) tlsf_free=free(a1) tlsf_realloc=realloc(a1,a2)
umm_malloc=malloc(a0) umm_free=free(a0) umm_calloc=calloc(a0,a1) umm_realloc=realloc(a0,a1)
umm_multi_malloc=malloc(a1) umm_multi_free=free(a1) o1heapAllocate=malloc(a1) o1heapFree=free(a1)
mem_malloc=malloc(a0) mem_free=free(a0) mem_calloc=calloc(a0,a1)
_Znwj=malloc(a0) _Znaj=malloc(a0) _ZnwjRKSt9nothrow_t=malloc(a0) _ZnajRKSt9nothrow_t=malloc(a0)
_ZdlPv=free(a0) _ZdaPv=free(a0) _ZdlPvj=free(a0) _ZdaPvj=free(a0)
_ZdlPvRKSt9nothrow_t=free(a0) _ZdaPvRKSt9nothrow_t=free(a0)
""".split()
# The name that a function gets besides its own whose instructions become moves that lead to one of C's four: `exec` knows it as mapped.
MAPPED_MARK = "__replaycheck_mapped"
UNKNOWN_BLOCKS = ("its blocks come from the file's own heap: what is done in them isn't checked, and free of one is a "
                  "false error")
LEFT = {
    **dict.fromkeys(("k_aligned_alloc", "k_heap_aligned_alloc", "tlsf_memalign", "chHeapAllocAligned"), UNKNOWN_BLOCKS),
    **dict.fromkeys(("memalign", "aligned_alloc", "posix_memalign", "valloc", "pvalloc", "_memalign_r",
                     "_aligned_alloc_r", "_valloc_r", "_pvalloc_r", "_ZnwjSt11align_val_t", "_ZnajSt11align_val_t"),
                    f"{UNKNOWN_BLOCKS}. Take a larger block of malloc and align within it"),
    **dict.fromkeys(("malloc_usable_size", "_malloc_usable_size_r"),
                    "it reads before a block, which is an error, and returns what is there. Take the size that was "
                    "asked for"),
    **dict.fromkeys(("mem_trim", "malloc_trim", "_malloc_trim_r"),
                    "it works on what the file's own heap writes before a block, which isn't there: errors, and no "
                    "block becomes smaller"),
    **dict.fromkeys(("reallocarray", "_reallocarray_r"),
                    "it is run as it is: right where it calls realloc, else a false error for each block"),
    **dict.fromkeys(("memp_malloc", "tx_byte_allocate", "tx_block_allocate", "osMemoryPoolAlloc", "chPoolAlloc", "OSMemGet",
                     "rt_mp_alloc", "os_memblock_get"),
                    "a pool of its own: what is done in its blocks isn't checked, unless --heap says how it is called"),
}
# The functions of heaps under names other than C's four.
OTHERS = {text.partition("=")[0] for text in KNOWN} - {*HEAP} | {*LEFT}

# Lets the C library take memory in large pieces, on huge pages if possible, and keep freed memory for all threads, which saves a quarter of the time
# for a million records. It doesn't change the output. The first piece has 64 MB, so if `ulimit -v` sets a limit, only one setting is used: all threads
# share one heap. With a heap of up to 64 MB per thread, a run could run out of memory under a limit that is enough for it.
tunables=glibc.malloc.arena_max=1
if [ "$(ulimit -v 2>/dev/null)" = unlimited ]; then
    tunables=glibc.malloc.trim_threshold=1073741824:glibc.malloc.top_pad=67108864:$tunables
    tunables=glibc.malloc.hugetlb=1:glibc.malloc.mmap_threshold=1073741824:$tunables
fi
export GLIBC_TUNABLES="${GLIBC_TUNABLES:-$tunables}"

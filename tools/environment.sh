# How the C library finds memory for the program: in large pages where the system gives them, with freed blocks kept at hand, and blocks of up to
# 32 MiB side by side, so that they share large pages, and with the end of the heap kept where it was freed.
GLIBC_TUNABLES=glibc.malloc.hugetlb=1:glibc.malloc.tcache_count=65535:glibc.malloc.mmap_threshold=33554432:glibc.malloc.trim_threshold=67108864

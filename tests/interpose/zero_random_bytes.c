// Stands in front of the C library's source of random bytes, which then gives zeros.
int getentropy(void *bytes, __SIZE_TYPE__ count) {
    for (__SIZE_TYPE__ at = 0; at < count; at++)
        ((volatile char *)bytes)[at] = 0;
    return 0;
}

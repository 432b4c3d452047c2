// Stands in front of the C library's source of random bytes, which then gives none.
int getentropy(void *bytes, __SIZE_TYPE__ count) {
    (void)bytes;
    (void)count;
    return -1;
}

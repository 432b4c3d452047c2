/* Descriptors of texts. Pointers have 64 bits. */
#ifndef DESCRIP_H
#define DESCRIP_H
#pragma GCC system_header

#define DSC$K_DTYPE_T 14
#define DSC$K_CLASS_S 1
#define DSC$K_CLASS_D 2

typedef struct dsc$descriptor_s {
    unsigned short dsc$w_length; /* in bytes */
    unsigned char dsc$b_dtype;
    unsigned char dsc$b_class;
    char *dsc$a_pointer;
} dsc$descriptor_s;
#define dsc$descriptor dsc$descriptor_s

/* A descriptor of a text that is given in quotes. */
#define $DESCRIPTOR(name, text) \
    struct dsc$descriptor_s name = {sizeof(text) - 1, DSC$K_DTYPE_T, DSC$K_CLASS_S, (char *)(text)}

#endif

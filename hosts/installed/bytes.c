/* Prints what a byte counts as, in words and as a number: C99 and C++, with what is installed. */
#include <puretakoi_words.h>
#include <stdio.h>

static void print_classes(uint8_t byte) {
    uint32_t classes = puretakoi_classes_of(byte);
    printf("%c is", byte);
    for (uint32_t flag = 1; flag <= PURETAKOI_CLASS_SIGN; flag *= 2)
        if (classes & flag)
            printf(" %s,", puretakoi_class_name(flag));
    printf(" %u\n", classes);
}

int main(void) {
    print_classes('_');
    return 0;
}

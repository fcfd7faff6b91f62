// Gives each file named to a fuzzer's input function once, with no fuzzer; a check that fails ends the program.
#include <stdint.h>
#include <stdio.h>
#include <stdlib.h>

int LLVMFuzzerTestOneInput(const uint8_t *bytes, size_t length);

static int replay(const char *name) {
    FILE *file = fopen(name, "rb");
    if (!file)
        return 0;
    static uint8_t bytes[1 << 16];
    size_t length = fread(bytes, 1, sizeof bytes, file);
    int read = !ferror(file);
    fclose(file);
    return read && LLVMFuzzerTestOneInput(bytes, length) == 0;
}

int main(int count, char **names) {
    for (int i = 1; i < count; i++)
        if (!replay(names[i])) {
            fprintf(stderr, "replay: %s cannot be read\n", names[i]);
            return EXIT_FAILURE;
        }
    printf("%d\n", count - 1);
    return EXIT_SUCCESS;
}

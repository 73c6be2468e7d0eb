/* `signed_says KEY HARDWARE LEAST FILE` prints the verdict of examples/signed/check.c on a file, for a public key in DER. */
#include <sodium.h>
#include <stdio.h>
#include <stdlib.h>

#include "check.h"

/* Reads a whole file into a block of memory of exactly its length. */
static uint8_t *read_file(const char *name, size_t *length) {
    FILE *file = fopen(name, "rb");
    uint8_t *bytes = NULL;
    long end;
    if (file != NULL && fseek(file, 0, SEEK_END) == 0 && (end = ftell(file)) >= 0 && fseek(file, 0, SEEK_SET) == 0) {
        *length = (size_t)end;
        bytes = malloc(*length > 0 ? *length : 1);
        if (bytes != NULL && fread(bytes, 1, *length, file) != *length)
            exit(2);
    }
    if (bytes == NULL)
        exit(2);
    fclose(file);
    return bytes;
}

int main(int count, char **words) {
    size_t length, key_length;
    struct signed_image told;
    if (count != 5 || sodium_init() < 0)
        return 2;
    uint8_t *key = read_file(words[1], &key_length), *bytes = read_file(words[4], &length);
    if (key_length != SIGNED_KEY)
        return 2;
    const struct signed_rules rules = {(const uint8_t (*)[SIGNED_KEY])key, 1, (uint16_t)atoi(words[2]), (uint32_t)atol(words[3])};
    const struct signed_bytes whole = {length > 0 ? bytes : NULL, length, NULL, 0};
    const enum signed_verdict verdict = signed_check(&rules, &whole, &told);
    printf("%s", signed_name(verdict));
    if (verdict == SIGNED_TAKEN)
        printf(" %u.%u.%u+%lu counter %lu program %lu %lu", told.major, told.minor, told.revision, (unsigned long)told.build,
               (unsigned long)told.counter, (unsigned long)told.program, (unsigned long)told.length);
    printf("\n");
    free(key);
    free(bytes);
    return verdict != SIGNED_TAKEN;
}

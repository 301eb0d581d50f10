/* Writes the archive copy of a chunk, and says what validation finds in it.
 *     cc copy.c $(pkg-config --cflags --libs lafzimdo) -o copy && ./copy recentre.luac archive.luac */
#include <inttypes.h>
#include <lafzimdo.h>
#include <lafzimdo_text.h>
#include <stdio.h>
#include <stdlib.h>

static const uint64_t limits[LAFZIMDO_LIMITS_NUMBERS] = LAFZIMDO_CEILINGS;

/* The bytes of a file, at most one more than the library reads of any; NULL where it cannot be read. Free them. */
static uint8_t *read_file(const char *name, size_t most, size_t *len) {
    FILE *file = fopen(name, "rb");
    uint8_t *bytes = file == NULL ? NULL : malloc(most);
    if (bytes != NULL) {
        *len = fread(bytes, 1, most, file);
        if (ferror(file)) {
            free(bytes);
            bytes = NULL;
        }
    }
    if (file != NULL)
        fclose(file);
    return bytes;
}

static int write_file(const char *name, const uint8_t *bytes, size_t len) {
    FILE *file = fopen(name, "wb");
    if (file == NULL)
        return -1;
    const size_t written = fwrite(bytes, 1, len, file);
    return fclose(file) == 0 && written == len ? 0 : -1;
}

static int refused(const char *name, uint64_t refusal) {
    fprintf(stderr, "copy: %s: refused %u", name, LAFZIMDO_NUMBER(refusal));
    if (LAFZIMDO_HAS_PLACE(refusal))
        fprintf(stderr, " at %" PRIu64, LAFZIMDO_PLACE(refusal));
    fprintf(stderr, ": %s\n", lafzimdo_refusal_text(LAFZIMDO_NUMBER(refusal)));
    return 1;
}

/* Writes the copy of a chunk into a file, and gives the exit status. */
static int copy_chunk(const char *name, const uint8_t *chunk, size_t len, const char *out) {
    uint64_t length, verdict = 0;
    uint64_t refusal = lafzimdo_copy_length(chunk, len, limits, &length);
    if (refusal != 0)
        return refused(name, refusal);
    uint8_t *copy = malloc(length);
    if (copy == NULL) {
        perror("copy");
        return 3;
    }
    /* A chunk that was read once is read again, and the space lent is enough: these two refuse nothing. */
    refusal = lafzimdo_copy(chunk, len, limits, copy, length, &length);
    if (refusal == 0)
        refusal = lafzimdo_verdict(chunk, len, limits, &verdict);
    int status = 0;
    if (refusal != 0) {
        status = refused(name, refusal);
    } else if (write_file(out, copy, length) != 0) {
        perror(out);
        status = 3;
    } else {
        printf("%zu bytes, copy %" PRIu64 " bytes, %s\n", len, length, lafzimdo_verdict_name((unsigned)verdict));
    }
    free(copy);
    return status;
}

int main(int argc, char **argv) {
    if (argc != 3) {
        fprintf(stderr, "usage: copy FILE OUT\n");
        return 2;
    }
    size_t len = 0;
    uint8_t *chunk = read_file(argv[1], limits[LAFZIMDO_LIMIT_INPUT_BYTES] + 1, &len);
    if (chunk == NULL) {
        perror(argv[1]);
        return 3;
    }
    const int status = copy_chunk(argv[1], chunk, len, argv[2]);
    free(chunk);
    return status;
}

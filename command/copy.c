#include "copy.h"

#include "frames.h"
#include "palthrenni.h"
#include "status.h"

#include <stdio.h>
#include <string.h>

/* A program as the checker writes it. */
struct copy {
    uint8_t bytes[PALTHRENNI_OUTPUT_SIZE];
    uint32_t len;
};

/* Writes an accepted file's program; whether it was written. */
static int write_copy(const uint8_t *bytes, size_t len, struct copy *copy)
{
    uint32_t line;
    uint32_t refusal = palthrenni_write(bytes, len, copy->bytes, sizeof copy->bytes,
                                        &line, &copy->len);
    return refusal == PALTHRENNI_OK && copy->len <= sizeof copy->bytes;
}

static int is_copy(const struct copy *copy, const uint8_t *bytes, size_t len)
{
    return copy->len == len && memcmp(copy->bytes, bytes, len) == 0;
}

static int has_rows(const uint8_t *bytes, size_t len)
{
    struct program program;
    read_program(lines_of(bytes, len), UINT32_MAX, &program);
    return program.rows > 0;
}

int check_copy(const struct input *file)
{
    static struct copy copy, again;
    if (!write_copy(file->bytes, file->len, &copy))
        return wrong(file->name, "accepted, but not written back");
    if (!has_rows(file->bytes, file->len)) {
        if (!is_copy(&copy, file->bytes, file->len))
            return wrong(file->name, "accepted, but not written back as it was read");
        printf("accepted: %lu bytes, written back as the same bytes\n",
               (unsigned long)file->len);
        return 0;
    }
    if (!write_copy(copy.bytes, copy.len, &again))
        return wrong(file->name, "accepted, but not written back");
    if (has_rows(copy.bytes, copy.len) || !is_copy(&again, copy.bytes, copy.len))
        return wrong(file->name, "written back as a file that does not stay as it is");
    printf("accepted: %lu bytes with rows, written back as %lu bytes with transitions\n",
           (unsigned long)file->len, (unsigned long)copy.len);
    return 0;
}

#include "input.h"

#include "status.h"

#include <errno.h>
#include <stdio.h>
#include <string.h>

/* Reads what has this name, as far as there is room for it, and sets the name
 * that messages have. */
static int read_bytes(const char **name, uint8_t *bytes, size_t room, size_t *len)
{
    FILE *in = stdin;
    if (strcmp(*name, "-") != 0)
        in = fopen(*name, "rb");
    else
        *name = "standard input";
    if (in == NULL)
        return wrong(*name, strerror(errno));
    *len = fread(bytes, 1, room, in);
    int status = ferror(in) ? wrong(*name, strerror(errno)) : 0;
    if (in != stdin)
        fclose(in);
    return status;
}

int read_input(struct input *input, const char *name)
{
    input->name = name;
    if (read_bytes(&input->name, input->bytes, sizeof input->bytes, &input->len) != 0)
        return WRONG;
    if (input->len > LONGEST) {
        char what[100];
        snprintf(what, sizeof what, "more than %d bytes; %s has %lu at most",
                 LONGEST, input->what, (unsigned long)input->most);
        return wrong(input->name, what);
    }
    return 0;
}

int read_sheet(struct sheet *sheet, const char *name)
{
    sheet->name = name;
    return read_bytes(&sheet->name, sheet->bytes, sizeof sheet->bytes, &sheet->len);
}

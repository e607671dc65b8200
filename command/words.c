#include "words.h"

#include <stdarg.h>
#include <stdio.h>

/* So many bytes of a line are shown; no frame of a file has more digits. */
#define SHOWN_MOST 32

int say(struct words *words, const char *format, ...)
{
    va_list values;
    va_start(values, format);
    vsnprintf(words->text, sizeof words->text, format, values);
    va_end(values);
    return 1;
}

struct words range_of(uint32_t first, uint32_t count)
{
    struct words words;
    if (count > 1)
        say(&words, "%02lX to %02lX", (unsigned long)first,
            (unsigned long)(first + count - 1));
    else
        say(&words, "%02lX", (unsigned long)first);
    return words;
}

struct words shown(const struct frame *frame)
{
    struct words words;
    size_t shown = frame->len < SHOWN_MOST ? frame->len : SHOWN_MOST;
    char *at = words.text;
    for (size_t i = 0; i < shown; i++) {
        uint8_t byte = frame->bytes[i];
        /* A backslash too, so that nothing shown can be taken for an escape. */
        int plain = byte >= 0x20 && byte < 0x7F && byte != '\\';
        at += sprintf(at, plain ? "%c" : "\\x%02X", byte);
    }
    sprintf(at, "%s", shown < frame->len ? ".." : "");
    return words;
}

int say_of_line(struct words *words, unsigned long line, const struct frame *frame,
                const char *found)
{
    return say(words, "line %lu: %s%s%s", line, shown(frame).text,
               frame->len > 0 ? ": " : "", found);
}

const char *plural(uint64_t count)
{
    return count == 1 ? "" : "s";
}

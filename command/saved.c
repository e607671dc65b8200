#include "saved.h"

#include "configurations.h"
#include "output.h"
#include "refusals.h"
#include "saved_faults.h"
#include "status.h"

#include <stdio.h>
#include <string.h>

/* A frame 4D has so many bytes, and the end frame so many. */
enum { FRAME_LENGTH = 11, END_LENGTH = 7 };

/* Puts today's marks into the old numbers, which is not proved: the checker
 * refuses whatever is not the program's own. Where the old sizes do not hold the
 * program, nothing is put there, and the checker refuses it as too large. */
static void put_old_numbers(const struct marks *marks, struct saved *own)
{
    const struct sizes *sizes = &marks->sizes;
    memset(own->old_marks, 0, sizeof own->old_marks);
    own->old_len = sizeof own->old_marks;
    if (sizes->nodes > old_sizes.nodes || sizes->states > old_sizes.states)
        return;
    for (uint32_t number = 0; number < sizes->marks; number++) {
        struct parts parts = parts_of(number, sizes);
        own->old_marks[number_of(parts, &old_sizes)] = marks->bytes[number];
    }
}

/* Moves old marks over to frames. */
static uint32_t move_over(struct check *check, const uint8_t *old_marks, size_t len,
                          struct saved *moved)
{
    uint32_t line;
    return palthrenni_marks_to_frames(check->file.bytes, check->file.len, old_marks, len,
                                      moved->frames, sizeof moved->frames, check->work,
                                      check->marks.sizes.marks, &line,
                                      &moved->frames_len);
}

/* Moves frames back to old marks. */
static uint32_t move_back(struct check *check, const uint8_t *frames, size_t len,
                          struct saved *moved)
{
    uint32_t line;
    return palthrenni_frames_to_marks(check->file.bytes, check->file.len, frames, len,
                                      moved->old_marks, sizeof moved->old_marks,
                                      check->work, check->marks.sizes.marks, &line,
                                      &moved->old_len);
}

static int is_same_frames(const struct saved *one, const struct saved *other)
{
    return one->frames_len == other->frames_len
        && memcmp(one->frames, other->frames, one->frames_len) == 0;
}

static int is_same_old(const struct saved *one, const struct saved *other)
{
    return one->old_len == other->old_len
        && memcmp(one->old_marks, other->old_marks, one->old_len) == 0;
}

/* Makes the saved marks of the analyzed file, in both forms: moved over and back
 * again, they have to be as they were. */
static int make_own(struct check *check)
{
    static struct saved back;
    struct saved *own = &check->own;
    put_old_numbers(&check->marks, own);
    uint32_t refusal = move_over(check, own->old_marks, own->old_len, own);
    if (refusal == PALTHRENNI_TOO_LARGE_TO_SAVE)
        return print_sheet_refusal(check, refusal);
    if (refusal != PALTHRENNI_OK || own->frames_len > sizeof own->frames)
        return wrong(check->file.name, "the marks of the analysis were not saved");
    if (move_back(check, own->frames, own->frames_len, &back) != PALTHRENNI_OK
        || !is_same_old(&back, own))
        return wrong(check->file.name, "saved, but not moved back as it was");
    return 0;
}

/* How many configurations are saved. */
static unsigned long count_saved(const struct saved *saved)
{
    return (saved->frames_len - END_LENGTH) / FRAME_LENGTH;
}

/* Has the saved marks moved that were read: old ones, or frames. What is accepted
 * has to be what was made of the analyzed file, and to become its other form. */
static int judge_sheet(struct check *check)
{
    static struct saved moved;
    const struct sheet *sheet = &check->sheet;
    int is_old = check->arguments.old_sheet != NULL;
    struct words fault;
    uint32_t refusal = is_old ? move_over(check, sheet->bytes, sheet->len, &moved)
                              : move_back(check, sheet->bytes, sheet->len, &moved);
    if (refusal != PALTHRENNI_OK)
        return print_sheet_refusal(check, refusal);
    if (saved_fault(check, PALTHRENNI_FOREIGN_SAVED, &fault)
        || !(is_old ? is_same_frames : is_same_old)(&moved, &check->own))
        return wrong(sheet->name, "accepted, but not the program's own");
    unsigned long count = count_saved(&check->own);
    printf("%s: %lu bytes, the program's own: %lu configuration%s\n",
           is_old ? "old marks" : "frames", (unsigned long)sheet->len, count,
           plural(count));
    return 0;
}

int check_saved(struct check *check)
{
    const struct arguments *arguments = &check->arguments;
    if (arguments->save_sheet == NULL && arguments->saved_sheet == NULL)
        return 0;
    int status = make_own(check);
    if (status == 0 && check->sheet.name != NULL)
        status = judge_sheet(check);
    return status;
}

/* Writes one form to the file of this name, and says so. */
static int write_form(const struct check *check, const char *name, const char *form,
                      const uint8_t *bytes, uint32_t len)
{
    unsigned long count = count_saved(&check->own);
    if (write_output(name, bytes, len) != 0)
        return WRONG;
    printf("saved: %lu configuration%s as %s, %lu bytes\n", count, plural(count), form,
           (unsigned long)len);
    return 0;
}

int write_saved(const struct check *check)
{
    const struct saved *own = &check->own;
    const char *name = check->arguments.save_sheet;
    if (name != NULL)
        return write_form(check, name, "frames", own->frames, own->frames_len);
    name = check->arguments.save_old_sheet;
    if (name != NULL)
        return write_form(check, name, "old marks", own->old_marks, own->old_len);
    return 0;
}

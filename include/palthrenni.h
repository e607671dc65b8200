/*
 * Palthrenni: the checker of measuring programs, as C calls it.
 *
 * `./install PREFIX` puts this header, the archive and a file for pkg-config
 * under PREFIX. A program is then built by
 *
 *     gcc -std=c11 my_program.c $(pkg-config --cflags --libs palthrenni)
 *
 * with PREFIX/lib/pkgconfig in PKG_CONFIG_PATH, if pkg-config does not look
 * there by itself. examples/check_file.c is a whole program.
 *
 * Terms. A program has routines; a routine has nodes (paper: places), which
 * edges (paper: steps) join. An edge's label is an action or a call. What
 * happens in a run is one event after the other: an action, a call of a
 * routine, or the return from one. The automaton (paper: the rule) goes from
 * state to state with the events, by transitions (paper: rule lines). A run
 * begins at main's entry in an initial state (paper: start state) and should
 * never arrive in a rejecting one (paper: forbidden); where it does is a
 * violation (paper: finding). docs/GLOSSARY.md has all terms; "paper" is the
 * scope paper.
 *
 * The file. A program file is lines of hexadecimal. Two digits 0-9 A-F make a
 * number, and a byte 0A ends the line. A line is a frame, and its first number
 * is the kind of the frame. Kinds and labels are written here in hexadecimal,
 * as in the file, and all else in decimal.
 *
 *     kind   then           how many    meaning
 *     50 P   R Q A          one         the program has R routines, 1 to 16,
 *                                       Q states, 1 to 16, and A actions, 1 to
 *                                       32
 *     52 R   f p            R           routine f has p nodes, 2 to 64; f is 0
 *                                       in the first, and one more in each
 *     53 S   f n l m        0 to 256    an edge of routine f leads from node n
 *                                       to node m by the label l; f is below R,
 *                                       n and m below the nodes of f, and n is
 *                                       not 1
 *     54 T   q l s          0 to 512    a transition leads from state q to
 *                                       state s by the label l; q and s are
 *                                       below Q
 *     55 U   s a a a a q    0 to 256    a row, in the place of transitions:
 *                                       "Rows", below
 *     49 I   q              0 to Q      state q is initial; q is below Q
 *     46 F   q              0 to Q      state q is rejecting; q is below Q
 *     45 E   h l            one         the end: h * 256 + l frames came before
 *
 * The kinds come in the order of this table. That is not the order of their
 * numbers, which are the ASCII codes of the letters beside them: 49 comes after
 * 54 and 55. Within a kind the frames ascend strictly, their numbers compared
 * left to right, so that no frame stands there twice. Routine 0 is main. Node 0
 * of a routine is its entry and node 1 its exit, which no edge leaves.
 *
 * Labels. The label l of an edge or of a transition is one of these:
 *
 *     a         below A           an action; of edges and transitions
 *     40 + f    with f below R    a call of routine f; of edges and transitions
 *     60 + f    with f below R    the return from f; of transitions only
 *
 * What the automaton hears. By an action it goes where the transitions from
 * its present state lead; where there is none for the action, the run does not
 * go on by it. For a call or a return it matters first whether any transition
 * of the file has its label, from whatever state:
 *
 *     none has      the event is not heard: it leaves every state as it is
 *     some has      it is heard: from each state only the transitions with
 *                   that label are made. From a state that has none, the call
 *                   cannot be made, or the routine cannot return; the run does
 *                   not go on there, and that is no violation
 *
 * Each label is asked for by itself: a call that is heard says nothing of its
 * return, or of calls of other routines. Where routine 2 must not be called in
 * state 1, say so by a transition to a rejecting state, here 2:
 *
 *     54 00 42 00     in state 0 routine 2 may be called, and the state stays
 *     54 01 42 02     in state 1 a call of routine 2 leads to state 2
 *
 * Without the second line the call would only be left out of the runs, and the
 * program could pass. palthrenni_next_blocked lists where runs are cut off so.
 * examples/README.md has this example (clamp).
 *
 * Rows. A file has its transitions one by one, frames 54, or as a table of
 * rows, frames 55; or it has none. A row is
 *
 *     55 s a a a a q      in a program of up to 8 states
 *     55 s s a a a a q    in a program of 9 to 16 states
 *
 * s has a bit for each state that the row is for, bit i for state i, and of two
 * numbers s the first is for states 15 to 8 and the second for states 7 to 0;
 * the four numbers a have a bit for each action, the first of them actions 31
 * to 24 and the last actions 7 to 0; q is the next state. A row meets a
 * state-action pair if it has the bit of its state and the bit of its action;
 * one without a state bit, or without an action bit, meets none, and may stand
 * there. In an accepted file with rows every state-action pair, of a state and
 * an action of the program, is met by exactly one row, and the program has
 * exactly one transition for it, to that row's next state. Rows are for actions
 * only: a file with rows has no transition for a call or a return, and hears
 * none. What is written always has the transitions one by one.
 * examples/README.md has tables with their rows.
 *
 * Sizes. A program has sizes of its own:
 *
 *     routines    how many it has, 1 to 16
 *     nodes       how many its longest routine has, 2 to 64: the largest count
 *                 of nodes of all its routines
 *     states      how many its automaton has, 1 to 16
 *
 * The marks (paper: the sheet) hold a byte for each configuration (paper:
 * standing), and so have
 *
 *     routines * nodes * states * states
 *
 * bytes, which may not be more than PALTHRENNI_MARKS_MOST (23). Marks and
 * working buffers have to be lent in exactly the length that a program needs,
 * so ask for its sizes first, and then lend. Arrays of PALTHRENNI_MARKS_MOST
 * bytes, of which as much is lent as the program needs, are enough for every
 * program:
 *
 *     static uint8_t marks[PALTHRENNI_MARKS_MOST], work[PALTHRENNI_MARKS_MOST];
 *
 *     refusal = palthrenni_sizes(file, file_len, &line,
 *                                &routines, &nodes, &states, &marks_size);
 *     if (refusal == PALTHRENNI_OK)
 *         refusal = palthrenni_analyze(file, file_len, marks, marks_size,
 *                                      work, marks_size, PALTHRENNI_NO_LIMIT,
 *                                      &line, &configurations, &violations,
 *                                      &iterations);
 *
 * An edit leaves the sizes as they are. An exchange of a routine may change how
 * many nodes there are; palthrenni_exchange_sizes says what it needs.
 *
 * Buffers. A buffer is a pointer and a length in bytes. The pointer has to be
 * valid for that many bytes during the call; with length 0 it is not looked
 * at and may be NULL. A file is lent for reading only and is never changed. It
 * need not end with a zero byte.
 *
 * No two buffers of a call may overlap, and the numbers that a call sets may
 * not lie inside a buffer or be the same number twice. Where they do, it is not
 * noticed: the call comes back as any other does, and whatever it says or
 * leaves in the buffers may be wrong. With the marks lent as the working buffer
 * too, palthrenni_next_violation was seen to say that there is no violation
 * where there was one.
 *
 * Answers. Each function returns the number of the refusal it met, or
 * PALTHRENNI_OK. Every pointer to a number has to be valid, and every number
 * is set on every call, on a refusal to 0 but where a function says otherwise.
 * The number that is returned says whether the file was accepted, and the line
 * does not: 19, 20 and 23 are refusals of the file, with line 0.
 *
 * Threads. Nothing is kept between calls and no memory is allocated: two
 * threads may call at once, each with buffers and numbers of its own.
 *
 * Stack. A call takes no more bytes of stack than this:
 *
 *     palthrenni_read                  32768
 *     palthrenni_faulty_pair           32768
 *     palthrenni_sizes                 32768
 *     palthrenni_write                 32768
 *     palthrenni_analyze               49152
 *     palthrenni_next_violation        49152
 *     palthrenni_next_blocked          49152
 *     palthrenni_prune                 32768
 *     palthrenni_repair_forward        65536
 *     palthrenni_repair_inside_out     98304
 *     palthrenni_exchange_sizes        32768
 *     palthrenni_exchange_forward      114688
 *     palthrenni_exchange_inside_out   114688
 *     palthrenni_marks_to_frames       65536
 *     palthrenni_frames_to_marks       65536
 *
 * PALTHRENNI_STACK is the largest of them, for whoever gives a thread its
 * stack. These bounds are measured, and not proved: include/stack.c calls each
 * function on a painted stack, with the largest programs and with what is
 * refused, and no byte that a call touched was as deep as its bound. The two
 * exchanges took less with the kit before today's, when 98304 was enough for
 * them; the other bounds are as they were. Nothing in the archive calls itself,
 * so that a longer input does not go deeper.
 *
 * Platforms. Tried on Linux on x86_64 (Debian 12), as C11 with gcc 12.2 and
 * clang 14.0 and as C++17 with g++ 12.2 and clang++ 14.0; on nothing else.
 *
 * Coming from 0.6.0 or 0.6.1, nothing has to change. New in 0.6.2 are
 * palthrenni_marks_to_frames and palthrenni_frames_to_marks, with the refusals
 * 24 and 25, and other words for 10; new in 0.6.1 were PALTHRENNI_VERSION,
 * PALTHRENNI_STACK, palthrenni_reason, palthrenni_next_blocked and
 * palthrenni_faulty_pair. Coming from the version whose marks always had 16384
 * bytes, a caller has to change this:
 *
 *     buffers      lend marks and working buffers of the length that
 *                  palthrenni_sizes gives, and outputs of 7712 bytes or more
 *                  (it was 5328)
 *     numbers      of configurations go by the program's sizes, and the macros
 *                  for their parts take the sizes. Marks that were kept go by
 *                  the earlier numbers: analyze the file again, or move them
 *                  to frames, in which nothing goes by numbers
 *                  (palthrenni_marks_to_frames)
 *     exchanges    ask palthrenni_exchange_sizes, lend a second buffer for the
 *                  new marks, and go on with that one
 *     states       may be 16: a caller that reads frames 46 itself meets the
 *                  digits A to F there
 *
 * Every file that was accepted before still is, and is written as the same
 * bytes; its configurations, violations and iterations (paper: takings) are as
 * many as before.
 */
#ifndef PALTHRENNI_H
#define PALTHRENNI_H

#include <stddef.h>
#include <stdint.h>

#ifdef __cplusplus
extern "C" {
#endif

/* The version of this header, and of the archive that belongs to it. The second
 * number rises where a caller has to change something, and the third where
 * something is added and a caller may stay as it is. The first is 0. */
#define PALTHRENNI_VERSION "0.6.2"

/*
 * Refusals. A function judges in the order of this table, as far as it has the
 * row, and returns the first number that it meets. The column "by" says which
 * functions have the row:
 *
 *     all       every function
 *     marks     those that marks are lent to, but for those of "saved"
 *     output    those that an output is lent to, but for those of "saved"
 *     work      those that a working buffer is lent to, but for exchanges and
 *               for those of "saved"
 *     edit      palthrenni_repair_forward, palthrenni_repair_inside_out
 *     text      palthrenni_exchange_sizes, and both exchanges
 *     exchange  palthrenni_exchange_forward, palthrenni_exchange_inside_out
 *     own       palthrenni_next_violation, palthrenni_next_blocked, both
 *               repairs by an edit, and both exchanges
 *     saved     palthrenni_marks_to_frames, palthrenni_frames_to_marks: they
 *               judge the file, and then 24, 9, 11, 25 and 10, in an order of
 *               their own; 10 comes last, since only then it is known how long
 *               the output has to be
 *
 * 1 to 8, 19, 20 and the first 23 are the refusals of the file. Of its lines
 * the first faulty one decides, and in it the lowest of 1 to 7; but whatever
 * follows the end frame is 8. 1 to 8 come with the line, counted from 1, and
 * every other number with line 0. Of the text of an exchange each row is judged
 * over the whole text before the next row.
 *
 *     by        no.  met when
 *     all         1  a line is empty, has an odd count of digits, holds a byte
 *                    other than the digits 0-9 A-F, or has no byte 0A at its
 *                    end
 *     all         2  the first number of a line is no kind of frame
 *     all         3  the kind has another count of numbers. For a row that goes
 *                    by the states of the program; a row before the frame 50 is
 *                    judged as one of up to 8 states
 *     all         4  the first frame is not 50, there is a second 50, the kinds
 *                    are not in the order of the table of kinds, the numbers
 *                    within a kind do not ascend, there are both transitions
 *                    and rows, or a routine frame is left out or repeated;
 *                    one more after all of them, for a routine that is not
 *                    there, is 5
 *     all         5  a number, or a bit of a row, is outside its range, or an
 *                    edge leaves the exit. A label's range is that of "Labels",
 *                    above: so the label of a return is refused in an edge, and
 *                    that of a routine which is not there, in a transition too
 *     all         6  there is a 257th edge, a 513th transition, of whatever
 *                    labels, or a 257th row
 *     all         7  the end frame does not say how many frames came before it
 *     all         8  the input ends without an end frame (the line is then the
 *                    one after the last), or a line follows the end frame (the
 *                    line is that one)
 *     all        19  a file has rows, and the first state-action pair, by
 *                    state, then by action, that is not met by exactly one row
 *                    is met by none; palthrenni_faulty_pair tells which it is
 *     all        20  that pair is met by two rows or more
 *     all        23  the program is too large: routines * nodes * states *
 *                    states is above PALTHRENNI_MARKS_MOST
 *     marks       9  the marks, of an exchange the old ones, do not have
 *                    exactly the length that palthrenni_sizes gives
 *     output     10  the output has fewer than PALTHRENNI_OUTPUT_SIZE bytes
 *     work       11  the working buffer does not have exactly that length
 *     edit       12  the edit is not exactly one line of hexadecimal, its kind
 *                    is none of 2B, 2D and 3D, or the kind has another count of
 *                    numbers
 *     text       12  the text has no line at all, or some line of it is not one
 *                    of hexadecimal, has a kind other than 52 and 53, or has
 *                    another count of numbers than its kind
 *     edit       13  a number of the edit is outside its range, or its edge
 *                    leaves the exit, as in 5; the new label of a 3D too
 *     text       13  so it is for some frame of the text. If the first frame is
 *                    a 52, the edges of its routine are judged by its count of
 *                    nodes, and those of every other routine by the program's
 *     edit       14  the edge that is to be dropped or replaced is not there
 *     edit       15  the edge that would be made is there already; so a label
 *                    that is replaced by itself is 15
 *     text       21  the first frame of the text is not 52, a later one is, or
 *                    an edge is of another routine or is not above the edge
 *                    before it, compared left to right: it may be the same
 *     edit       16  an edge is to be added, and there are 256
 *     text       16  the new program would have more than 256 edges
 *     text       23  the new program is too large
 *     exchange    9  the new marks do not have exactly the length that
 *                    palthrenni_exchange_sizes gives for them
 *     exchange   11  the working buffer does not have exactly the length that
 *                    palthrenni_exchange_sizes gives for it
 *     own        17  the marks are not the program's own: some byte is not the
 *                    one that palthrenni_analyze would leave there
 *     analyze    22  palthrenni_analyze gave up: its count of iterations is
 *                    above the limit. That is no fault of the file, and says
 *                    nothing of its violations
 *     saved      24  a routine has more than 16 nodes, or there are more than 8
 *                    states, or more than 256 transitions: no such program was
 *                    accepted when old marks were saved
 *     saved       9  the old marks, which the first of the two is lent, do not
 *                    have exactly PALTHRENNI_OLD_MARKS_SIZE bytes
 *     saved      11  the working buffer does not have exactly the length that
 *                    palthrenni_sizes gives
 *     saved      25  the old marks, or the frames, are not the program's own:
 *                    some byte is another one, or is left out or too many
 *     saved      10  the output is shorter than what is to be written: this
 *                    program's frames, or PALTHRENNI_OLD_MARKS_SIZE bytes
 *     none       18  the input of the program `bench` has more than 16384
 *                    bytes. No function returns it, and none has such a bound
 *
 * Two numbers of an exchange can mean two things. 23 is about the file where
 * palthrenni_read returns it too, and else about the new program; 9 is about
 * the old marks where they do not have the length that palthrenni_sizes gives,
 * and else about the new ones.
 */
#define PALTHRENNI_OK 0
#define PALTHRENNI_BAD_LINE 1
#define PALTHRENNI_UNKNOWN_KIND 2
#define PALTHRENNI_WRONG_COUNT 3
#define PALTHRENNI_ORDER 4
#define PALTHRENNI_RANGE 5
#define PALTHRENNI_TABLE_FULL 6
#define PALTHRENNI_END_COUNT 7
#define PALTHRENNI_FILE_END 8
#define PALTHRENNI_PAIR_NOT_MET 19
#define PALTHRENNI_PAIR_MET_TWICE 20
#define PALTHRENNI_TOO_LARGE 23
#define PALTHRENNI_MARKS_LENGTH 9
#define PALTHRENNI_OUTPUT_SHORT 10
#define PALTHRENNI_WORK_LENGTH 11
#define PALTHRENNI_EDIT_LINE 12
#define PALTHRENNI_EDIT_RANGE 13
#define PALTHRENNI_NO_SUCH_EDGE 14
#define PALTHRENNI_EDGE_EXISTS 15
#define PALTHRENNI_EXCHANGE_ORDER 21
#define PALTHRENNI_EDGES_FULL 16
#define PALTHRENNI_FOREIGN_MARKS 17
#define PALTHRENNI_GAVE_UP 22
#define PALTHRENNI_TOO_LARGE_TO_SAVE 24
#define PALTHRENNI_FOREIGN_SAVED 25

/* The most bytes that a program is ever written in, and so the least length of
 * an output for one. No accepted file is longer; one with rows has at most 7456
 * bytes. Of a longer file one byte more than these is enough to see it refused,
 * though the number and the line may be others than those of the whole. */
#define PALTHRENNI_OUTPUT_SIZE 7712
/* The length of the longest marks that an accepted program has, and so of the
 * longest working buffer. */
#define PALTHRENNI_MARKS_MOST 16384
/* The length of old marks, whatever the program: "palthrenni_marks_to_frames",
 * below. It is another number than the one above, with the same value. */
#define PALTHRENNI_OLD_MARKS_SIZE 16384
/* The most bytes that the frames of a program have: 11 for each of 16384
 * configurations, and 7. Of a longer text one byte more than these is enough to
 * see it refused (25). */
#define PALTHRENNI_FRAMES_MOST 180231

/* More stack than any call takes ("Stack", above). */
#define PALTHRENNI_STACK 114688

/* The largest limit of palthrenni_analyze, by which it never gives up. */
#define PALTHRENNI_NO_LIMIT UINT64_MAX

/* What palthrenni_next_violation and palthrenni_next_blocked set where nothing
 * is found; and the edge that the second sets where a return is cut off. */
#define PALTHRENNI_NONE UINT32_MAX

/*
 * A configuration is where a program can be: in which routine, at which node of
 * it (0 is the entry, 1 the exit), with which root and in which state of the
 * automaton now. The root is the state in which the routine began: an initial
 * state where main began the run, else the state after the move of the call
 * that started it, which is the caller's state where that call is not heard. A
 * configuration has a number,
 *
 *     ((routine * nodes + node) * states + root) * states + state
 *
 * where nodes and states are the program's sizes, and these are the parts of a
 * number in a program of these sizes. The marks hold one byte for each number,
 * from 0 up to their length, 1 if the configuration can occur and 0 if not. So
 * a number stands for other parts where the sizes are others, but in every
 * program the numbers ascend with the parts, compared left to right: routine,
 * node, root, state. A routine with fewer nodes than the longest one has
 * numbers left over, of nodes that it does not have; nothing occurs there.
 */
#define PALTHRENNI_ROUTINE(number, nodes, states) \
    (PALTHRENNI_U32(number) / PALTHRENNI_U32(states) \
     / PALTHRENNI_U32(states) / PALTHRENNI_U32(nodes))
#define PALTHRENNI_NODE(number, nodes, states) \
    (PALTHRENNI_U32(number) / PALTHRENNI_U32(states) \
     / PALTHRENNI_U32(states) % PALTHRENNI_U32(nodes))
#define PALTHRENNI_ROOT(number, nodes, states) \
    (PALTHRENNI_U32(number) / PALTHRENNI_U32(states) % PALTHRENNI_U32(states))
#define PALTHRENNI_STATE(number, nodes, states) \
    (PALTHRENNI_U32(number) % PALTHRENNI_U32(states))

/* For the macros above alone: C++ warns of the casts of C, if it is asked. */
#ifdef __cplusplus
#define PALTHRENNI_U32(value) static_cast<uint32_t>(value)
#else
#define PALTHRENNI_U32(value) ((uint32_t)(value))
#endif

/*
 * What a refusal means, in words of one line for the user, without a full stop.
 * It has words for every number that a function here returns, for PALTHRENNI_OK
 * and for 18, which `bench` alone has, and "unknown refusal" for any other. The
 * words stay where they are: they need not be freed, and may not be changed.
 */
static inline const char *palthrenni_reason(uint32_t refusal)
{
    switch (refusal) {
    case 0: return "nothing was refused";
    case 1: return "the line is not pairs of digits 0-9 A-F ended by 0A";
    case 2: return "there is no such kind of frame";
    case 3: return "wrong count of numbers for the kind";
    case 4: return "the order of the frames is broken,"
                   " or there are transitions and rows";
    case 5: return "a number is outside its range, or an edge leaves the exit";
    case 6: return "more than 256 edges, 512 transitions or 256 rows";
    case 7: return "the end count is wrong";
    case 8: return "no end frame, or something after it";
    case 9: return "the marks do not have the length that is needed";
    case 10: return "the output is shorter than is needed";
    case 11: return "the working buffer does not have the length"
                    " that is needed";
    case 12: return "not one edit line of a kind 2B, 2D or 3D,"
                    " or not lines of an exchange, 52 and 53";
    case 13: return "a number is outside its range, or an edge leaves the exit";
    case 14: return "the edge to be dropped or replaced is not there";
    case 15: return "the edge that would be made is there already";
    case 16: return "the new program would have more than 256 edges";
    case 17: return "the marks are not the program's own";
    case 18: return "the input has more than 16384 bytes";
    case 19: return "a state and an action are met by no row";
    case 20: return "a state and an action are met by more than one row";
    case 21: return "not one frame 52 and then edges of its routine, ascending";
    case 22: return "gave up: there are more iterations than the limit";
    case 23: return "routines x nodes x states x states"
                    " would be more than 16384";
    case 24: return "a routine has more than 16 nodes,"
                    " or there are more than 8 states or 256 transitions";
    case 25: return "the saved marks are not the program's own";
    default: return "unknown refusal";
    }
}

/*
 * Reads a program file and says whether it is accepted.
 *
 *   file, file_len  the file's bytes, of any length
 *   line            set to the line of a refusal 1 to 8, else to 0
 *
 * Returns a refusal of the file, or PALTHRENNI_OK.
 */
uint32_t palthrenni_read(const uint8_t *file, size_t file_len, uint32_t *line);

/*
 * Reads a program file and says which state-action pair of its table is faulty,
 * where it is refused with 19 or 20.
 *
 *   file, file_len  the file's bytes, of any length
 *   line            set to the line of a refusal 1 to 8, else to 0
 *   state, action   set to the first faulty pair, by state, then by action: on
 *                   19 no row meets it, on 20 two rows or more do, and each
 *                   pair before it is met by exactly one row. Both are set to 0
 *                   on every other number
 *
 * Returns a refusal of the file, or PALTHRENNI_OK: the same as palthrenni_read.
 */
uint32_t palthrenni_faulty_pair(const uint8_t *file, size_t file_len,
                                uint32_t *line, uint32_t *state,
                                uint32_t *action);

/*
 * Reads a program file and gives the sizes of its program, and the length of
 * its marks, which is also that of a working buffer for it.
 *
 *   file, file_len  the file's bytes, of any length
 *   line            set to the line of a refusal 1 to 8, else to 0
 *   routines        set to how many routines there are
 *   nodes           set to how many nodes the longest of them has
 *   states          set to how many states there are
 *   marks_size      set to routines * nodes * states * states
 *
 * Returns a refusal of the file, or PALTHRENNI_OK: the same as palthrenni_read.
 * On a refusal the sizes and the length are 0.
 */
uint32_t palthrenni_sizes(const uint8_t *file, size_t file_len,
                          uint32_t *line, uint32_t *routines, uint32_t *nodes,
                          uint32_t *states, uint32_t *marks_size);

/*
 * Reads a program file and writes its program back. The bytes written are
 * those of the file if it has no row. A file with rows is written with its
 * transitions one by one in the place of its rows: other bytes, fewer or more,
 * that are a file of the same program and are written back as themselves.
 *
 *   file, file_len      the file's bytes, of any length
 *   output, output_len  where the program is written: PALTHRENNI_OUTPUT_SIZE
 *                       bytes or more
 *   line                set to the line of a refusal 1 to 8, else to 0
 *   written             set to how many bytes were written, or to 0 if the
 *                       call was refused
 *
 * Returns a refusal of the file; then 10, if it is accepted and the output is
 * too short; else PALTHRENNI_OK. On PALTHRENNI_OK the program's bytes are at
 * the start of the output and the rest of the output is unchanged. On a refusal
 * all of the output is unchanged.
 */
uint32_t palthrenni_write(const uint8_t *file, size_t file_len,
                          uint8_t *output, size_t output_len,
                          uint32_t *line, uint32_t *written);

/*
 * Reads a program file and marks every configuration that can occur in a run
 * of its program: the full analysis (paper: working afresh). A violation is one
 * of them whose state is rejecting; so no run arrives in a rejecting state if
 * and only if there are no violations.
 *
 * The limit (paper: the ceiling on takings). In each iteration the analysis
 * takes one configuration, always the lowest that is pending (paper: waiting);
 * it takes none more than 1 + routines * states * states times, which is 4097
 * at most. The limit says how many iterations it may make in all. It makes none
 * beyond that, so that a call returns within a time that the limit bounds,
 * beside the time for reading the file and for clearing and copying the
 * buffers; how long an iteration takes is not promised. It gives up (22) if and
 * only if it makes more iterations where there is no limit. So a larger limit
 * may turn giving up into an answer, and never changes an answer already had:
 * where n iterations are made without a limit, each limit from n on gives that
 * answer, and each one below n gives up.
 *
 *     0                      gives up on every program with an initial state;
 *                            one without is answered, with 0 iterations
 *     marks_size * (1 + routines * states * states) or more
 *                            never gives up on a program of these sizes
 *     67125248 or more       never gives up on any program: it is 4097 times
 *                            PALTHRENNI_MARKS_MOST
 *     PALTHRENNI_NO_LIMIT    never gives up: it is the largest limit
 *
 * Nothing is kept of an analysis that gave up: the next call begins anew. This
 * tries a small limit first, and then ten times as much as long as the user
 * waits:
 *
 *     uint64_t limit = 1000;
 *     while ((refusal = analyze_within(limit)) == PALTHRENNI_GAVE_UP
 *            && user_waits())
 *         limit *= 10;
 *
 * where analyze_within calls palthrenni_analyze with this limit. It ends, and
 * the limit does not overflow, since 100000000 never gives up.
 *
 * Only this function has a limit. The analysis that others make inside them,
 * to see whether marks are a program's own (17, 25), has none, and they never
 * return 22.
 *
 *   file, file_len    the file's bytes, of any length
 *   marks, marks_len  where the marks go: as many bytes as palthrenni_sizes
 *                     gives, which may hold anything before
 *   work, work_len    room to work in: as many bytes as the marks, which may
 *                     hold anything before
 *   limit             how many iterations may be made; any number
 *   line              set to the line of a refusal 1 to 8, else to 0
 *   configurations    set to how many configurations can occur
 *   violations        set to how many of them are violations
 *   iterations        set to how many iterations were made, which is never
 *                     above the limit
 *
 * Returns a refusal of the file; then 9 or 11, the lower first, if it is
 * accepted and a buffer has another length; then 22, if the analysis gave up;
 * else PALTHRENNI_OK. On PALTHRENNI_OK the marks are set, each to 0 or 1, and
 * the working buffer is all zero. On 22 the marks are unchanged and the working
 * buffer is all zero, on every other refusal both buffers are unchanged. On any
 * refusal the three counts are 0.
 */
uint32_t palthrenni_analyze(const uint8_t *file, size_t file_len,
                            uint8_t *marks, size_t marks_len,
                            uint8_t *work, size_t work_len,
                            uint64_t limit,
                            uint32_t *line, uint32_t *configurations,
                            uint32_t *violations, uint32_t *iterations);

/*
 * Reads a program file and finds the first violation at or above a number.
 * To go through all of them, begin from 0 and go on from the one after the
 * last that was found.
 *
 * Each call costs a full analysis of the program, without a limit, to see
 * whether the marks are its own (17); only a refusal before 17 costs less. To
 * go through thousands of violations this way takes thousands of analyses.
 * Where the marks are sure to be those that palthrenni_analyze, a repair or an
 * exchange left for this file, they can be read instead: the violations are
 * the numbers whose byte is 1 and whose state is rejecting, that is, has a
 * frame 46 in the file.
 *
 *   file, file_len    the file's bytes, of any length
 *   marks, marks_len  the marks as palthrenni_analyze, a repair or an exchange
 *                     left them for this file; they are lent for reading only
 *   work, work_len    room to work in: as many bytes as the marks, which may
 *                     hold anything before
 *   from              where to begin; any number
 *   line              set to the line of a refusal 1 to 8, else to 0
 *   found             set to the number of the violation, to PALTHRENNI_NONE
 *                     if there is none, or to 0 if the call was refused
 *
 * Returns a refusal of the file; then 9 or 11, the lower first, if it is
 * accepted and a buffer has another length; then 17, if the marks are not the
 * program's own; else PALTHRENNI_OK. On 17 and on PALTHRENNI_OK the working
 * buffer is all zero, on every other number it is unchanged.
 */
uint32_t palthrenni_next_violation(const uint8_t *file, size_t file_len,
                                   const uint8_t *marks, size_t marks_len,
                                   uint8_t *work, size_t work_len,
                                   uint32_t from,
                                   uint32_t *line, uint32_t *found);

/*
 * Reads a program file and finds the first configuration, at or above a number,
 * where a run is cut off: it can occur, and the program would go on from it,
 * but the automaton has no transition for that. What comes after is not looked
 * at, so a program may have no violation because a transition was forgotten.
 * That a run is cut off is no fault by itself: an automaton may leave out on
 * purpose what cannot happen, or what follows a rejecting state; a violation in
 * a state without transitions is then listed here too, if an edge leads on.
 * There are two ways, and a configuration is never cut off in both, since no
 * edge leaves an exit:
 *
 *     at an edge     some edge leads from its node, and its event is not
 *                    allowed in its state: an action for which the state has no
 *                    transition, or a call that is heard and for which it has
 *                    none. A call that is not heard is always allowed
 *     at a return    it is the exit of a routine that was called: some
 *                    configuration can occur from which an edge calls the
 *                    routine, and the call can give this root. The return from
 *                    the routine is heard, and the state has no transition for
 *                    it. Main that began the run returns to nowhere and is not
 *                    cut off at its exit; main that was called may be
 *
 * To go through all of them, begin from 0 and go on from the one after the last
 * that was found. Each call costs what palthrenni_next_violation costs.
 *
 *   file, file_len    the file's bytes, of any length
 *   marks, marks_len  the marks as palthrenni_analyze, a repair or an exchange
 *                     left them for this file; they are lent for reading only
 *   work, work_len    room to work in: as many bytes as the marks, which may
 *                     hold anything before
 *   from              where to begin; any number
 *   line              set to the line of a refusal 1 to 8, else to 0
 *   found             set to the number of the configuration, to
 *                     PALTHRENNI_NONE if there is none, or to 0 if the call was
 *                     refused
 *   edge              at an edge set to its place among the file's edges, from
 *                     0, the first one if there are several: its frame 53 is
 *                     the line routines + 2 + edge of the file. At a return set
 *                     to PALTHRENNI_NONE. Set to 0 if there is none, or if the
 *                     call was refused
 *
 * Returns the numbers of palthrenni_next_violation, in the same order, and
 * leaves the working buffer as it does.
 */
uint32_t palthrenni_next_blocked(const uint8_t *file, size_t file_len,
                                 const uint8_t *marks, size_t marks_len,
                                 uint8_t *work, size_t work_len,
                                 uint32_t from,
                                 uint32_t *line, uint32_t *found,
                                 uint32_t *edge);

/*
 * Reads a program file and prunes marks by it (paper: the keeping): of the
 * configurations that are marked those stay that have support, through marked
 * ones, back to main's entry in an initial state. A configuration has support
 * by an edge from one that stays: by an action that the automaton allows; by
 * a call, which supports the called entry with each root that the call can
 * give, whether or not the call ever returns; or by a call and an exit of the
 * called routine that stays, where the call can give the exit's root and the
 * return can lead from the exit's state to the state of the configuration.
 *
 *   file, file_len    the file's bytes, of any length
 *   marks, marks_len  any marks, the program's own or not: as many bytes as
 *                     palthrenni_sizes gives, of which every byte other than 0
 *                     is a mark
 *   work, work_len    room to work in: as many bytes as the marks, which may
 *                     hold anything before
 *   line              set to the line of a refusal 1 to 8, else to 0
 *
 * Returns a refusal of the file; then 9 or 11, the lower first, if it is
 * accepted and a buffer has another length; else PALTHRENNI_OK. On
 * PALTHRENNI_OK each mark that stays is 1, every other byte of the marks is 0,
 * and the working buffer is all zero. On a refusal both buffers are unchanged.
 */
uint32_t palthrenni_prune(const uint8_t *file, size_t file_len,
                          uint8_t *marks, size_t marks_len,
                          uint8_t *work, size_t work_len, uint32_t *line);

/*
 * Reads a program file and one edit, changes the marks to those of the edited
 * program, and writes that program, its transitions one by one even where the
 * file has rows. An edit is one line of hexadecimal,
 *
 *     2B f n l m      adds an edge of routine f from node n to m by label l
 *     2D f n l m      drops that edge
 *     3D f n l m b    gives that edge the label b
 *
 * two digits a number and a byte 0A at the end. (The kinds are the ASCII codes
 * of +, - and =.)
 *
 * For a chain of repairs, with exchanges among them or not, keep two buffers
 * for files, one lent as the file and the other as the output, and swap them
 * after each accepted call: the next call's file is what this one wrote, the
 * first `written` bytes of its output. Each has PALTHRENNI_OUTPUT_SIZE bytes
 * or more. After a refusal lend the same file again. The marks go on as each
 * repair leaves them, in the same length; after an exchange its new marks go
 * on.
 *
 * Each call costs at least one full analysis, without a limit, to see whether
 * the marks are the program's own (17); only a refusal before 17 costs less.
 *
 *   file, file_len      the file's bytes, of any length
 *   marks, marks_len    the marks as palthrenni_analyze, or the repair or
 *                       exchange before this one, left them for this file
 *   edit, edit_len      the edit line's bytes
 *   output, output_len  where the new file is written: PALTHRENNI_OUTPUT_SIZE
 *                       bytes or more
 *   work, work_len      room to work in: as many bytes as the marks, which may
 *                       hold anything before
 *   line                set to the line of a refusal 1 to 8, else to 0
 *   written             set to how many bytes were written, or to 0 if the
 *                       call was refused
 *
 * Returns a refusal of the file; then, if it is accepted, the lowest of 9 to 17
 * that is met; else PALTHRENNI_OK. On PALTHRENNI_OK the marks are those that
 * palthrenni_analyze would set for the new file, the new file is at the start
 * of the output and the rest of the output is unchanged, and the working buffer
 * is all zero. On a refusal the marks and the output are unchanged; the working
 * buffer is all zero on 17 and unchanged on every other number.
 */
uint32_t palthrenni_repair_forward(const uint8_t *file, size_t file_len,
                                   uint8_t *marks, size_t marks_len,
                                   const uint8_t *edit, size_t edit_len,
                                   uint8_t *output, size_t output_len,
                                   uint8_t *work, size_t work_len,
                                   uint32_t *line, uint32_t *written);

/*
 * As palthrenni_repair_forward, by the inside-out repair. The marks, the
 * output, the working buffer and the numbers are the same; one number more
 * says which routines were reanalyzed (paper: reopened).
 *
 *   reanalyzed          set to a bit for each routine, bit f for routine f, or
 *                       to 0 if the call was refused
 *
 * On a drop the reanalyzed routines are those of each component (paper: group)
 * that holds the edited routine, or calls a routine outside it whose summaries
 * (paper: pairs), for the roots that it had before, have changed: what it would
 * do from these roots counts, also where nothing calls it any more. A component
 * is routines that call each other in circles in the edited program, or one
 * routine alone; a summary is a root of a routine and a state in which its exit
 * is reached from it, before the return moves the automaton. On an add they are
 * the routines that gained a configuration, on a replace those of the drop and
 * of the add together.
 */
uint32_t palthrenni_repair_inside_out(const uint8_t *file, size_t file_len,
                                      uint8_t *marks, size_t marks_len,
                                      const uint8_t *edit, size_t edit_len,
                                      uint8_t *output, size_t output_len,
                                      uint8_t *work, size_t work_len,
                                      uint32_t *line, uint32_t *written,
                                      uint32_t *reanalyzed);

/*
 * Reads a program file and the text of an exchange, which gives one routine
 * other nodes and edges (palthrenni_exchange_forward, below, says how it is
 * written), and gives the lengths that the exchange needs. It exchanges
 * nothing.
 *
 *   file, file_len  the file's bytes, of any length
 *   text, text_len  the text's bytes, of any length
 *   line            set to the line of a refusal 1 to 8, else to 0: a refusal
 *                   of the text has no line
 *   nodes           set to how many nodes the longest routine of the new
 *                   program has. Its routines and its states are as many as
 *                   those of the file's program
 *   marks_size      set to the length of the new program's marks
 *   work_size       set to the length of the working buffer for the exchange:
 *                   that of the old marks or of the new ones, the longer
 *
 * Returns a refusal of the file; then, if it is accepted, the first that is met
 * of 12, 13, 21, 16 and 23, in this order; else PALTHRENNI_OK. On a refusal the
 * three numbers after the line are 0.
 */
uint32_t palthrenni_exchange_sizes(const uint8_t *file, size_t file_len,
                                   const uint8_t *text, size_t text_len,
                                   uint32_t *line, uint32_t *nodes,
                                   uint32_t *marks_size, uint32_t *work_size);

/*
 * Exchanges a whole routine, by the forward repair: reads a program file and
 * the text of an exchange, sets the marks of the new program, and writes that
 * program, its transitions one by one even where the file has rows. In the new
 * program the routine has another count of nodes, if the text says so, and in
 * the place of all its edges those of the text. Everything else stays: the
 * other routines, their calls of this one, and the automaton.
 *
 * The text is lines of hexadecimal as in a file, two digits a number and a
 * byte 0A at the end of each line,
 *
 *     52 f p          first, and once: routine f has p nodes, 2 to 64
 *     53 f n l m      an edge of routine f from node n to m by label l
 *
 * with a frame 53 for each edge that the routine is to have, ascending,
 * compared left to right. With no frame 53 the routine has no edge afterwards.
 * It may be main, routine 0. This text gives routine 1 of examples/F.txt a
 * third node, with an action before it and one after it:
 *
 *     520103          routine 1 has three nodes: the entry 0, the exit 1, and 2
 *     5301000002      from node 0 to node 2 by action 0
 *     5301020101      from node 2 to node 1 by action 1
 *
 * In C it is "520103\n5301000002\n5301020101\n", with its 29 bytes.
 *
 * The marks of the new program may be longer or shorter than the old ones, so
 * they go to a second buffer, which is one of its own even where the lengths
 * are the same. The old ones are never changed.
 *
 * A chain of calls is kept as for palthrenni_repair_forward, and repairs and
 * exchanges may take turns in it. Where there are exchanges, keep two buffers
 * for marks as well, of PALTHRENNI_MARKS_MOST bytes each, and swap them after
 * each accepted exchange, as the files are. After a refusal lend the same file
 * and the same marks again.
 *
 *     refusal = palthrenni_exchange_sizes(file, file_len, text, text_len,
 *                                         &line, &new_nodes, &new_size,
 *                                         &work_size);
 *     if (refusal == PALTHRENNI_OK)
 *         refusal = palthrenni_exchange_forward(
 *             file, file_len, marks, marks_size, text, text_len,
 *             output, PALTHRENNI_OUTPUT_SIZE, work, work_size,
 *             new_marks, new_size, &line, &written);
 *     if (refusal == PALTHRENNI_OK) {
 *         swap(&file, &output);
 *         file_len = written;
 *         swap(&marks, &new_marks);
 *         marks_size = new_size;
 *         nodes = new_nodes;
 *     }
 *
 * where swap lets two pointers to bytes change places.
 *
 * Each call costs at least one full analysis, without a limit, to see whether
 * the marks are the program's own (17); only a refusal before 17 costs less.
 *
 *   file, file_len            the file's bytes, of any length
 *   marks, marks_len          the marks as palthrenni_analyze, or the repair or
 *                             exchange before this one, left them for this
 *                             file; they are lent for reading only
 *   text, text_len            the text's bytes, of any length; they are lent
 *                             for reading only
 *   output, output_len        where the new file is written:
 *                             PALTHRENNI_OUTPUT_SIZE bytes or more
 *   work, work_len            room to work in: as many bytes as
 *                             palthrenni_exchange_sizes gives for it, which may
 *                             hold anything before
 *   new_marks, new_marks_len  where the new program's marks go: as many bytes
 *                             as palthrenni_exchange_sizes gives for them,
 *                             which may hold anything before
 *   line                      set to the line of a refusal 1 to 8, else to 0: a
 *                             refusal of the text has no line
 *   written                   set to how many bytes were written, or to 0 if
 *                             the call was refused
 *
 * Returns a refusal of the file; then, if it is accepted, the first that is met
 * of 9 for the old marks, 10, 12, 13, 21, 16, 23 for the new program, 9 for the
 * new marks, 11, and 17, in this order; else PALTHRENNI_OK.
 *
 * On PALTHRENNI_OK the new marks are those that palthrenni_analyze would set
 * for the new file, the new file is at the start of the output and the rest of
 * the output is unchanged, and the working buffer is all zero. On a refusal the
 * new marks and the output are unchanged; the working buffer is all zero on 17
 * and unchanged on every other number.
 */
uint32_t palthrenni_exchange_forward(const uint8_t *file, size_t file_len,
                                     const uint8_t *marks, size_t marks_len,
                                     const uint8_t *text, size_t text_len,
                                     uint8_t *output, size_t output_len,
                                     uint8_t *work, size_t work_len,
                                     uint8_t *new_marks, size_t new_marks_len,
                                     uint32_t *line, uint32_t *written);

/*
 * As palthrenni_exchange_forward, by the inside-out repair. The new marks, the
 * output, the working buffer and the numbers are the same; one number more
 * says which routines were reanalyzed.
 *
 *   reanalyzed                set to a bit for each routine, bit f for routine
 *                             f, or to 0 if the call was refused
 *
 * The reanalyzed routines are those of dropping all old edges of the routine
 * together, as for palthrenni_repair_inside_out, and then those that gain a
 * configuration when all new edges are added together. So the exchanged
 * routine is always one of them, and so is each routine that calls it, if it
 * could reach its exit before: in between, without an edge, it cannot. This
 * holds also where a routine is exchanged for itself, and the new marks are
 * the old ones. A configuration is gained by its parts, and not by its number,
 * which another count of nodes changes.
 */
uint32_t palthrenni_exchange_inside_out(const uint8_t *file, size_t file_len,
                                        const uint8_t *marks, size_t marks_len,
                                        const uint8_t *text, size_t text_len,
                                        uint8_t *output, size_t output_len,
                                        uint8_t *work, size_t work_len,
                                        uint8_t *new_marks,
                                        size_t new_marks_len,
                                        uint32_t *line, uint32_t *written,
                                        uint32_t *reanalyzed);

/*
 * Moves saved marks (paper: saved sheets) to frames: reads a program file and
 * marks of its program that were saved before programs had sizes of their own,
 * and writes the form in which marks are saved now.
 *
 * Old marks have PALTHRENNI_OLD_MARKS_SIZE bytes, whatever the program, and a
 * configuration has the number
 *
 *     ((routine * 16 + node) * 8 + root) * 8 + state
 *
 * in them. Its byte is 1 if it can occur and 0 if not; bytes of routines, nodes
 * and states that the program does not have are 0. (Of an exchange, above, "old
 * marks" are those before it, in today's numbers.)
 *
 * Frames are lines of hexadecimal as in a file, two digits a number and a byte
 * 0A at the end of each line,
 *
 *     4D f n r q      for each configuration that can occur: routine f, node n,
 *                     root r, state q; ascending, compared left to right
 *     45 h l          last, and once: they are h * 256 + l
 *
 * with no number that goes by any sizes. (4D is the ASCII code of M.) A program
 * has exactly one such text. These are the frames of examples/F.txt, with their
 * 62 bytes:
 *
 *     4D00000000      main's entry, root 0, state 0
 *     4D00010001      main's exit, root 0, state 1
 *     4D00020001      main's node 2, root 0, state 1
 *     4D01000000      the entry of routine 1, root 0, state 0
 *     4D01010001      its exit, root 0, state 1
 *     450005          five configurations
 *
 * A program without an initial state has the line 450000 alone. This moves old
 * marks over, and back for a machine that takes old marks only:
 *
 *     static uint8_t frames[PALTHRENNI_FRAMES_MOST];
 *     static uint8_t back[PALTHRENNI_OLD_MARKS_SIZE];
 *
 *     refusal = palthrenni_sizes(file, file_len, &line,
 *                                &routines, &nodes, &states, &marks_size);
 *     if (refusal == PALTHRENNI_OK)
 *         refusal = palthrenni_marks_to_frames(
 *             file, file_len, old_marks, old_marks_len,
 *             frames, sizeof frames, work, marks_size, &line, &frames_len);
 *     if (refusal == PALTHRENNI_OK)
 *         refusal = palthrenni_frames_to_marks(
 *             file, file_len, frames, frames_len,
 *             back, sizeof back, work, marks_size, &line, &written);
 *
 * Then back holds the bytes of old_marks. So it is the other way round: frames
 * that are accepted, moved back and over again, are the same bytes.
 *
 * Today's marks are saved in frames the same way. Put each byte where its parts
 * (PALTHRENNI_ROUTINE and so on) have it in the old numbers, all others being
 * 0, and move these over; but only where the program has at most 16 nodes and 8
 * states, since other configurations have no place there (24). Frames are not
 * made into today's marks: palthrenni_analyze sets those.
 *
 * Each call costs one full analysis, without a limit, to see whether the old
 * marks are the program's own (25); only a refusal before 25 costs less.
 *
 *   file, file_len            the file's bytes, of any length
 *   old_marks, old_marks_len  the old marks: PALTHRENNI_OLD_MARKS_SIZE bytes,
 *                             which are lent for reading only
 *   output, output_len        where the frames are written: as many bytes as
 *                             this program's frames have, or more;
 *                             PALTHRENNI_FRAMES_MOST are enough for every
 *                             program
 *   work, work_len            room to work in: as many bytes as
 *                             palthrenni_sizes gives for today's marks, which
 *                             may hold anything before
 *   line                      set to the line of a refusal 1 to 8, else to 0
 *   written                   set to how many bytes were written, 7 to
 *                             PALTHRENNI_FRAMES_MOST, or to 0 if the call was
 *                             refused
 *
 * Returns a refusal of the file; then, if it is accepted, the first that is met
 * of 24, 9, 11, 25 and 10, in this order; else PALTHRENNI_OK.
 *
 * On PALTHRENNI_OK the frames are at the start of the output and the rest of
 * the output is unchanged. On a refusal all of the output is unchanged. The
 * working buffer is all zero on 25, on 10 and on PALTHRENNI_OK, and unchanged
 * on every other number.
 */
uint32_t palthrenni_marks_to_frames(const uint8_t *file, size_t file_len,
                                    const uint8_t *old_marks,
                                    size_t old_marks_len,
                                    uint8_t *output, size_t output_len,
                                    uint8_t *work, size_t work_len,
                                    uint32_t *line, uint32_t *written);

/*
 * Moves frames back to old marks, for machines that take these only: reads a
 * program file and frames of its program, and writes its old marks;
 * palthrenni_marks_to_frames, above, says what both are. The frames have to be
 * the program's own to the byte. Whatever is wrong with them is 25, with line
 * 0: a line that is none, another kind, a configuration too many or too few,
 * another order, another count at the end, or anything after it.
 *
 * Each call costs one full analysis, without a limit, to see whether the frames
 * are the program's own (25); only a refusal before 25 costs less.
 *
 *   file, file_len      the file's bytes, of any length
 *   frames, frames_len  the frames' bytes, of any length; they are lent for
 *                       reading only
 *   output, output_len  where the old marks are written:
 *                       PALTHRENNI_OLD_MARKS_SIZE bytes or more
 *   work, work_len      room to work in: as many bytes as palthrenni_sizes
 *                       gives for today's marks, which may hold anything before
 *   line                set to the line of a refusal 1 to 8, else to 0
 *   written             set to PALTHRENNI_OLD_MARKS_SIZE, or to 0 if the call
 *                       was refused
 *
 * Returns a refusal of the file; then, if it is accepted, the first that is met
 * of 24, 11, 25 and 10, in this order; else PALTHRENNI_OK.
 *
 * On PALTHRENNI_OK the old marks, each 0 or 1, are at the start of the output
 * and the rest of the output is unchanged. On a refusal all of the output is
 * unchanged. The working buffer is left as palthrenni_marks_to_frames leaves
 * it.
 */
uint32_t palthrenni_frames_to_marks(const uint8_t *file, size_t file_len,
                                    const uint8_t *frames, size_t frames_len,
                                    uint8_t *output, size_t output_len,
                                    uint8_t *work, size_t work_len,
                                    uint32_t *line, uint32_t *written);

#ifdef __cplusplus
}
#endif

#endif

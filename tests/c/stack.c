/* The greatest stack of each call, measured on x86-64. Each call runs on a stack of its own that is filled with a pattern, and the deepest byte that is not
   the pattern afterwards tells how much was written. Standard output tells the figures; a call that needs more than the header says is a line of its own,
   and the program fails.

   What is counted: the bytes from the caller's call on, which are the arguments on the stack, the return address, and all below. What lies above is
   the trampoline's: it is measured with a function that does nothing in place of the call, and taken off. Each run is made twice with two patterns and the
   deeper counts, for a byte that is written may be the pattern by chance.

   The archive calls memset, memcpy and memmove of the C library. They are part of the figures, and are measured by themselves too. They have to be bound
   before the first run (gcc -Wl,-z,now): the dynamic linker would use the same stack.

   gcc -std=c11 -Iinclude tests/c/stack.c crates/trigger_engine/out/libtrigger_engine.a -Wl,-z,now -o crates/trigger_engine/out/stack */
#define _XOPEN_SOURCE 700
#include "trigger_engine.h"

#include <stdio.h>
#include <string.h>
#include <ucontext.h>

/* A function that does nothing, in place of a call. It returns the place of its return address, so that the trampoline can be tested. */
void nothing(void);
__asm__(".text\n"
        "nothing:\n"
        "    movq %rsp, %rax\n"
        "    ret\n");

enum {
    STACK_BYTES = 1 << 16,
    /* the trampoline's own bytes below its frame, when it is left, must not come as deep as the call */
    ROOM = 1024,
    /* a return address, or one argument on the stack */
    PLACE = 8
};

static int failed;

static void expect(int holds, const char *breach)
{
    if (!holds) {
        printf("  BREACH: %s\n", breach);
        failed = 1;
    }
}

/* What is given to the calls. A session is restored before each run, for a run may edit it. */
static uint32_t session[TRIGGER_SESSION_WORDS];
static uint32_t session_given[TRIGGER_SESSION_WORDS];
static size_t words = TRIGGER_SESSION_WORDS;
static int32_t changes[TRIGGER_CHANGE_PLACES];
static uint8_t order[TRIGGER_ORDER_PLACES];
static uint32_t start, end, state, node;

/* one state more than a load may have, for a load that is refused */
static uint16_t masks[TRIGGER_MAX_STATES + 1], values[TRIGGER_MAX_STATES + 1];
static uint32_t links[TRIGGER_MAX_STATES + 1], inverted;
static uint16_t samples[TRIGGER_MAX_NODES];
static uint32_t starts[TRIGGER_MAX_EDGES], ends[TRIGGER_MAX_EDGES];
static size_t states, nodes, edges;

static unsigned char from[TRIGGER_MAX_EDGES * 4], to[TRIGGER_MAX_EDGES * 4];

/* The calls, each by a pointer that no compiler sees through: the call measured, or the function that does nothing. */
typedef void any_call(void);
typedef size_t number_call(void);
typedef trigger_answer load_call(
    uint32_t *, size_t, const uint16_t *, size_t, const uint16_t *, size_t, const uint32_t *, size_t, uint32_t, const uint16_t *, size_t,
    const uint32_t *, size_t, const uint32_t *, size_t, int32_t *, size_t);
typedef trigger_answer edit_call(uint32_t *, size_t, uint32_t, uint32_t, int32_t *, size_t);
typedef trigger_answer matches_call(const uint32_t *, size_t, uint32_t, uint32_t);
typedef trigger_answer fires_call(const uint32_t *, size_t);
typedef trigger_answer order_call(const uint32_t *, size_t, uint8_t *, size_t);
typedef void *fill_call(void *, int, size_t);
typedef void *copy_call(void *, const void *, size_t);

static any_call *volatile called;
static uint64_t answer;

static void make_number(void)
{
    answer = ((number_call *)called)();
}

static void make_load(void)
{
    answer = ((load_call *)called)(session, words, masks, states, values, states, links, states, inverted, samples, nodes,
                                   starts, edges, ends, edges, changes, TRIGGER_CHANGE_PLACES);
}

static void make_edit(void)
{
    answer = ((edit_call *)called)(session, words, start, end, changes, TRIGGER_CHANGE_PLACES);
}

static void make_matches(void)
{
    answer = ((matches_call *)called)(session, words, state, node);
}

static void make_fires(void)
{
    answer = ((fires_call *)called)(session, words);
}

static void make_order(void)
{
    answer = ((order_call *)called)(session, words, order, TRIGGER_ORDER_PLACES);
}

static void make_fill(void)
{
    answer = (uintptr_t)((fill_call *)called)(to, 0, sizeof to);
}

static void make_copy(void)
{
    answer = (uintptr_t)((copy_call *)called)(to, from, sizeof to);
}

/* The trampoline: it makes the call on the painted stack. */
static _Alignas(16) unsigned char painted[STACK_BYTES];
static ucontext_t here, there;
static any_call *make;

static void enter(void)
{
    volatile unsigned char room[ROOM];
    room[0] = 0;
    make();
    (void)room[0];
}

/* The place of the deepest byte written, in the painted stack. */
static size_t deepest(any_call *call, int pattern)
{
    memcpy(session, session_given, sizeof session);
    memset(painted, pattern, sizeof painted);
    called = call;
    getcontext(&there);
    there.uc_stack.ss_sp = painted;
    there.uc_stack.ss_size = sizeof painted;
    there.uc_link = &here;
    makecontext(&there, enter, 0);
    swapcontext(&here, &there);
    size_t at = 0;
    while (at < sizeof painted && painted[at] == pattern) {
        at++;
    }
    return at;
}

static size_t deeper(any_call *call)
{
    const size_t first = deepest(call, 0xA5);
    const size_t second = deepest(call, 0x3C);
    return first < second ? first : second;
}

struct measured {
    const char *name;
    any_call *make, *call;
    /* what the header says, the arguments that x86-64 passes on the stack (those after the sixth), and the greatest found */
    size_t stated, arguments, greatest;
};

static struct measured session_words =
    {"trigger_session_words", make_number, (any_call *)trigger_session_words, TRIGGER_STACK_SESSION_WORDS, 0, 0};
static struct measured change_places =
    {"trigger_change_places", make_number, (any_call *)trigger_change_places, TRIGGER_STACK_CHANGE_PLACES, 0, 0};
static struct measured load = {"trigger_load", make_load, (any_call *)trigger_load, TRIGGER_STACK_LOAD, 11, 0};
static struct measured insert = {"trigger_insert", make_edit, (any_call *)trigger_insert, TRIGGER_STACK_INSERT, 0, 0};
static struct measured delete_edge = {"trigger_delete", make_edit, (any_call *)trigger_delete, TRIGGER_STACK_DELETE, 0, 0};
static struct measured matches = {"trigger_matches", make_matches, (any_call *)trigger_matches, TRIGGER_STACK_MATCHES, 0, 0};
static struct measured fires = {"trigger_fires", make_fires, (any_call *)trigger_fires, TRIGGER_STACK_FIRES, 0, 0};
static struct measured ordering = {"trigger_order", make_order, (any_call *)trigger_order, TRIGGER_STACK_ORDER, 0, 0};
static struct measured fill = {"memset", make_fill, (any_call *)memset, PLACE, 0, 0};
static struct measured copy = {"memcpy", make_copy, (any_call *)memcpy, PLACE, 0, 0};
static struct measured move = {"memmove", make_copy, (any_call *)memmove, PLACE, 0, 0};

/* Measures a call on one input. The answer shows that the input does what its name says. */
static void measure(struct measured *one, const char *input, uint64_t expected)
{
    make = one->make;
    const size_t top = deeper(nothing);
    expect(painted + top == (unsigned char *)(uintptr_t)answer, "the trampoline goes deeper than the call");
    const size_t bottom = deeper(one->call);
    expect(answer == expected, "the input is another");
    expect(bottom > 0, "the painted stack is too small");
    const size_t bytes = top - bottom + PLACE + one->arguments * PLACE;
    if (states > 0) {
        printf("%s, %zu states, %s: %zu bytes\n", one->name, states, input, bytes);
    } else {
        printf("%s, %s: %zu bytes\n", one->name, input, bytes);
    }
    if (bytes > one->greatest) {
        one->greatest = bytes;
    }
}

static void conclude(const struct measured *one)
{
    printf("%s: at most %zu bytes\n", one->name, one->greatest);
    expect(one->greatest <= one->stated, "the header says less");
    expect(one->stated <= TRIGGER_STACK_BYTES, "the header's greatest is not the greatest");
}

/* The answer of an accepted call. */
static trigger_answer accepted(int yes, uint32_t trials, uint32_t count)
{
    return (trigger_answer)yes << 8 | (trigger_answer)trials << 16 | (trigger_answer)count << 40;
}

/* States that admit every node, whose samples are all zero: with a mask of zero, inverted or not, or inverted with another value. */
enum links_kind { UNLINKED, CHAIN, RING, ALL };

/* Every other state, those with an even number. */
static const uint32_t every_other = 0xAAAAAAAA;

static uint32_t all_states(void)
{
    return UINT32_MAX >> (32 - states);
}

static void give_inverted(uint32_t set)
{
    inverted = set & all_states();
    for (size_t i = 0; i < states; i++) {
        const int turned = (set >> i & 1u) != 0;
        masks[i] = turned ? 0xFFFF : 0;
        values[i] = turned ? 0x5A00 : 0;
    }
}

static void give_blank_inverted(uint32_t set)
{
    give_inverted(0);
    inverted = set & all_states();
}

static void give_states(size_t count, enum links_kind kind)
{
    states = count;
    give_inverted(0);
    for (size_t i = 0; i < count; i++) {
        const size_t next = i + 1 < count ? i + 1 : 0;
        links[i] = kind == ALL ? all_states() : kind == RING || (kind == CHAIN && next != 0) ? 1u << next : 0;
    }
}

/* All states but the last in a chain; the last admits no node, and no link leads to it. That the trigger fires is told by the links. */
static void give_orphan(size_t count)
{
    give_states(count, CHAIN);
    links[count - 2] = 0;
    masks[count - 1] = 0xFFFF;
    values[count - 1] = 0x5A00;
}

/* Nodes in a row, with edges from each to so many that follow. Where the row is closed, the first follows the last. */
static void give_nodes(size_t count, size_t reach, int closed)
{
    nodes = count;
    edges = 0;
    for (size_t v = 0; v < count; v++) {
        for (size_t w = 0; w < count; w++) {
            const size_t distance = (w + count - v) % count;
            if (0 < distance && distance <= reach && (closed || v < w)) {
                starts[edges] = (uint32_t)v;
                ends[edges] = (uint32_t)w;
                edges++;
            }
        }
    }
}

/* The session with which each run begins. */
static void give_session(void)
{
    words = TRIGGER_SESSION_WORDS;
    called = (any_call *)trigger_load;
    make_load();
    expect(trigger_answer_accepted(answer), "a load is refused");
    memcpy(session_given, session, sizeof session);
}

static void edit_given(trigger_answer (*edit)(uint32_t *, size_t, uint32_t, uint32_t, int32_t *, size_t), uint32_t a, uint32_t b)
{
    answer = edit(session_given, words, a, b, changes, TRIGGER_CHANGE_PLACES);
    expect(trigger_answer_accepted(answer), "an edit is refused");
}

static void edge(uint32_t a, uint32_t b)
{
    start = a;
    end = b;
}

static void pair(uint32_t u, uint32_t v)
{
    state = u;
    node = v;
}

/* So many states and 512 nodes. */
static void measure_loads(uint32_t count)
{
    const uint32_t pairs = TRIGGER_MAX_NODES * count;
    give_states(count, RING);
    give_nodes(512, 4, 1);
    measure(&load, "in a ring, 512 nodes, 2,048 edges, all stand", accepted(1, pairs, pairs));
    give_inverted(every_other);
    measure(&load, "the same, every other state inverted", accepted(1, pairs, pairs));
    give_inverted(all_states());
    measure(&load, "the same, all states inverted", accepted(1, pairs, pairs));
    give_blank_inverted(all_states());
    measure(&load, "the same, all states inverted and of mask zero", accepted(1, pairs, pairs));
    give_states(count, ALL);
    measure(&load, "the same, all states linked to all", accepted(1, pairs, pairs));
    starts[edges - 1] = 0;
    measure(&load, "the same, refused for its last edge", TRIGGER_EDGES_UNORDERED);
    give_nodes(512, 4, 0);
    measure(&load, "512 nodes, 2,038 edges without a ring, none stands", accepted(0, pairs, 0));
    give_orphan(count);
    give_nodes(512, 4, 1);
    measure(&load, "in a chain but an orphan, 512 nodes, 2,048 edges, all in the chain stand", accepted(1, pairs - 512, pairs - 512));
}

static void measure_other_loads(void)
{
    give_nodes(512, 4, 1);
    give_states(16, RING);
    inverted = 0x10000;
    measure(&load, "refused for an inverted state that is not there", TRIGGER_STATES_WRONG);
    give_states(16, RING);
    links[15] = 0x10000;
    measure(&load, "refused for a link to a state that is not there", TRIGGER_LINK_WRONG);
    give_states(TRIGGER_MAX_STATES, RING);
    states = TRIGGER_MAX_STATES + 1;
    measure(&load, "refused for their number", TRIGGER_STATES_WRONG);
    give_states(1, UNLINKED);
    give_nodes(0, 0, 0);
    measure(&load, "no node", accepted(0, 0, 0));
    words = TRIGGER_SESSION_WORDS - 1;
    measure(&load, "refused for short memory", TRIGGER_MEMORY_SHORT);
}

static void measure_edits(uint32_t count)
{
    const uint32_t pairs = TRIGGER_MAX_NODES * count;
    give_states(count, RING);
    give_nodes(512, 1, 0);
    give_session();
    edge(511, 0);
    measure(&insert, "ring of 512 nodes closed, all pairs begin", accepted(1, pairs, pairs));
    edit_given(trigger_insert, 511, 0);
    measure(&delete_edge, "ring of 512 nodes opened, all pairs cease", accepted(0, pairs, pairs));

    give_inverted(every_other);
    give_session();
    measure(&insert, "the same ring closed, every other state inverted", accepted(1, pairs, pairs));
    edit_given(trigger_insert, 511, 0);
    measure(&delete_edge, "the same ring opened, every other state inverted", accepted(0, pairs, pairs));
    give_blank_inverted(every_other);
    give_session();
    measure(&insert, "the same ring closed, every other state inverted and of mask zero", accepted(1, pairs, pairs));
    edit_given(trigger_insert, 511, 0);
    measure(&delete_edge, "the same ring opened, every other state inverted and of mask zero", accepted(0, pairs, pairs));
    give_inverted(0);

    give_nodes(512, 4, 0);
    give_session();
    measure(&insert, "the same ring with 2,039 edges closed", accepted(1, pairs, pairs));
    edit_given(trigger_insert, 511, 0);
    measure(&delete_edge, "the same ring with 2,039 edges opened", accepted(0, pairs, pairs));

    give_nodes(512, 1, 0);
    give_session();
    edit_given(trigger_delete, 510, 511);
    edge(510, 511);
    measure(&insert, "all pairs of 511 nodes tried, none begins", accepted(0, pairs - count, 0));
    edit_given(trigger_insert, 510, 511);
    measure(&delete_edge, "where none stands", accepted(0, 0, 0));

    give_states(count, CHAIN);
    give_nodes(512, 0, 0);
    give_session();
    edge(0, 1);
    measure(&insert, "in a chain, all but the last tried at one node, one begins", accepted(0, count - 1, 1));
    edit_given(trigger_insert, 0, 1);
    measure(&delete_edge, "in a chain, one pair ceases", accepted(0, 1, 1));
    edge(1, 0);
    measure(&insert, "in a chain, tried at two nodes, all begin", accepted(1, 2 * count - 3, 2 * count - 3));

    give_states(count, RING);
    give_nodes(512, 4, 1);
    give_session();
    edge(0, 1);
    measure(&insert, "full session, refused for an edge that is there", TRIGGER_EDGE_PRESENT);
    measure(&delete_edge, "full session, no pair ceases", accepted(1, 0, 0));
    edge(1, 0);
    measure(&insert, "full session, refused for want of a place", TRIGGER_EDGES_FULL);
    measure(&delete_edge, "full session, refused for an edge that is not there", TRIGGER_EDGE_ABSENT);
    edge(512, 0);
    measure(&insert, "full session, refused for a node", TRIGGER_NAME_WRONG);
    measure(&delete_edge, "full session, refused for a node", TRIGGER_NAME_WRONG);
    edit_given(trigger_delete, 0, 1);
    edge(0, 1);
    measure(&insert, "the 2,048th edge, no pair begins", accepted(1, 0, 0));

    give_inverted(every_other);
    give_session();
    measure(&insert, "full session, every other state inverted, refused for an edge that is there", TRIGGER_EDGE_PRESENT);
    measure(&delete_edge, "full session, every other state inverted, no pair ceases", accepted(1, 0, 0));
    edit_given(trigger_delete, 0, 1);
    measure(&insert, "the 2,048th edge, every other state inverted, no pair begins", accepted(1, 0, 0));

    give_orphan(count);
    give_session();
    measure(&delete_edge, "full session, all stand but an orphan, no pair ceases", accepted(1, 0, 0));
    edit_given(trigger_delete, 0, 1);
    measure(&insert, "the 2,048th edge, all stand but an orphan, no pair begins", accepted(1, 0, 0));
    /* at the row's end the states of the chain lack as many nodes as they have states after them */
    const uint32_t lacking = (count - 1) * (count - 2) / 2;
    give_nodes(512, 1, 0);
    give_session();
    edge(511, 0);
    measure(&insert, "in a chain but an orphan that stands nowhere, ring closed", accepted(1, lacking, lacking));
    edit_given(trigger_insert, 511, 0);
    measure(&delete_edge, "in a chain but an orphan that stands nowhere, ring opened", accepted(1, lacking, lacking));

    session_given[0] = 0;
    measure(&insert, "refused for the layout", TRIGGER_NOT_IN_LAYOUT);
    measure(&delete_edge, "refused for the layout", TRIGGER_NOT_IN_LAYOUT);
    words = TRIGGER_SESSION_WORDS - 1;
    measure(&insert, "refused for short memory", TRIGGER_MEMORY_SHORT);
    measure(&delete_edge, "refused for short memory", TRIGGER_MEMORY_SHORT);
}

static void measure_questions(uint32_t count)
{
    give_states(count, RING);
    give_nodes(512, 4, 1);
    give_session();
    pair(count, 511);
    measure(&matches, "full session, yes", accepted(1, 0, 0));
    measure(&fires, "full session, yes", accepted(1, 0, 0));
    measure(&ordering, "full session, in a ring", accepted(0, 0, count));
    pair(count + 1, 511);
    measure(&matches, "full session, refused for a state", TRIGGER_NAME_WRONG);

    give_inverted(every_other);
    give_session();
    pair(count, 511);
    measure(&matches, "full session, every other state inverted, yes", accepted(1, 0, 0));
    measure(&fires, "full session, every other state inverted, yes", accepted(1, 0, 0));
    measure(&ordering, "full session, every other state inverted", accepted(0, 0, count));
    give_blank_inverted(every_other);
    give_session();
    measure(&matches, "full session, every other state inverted and of mask zero, yes", accepted(1, 0, 0));
    measure(&fires, "full session, every other state inverted and of mask zero, yes", accepted(1, 0, 0));
    measure(&ordering, "full session, every other state inverted and of mask zero", accepted(0, 0, count));

    give_orphan(count);
    give_session();
    measure(&fires, "full session, all stand but an orphan, yes", accepted(1, 0, 0));

    /* in a chain and in a ring each visit is made in the one before it: as many are under way as there are states */
    give_states(count, CHAIN);
    give_session();
    measure(&ordering, "full session, in a chain", accepted(0, 0, count));
    give_states(count, ALL);
    give_session();
    measure(&ordering, "full session, all states linked to all", accepted(0, 0, count));
    give_states(count, UNLINKED);
    give_session();
    measure(&ordering, "full session, without links", accepted(0, 0, count));

    give_states(count, RING);
    give_nodes(512, 4, 0);
    give_session();
    pair(count, 511);
    measure(&matches, "no mark, no", accepted(0, 0, 0));
    measure(&fires, "no mark, no", accepted(0, 0, 0));
    measure(&ordering, "no mark, in a ring", accepted(0, 0, count));
    give_nodes(0, 0, 0);
    give_session();
    measure(&ordering, "no node, in a ring", accepted(0, 0, count));
    give_states(count, CHAIN);
    give_session();
    measure(&ordering, "no node, in a chain", accepted(0, 0, count));
    give_states(count, ALL);
    give_session();
    measure(&ordering, "no node, all states linked to all", accepted(0, 0, count));
}

static void measure_other_questions(void)
{
    give_states(1, UNLINKED);
    give_nodes(512, 4, 1);
    give_session();
    measure(&ordering, "full session", accepted(0, 0, 1));
    give_nodes(0, 0, 0);
    give_session();
    measure(&ordering, "no node", accepted(0, 0, 1));

    session_given[0] = 0;
    measure(&matches, "refused for the layout", TRIGGER_NOT_IN_LAYOUT);
    measure(&fires, "refused for the layout", TRIGGER_NOT_IN_LAYOUT);
    measure(&ordering, "refused for the layout", TRIGGER_NOT_IN_LAYOUT);
    words = TRIGGER_SESSION_WORDS - 1;
    measure(&matches, "refused for short memory", TRIGGER_MEMORY_SHORT);
    measure(&fires, "refused for short memory", TRIGGER_MEMORY_SHORT);
    measure(&ordering, "refused for short memory", TRIGGER_MEMORY_SHORT);
}

int main(void)
{
    measure(&fill, "8,192 bytes", (uintptr_t)to);
    measure(&copy, "8,192 bytes", (uintptr_t)to);
    measure(&move, "8,192 bytes", (uintptr_t)to);
    measure(&session_words, "no argument", TRIGGER_SESSION_WORDS);
    measure(&change_places, "no argument", TRIGGER_CHANGE_PLACES);
    /* half a set of states, one more, and a whole one */
    const uint32_t counts[] = {16, 17, 32};
    for (size_t i = 0; i < sizeof counts / sizeof counts[0]; i++) {
        measure_loads(counts[i]);
        measure_edits(counts[i]);
        measure_questions(counts[i]);
    }
    measure_other_loads();
    measure_other_questions();

    conclude(&fill);
    conclude(&copy);
    conclude(&move);
    conclude(&session_words);
    conclude(&change_places);
    conclude(&load);
    conclude(&insert);
    conclude(&delete_edge);
    conclude(&matches);
    conclude(&fires);
    conclude(&ordering);
    return failed;
}

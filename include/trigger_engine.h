/* Trigger states standing at nodes of a capture graph: the engine, for C and C++.

   A trigger has 1 to 32 states, numbered from 1. A state has a mask, a value and a set of links to states (bit i for state i + 1), and is plain or
   inverted. A graph has up to 512 nodes, numbered from 0, each with a sample of 16 bits, and up to 2,048 edges. A plain state admits a node when value
   and sample agree in every bit of the mask; an inverted state admits exactly the nodes that its plain form does not, with one exception: a mask of zero
   admits every node, inverted or not. The pairs (state, node) that stand are those of the greatest simulation: the state admits the node, and each link of
   the state is carried by an edge of the node to a node at which the link's state stands. A state is reached when a chain of links of any length leads to it
   from State One, which is state 1 and itself reached. The trigger fires when every reached state stands at some node. A state that is not reached has marks
   and changes like any other, but does not hold the trigger back.

   All memory is the caller's. Every list is a pointer and a number of places. What is asked of a caller, as of any function of C that takes memory:
   - a pointer is not null and is aligned for its type, and the memory has the places told; a list of no places has such a pointer too;
   - memory that a call writes (session, changes, states) shares no byte with any other memory given to the same call;
   - no other thread writes to the memory given, or reads what the call writes, while the call runs.
   Nothing else is asked: every number, length and content is tested, and a call that breaks a rule is refused.

   A refusal has the number of the first rule broken, in the order of the rules below, and leaves every byte as it was.
   Two sessions to which these calls alone wrote since a load was accepted, with equal triggers, equal samples and the same edges, are equal in all
   TRIGGER_SESSION_WORDS words, in whatever order the edges came and went (proved: crates/promises/specs/OneMemory.antt): memcmp compares them.
   No call keeps a pointer, allocates, or uses any memory but the stack (TRIGGER_STACK_BYTES) and what it is given. */
#ifndef TRIGGER_ENGINE_H
#define TRIGGER_ENGINE_H

#include <stddef.h>
#include <stdint.h>

#ifdef __cplusplus
extern "C" {
#endif

/* Limits. */
enum {
    TRIGGER_MAX_STATES = 32,
    TRIGGER_MAX_NODES = 512,
    TRIGGER_MAX_EDGES = 2048,
    /* the words of a session: what trigger_session_words() answers */
    TRIGGER_SESSION_WORDS = 3172,
    /* the places that the changes of one call may need: what trigger_change_places() answers */
    TRIGGER_CHANGE_PLACES = 16384,
    /* the places that trigger_order writes */
    TRIGGER_ORDER_PLACES = 32
};

/* The stack of each call, in bytes, on x86-64: what to reserve. Counted from the caller's call on: the
   arguments on the stack, the return address, and what the call writes below them. memset, memcpy and memmove of the C library are counted with it; each
   took no more than its return address there. tests/c/stack.c measures the greatest of each call on a painted stack, over its inputs, up to full sessions,
   and fails where it is more than is said here. The figures are those of an archive by an earlier toolchain; today's archive takes at most as much, and
   README.md says how much. The frames in its code, summed along every path of calls, come to what is measured; only an insertion has a path, of 29,632,
   that no input there takes (19,048). Measured and summed, not proved. For another machine, compiler or C library they have to be measured again. What an interrupt puts on the same stack is not in them.
   No function of the engine calls itself, directly or through others, but one: the visit of the depth-first walk, which only trigger_order uses. A visit
   begins only at a state not yet visited, and the number of states not yet visited falls with each visit in a visit, by its proof
   (crates/walk_order/proofs): at most 32 are under way at once, the first one counted. */
enum {
    TRIGGER_STACK_SESSION_WORDS = 8,
    TRIGGER_STACK_CHANGE_PLACES = 8,
    /* an accepted load */
    TRIGGER_STACK_LOAD = 19360,
    /* summed; measured is less, with a session whose marks are tested against its layout: a refused insertion needs as much as an accepted one */
    TRIGGER_STACK_INSERT = 29752,
    /* a ring opened: its edges are indexed */
    TRIGGER_STACK_DELETE = 29752,
    /* these two: a session with marks, whose layout is tested */
    TRIGGER_STACK_MATCHES = 2184,
    TRIGGER_STACK_FIRES = 2168,
    /* the deepest walk: 32 visits */
    TRIGGER_STACK_ORDER = 4304,
    /* the greatest of these */
    TRIGGER_STACK_BYTES = TRIGGER_STACK_DELETE
};

/* The rules. A call is refused with the first that it breaks. */
enum {
    /* no rule is broken */
    TRIGGER_ACCEPTED = 0,
    /* the session has fewer than 3,172 words, or the changes have fewer than 16,384 places, or the states of trigger_order fewer than 32 */
    TRIGGER_MEMORY_SHORT = 3,
    /* a load has no state, more than 32, or one given in part: masks, values and links of different lengths, or an inverted state that has none of them
       (a bit of the set at or above the number of states; with 32 states there is none) */
    TRIGGER_STATES_WRONG = 4,
    /* a link goes to a state above the number of states */
    TRIGGER_LINK_WRONG = 5,
    /* a load has more than 512 nodes */
    TRIGGER_NODES_WRONG = 6,
    /* a load has more than 2,048 edges, or one given in part: starts and ends of different lengths */
    TRIGGER_EDGES_WRONG = 7,
    /* a loaded edge names a node that is not below the number of nodes */
    TRIGGER_EDGE_NODE_WRONG = 8,
    /* the loaded edges do not ascend strictly, by start and then by end */
    TRIGGER_EDGES_UNORDERED = 9,
    /* the session of an edit or a question is not in layout; what an accepted load or edit leaves is in layout */
    TRIGGER_NOT_IN_LAYOUT = 10,
    /* an edit or a question names a node not below the number of nodes, or a state that the trigger does not have */
    TRIGGER_NAME_WRONG = 11,
    /* the edge to insert is present */
    TRIGGER_EDGE_PRESENT = 12,
    /* the edge to insert would be the 2,049th */
    TRIGGER_EDGES_FULL = 13,
    /* the edge to delete is absent */
    TRIGGER_EDGE_ABSENT = 14
};

/* An answer is one number. Bits 0 to 7: the rule broken, 0 where the call is accepted; the other bits are zero then. Of an accepted answer bit 8 is
   firing, or the answer yes; bits 16 to 39 are the trial count; bits 40 to 63 the number of changes, or of states written. */
typedef uint64_t trigger_answer;

/* The number of the rule broken, 0 where the call is accepted. */
static inline unsigned trigger_answer_rule(trigger_answer answer)
{
    return (unsigned)(answer & 0xFFu);
}

/* 1 where the call is accepted, else 0. */
static inline int trigger_answer_accepted(trigger_answer answer)
{
    return (answer & 0xFFu) == 0;
}

/* 1 where the trigger fires, or where the answer to a question is yes, else 0. */
static inline int trigger_answer_yes(trigger_answer answer)
{
    return (int)((answer >> 8) & 1u);
}

/* The trial count of a load or an edit. */
static inline uint32_t trigger_answer_trials(trigger_answer answer)
{
    return (uint32_t)((answer >> 16) & 0xFFFFFFu);
}

/* The number of changes of a load or an edit: this many places at the front of the changes are the change list. */
static inline uint32_t trigger_answer_changes(trigger_answer answer)
{
    return (uint32_t)(answer >> 40);
}

/* The number of states of an order: this many places at the front of the states are the order. */
static inline uint32_t trigger_answer_states(trigger_answer answer)
{
    return (uint32_t)(answer >> 40);
}

/* A change is a number of size node times 64 plus state: positive for a pair that began to stand, negative for one that ceased, never zero. */
static inline int trigger_change_begins(int32_t change)
{
    return change > 0;
}

static inline uint32_t trigger_change_size(int32_t change)
{
    return change < 0 ? 0u - (uint32_t)change : (uint32_t)change;
}

static inline uint32_t trigger_change_state(int32_t change)
{
    return trigger_change_size(change) % 64u;
}

static inline uint32_t trigger_change_node(int32_t change)
{
    return trigger_change_size(change) / 64u;
}

/* How many words a session has: 3,172. Memory past them is never read or written. */
size_t trigger_session_words(void);

/* How many places the changes of one call may need: 16,384. */
size_t trigger_change_places(void);

/* Loads a trigger and a graph, a list for each field: the masks, values and links of the states, the samples of the nodes, the starts and ends of the
   edges; and the set of the inverted states, bit i for state i + 1, 0 where all are plain. The session holds the set as it is given, states of mask zero
   included. Rules 3 to 9.
   Accepted: the session holds exactly this trigger and graph, and marks at exactly the pairs that stand, whatever it held before; its unused places
   are zero and words past its 3,172 are as before. The changes are all standing pairs, ascending by size, at the front, and the places after them are
   as before. The answer tells whether the trigger fires, the number of admitted pairs as the trial count, and the number of changes. */
trigger_answer trigger_load(
    uint32_t *session, size_t session_length,
    const uint16_t *masks, size_t masks_length,
    const uint16_t *values, size_t values_length,
    const uint32_t *links, size_t links_length,
    uint32_t inverted,
    const uint16_t *samples, size_t samples_length,
    const uint32_t *starts, size_t starts_length,
    const uint32_t *ends, size_t ends_length,
    int32_t *changes, size_t changes_length);

/* Inserts the edge from start to end. Rules 3, 10, 11, 12, 13.
   Accepted: the session holds the edge too; trigger, samples and all other edges stay, and words past its 3,172 are as before. Where its marks were at
   exactly the pairs that stood, they are at exactly the pairs that stand now; the changes are the pairs that began to stand, ascending by size, at the
   front, and the places after them are as before; the answer tells whether the trigger fires, the number of pairs tried (the least set that the insertion
   can reach) and the number of changes. An accepted load leaves such marks, whatever it met; an accepted edit leaves them where it met them.
   On a session in layout with other marks: marks are only set, at admitted pairs; the changes are the pairs that got a mark, listed in the same way;
   the trigger fires where every reached state has a mark left; the trial count is at most the number of admitted pairs. */
trigger_answer trigger_insert(
    uint32_t *session, size_t session_length,
    uint32_t start, uint32_t end,
    int32_t *changes, size_t changes_length);

/* Deletes the edge from start to end. Rules 3, 10, 11, 14.
   Accepted: the session does not hold the edge; trigger, samples and all other edges stay, and words past its 3,172 are as before. Where its marks were at
   exactly the pairs that stood, they are at exactly the pairs that stand now; the changes are the pairs that ceased to stand, ascending by size, at the
   front, and the places after them are as before; the answer tells whether the trigger fires, the number of pairs that ceased as the trial count, and the
   number of changes.
   On a session in layout with other marks: marks are only cleared; the changes are the pairs that lost their mark, listed in the same way, and the trial
   count is their number; the trigger fires where every reached state has a mark left. */
trigger_answer trigger_delete(
    uint32_t *session, size_t session_length,
    uint32_t start, uint32_t end,
    int32_t *changes, size_t changes_length);

/* Whether the state with this number stands at the node: yes where the session has a mark at the pair. Rules 3, 10, 11. It writes nothing. */
trigger_answer trigger_matches(const uint32_t *session, size_t session_length, uint32_t state, uint32_t node);

/* Whether the trigger fires: yes where every reached state has a mark at some node. Rules 3, 10. It writes nothing. */
trigger_answer trigger_fires(const uint32_t *session, size_t session_length);

/* The states in depth-first order: State One, then along its links in ascending order to each state not yet met, and so on; then the states that are not
   reached so, ascending. Rules 3, 10.
   Accepted: the first 32 places of the states hold the order, and zeros after it; the places past them are as before. The answer tells the number of
   states. */
trigger_answer trigger_order(
    const uint32_t *session, size_t session_length,
    uint8_t *states, size_t states_length);

#ifdef __cplusplus
}
#endif

#endif

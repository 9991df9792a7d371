/* The session of the engine's description, played through the C interface, one with an inverted state, one with an inverted state of mask zero, two with a
   state that no link leads to, and some of 16, 17 and 32 states. Standard output is compared with session.expected; that each call leaves alone what it is to
   leave alone is tested here, and a breach is written as a line of its own. */
#include "trigger_engine.h"

#include <stdio.h>
#include <string.h>

/* Memory past what is asked for, filled with a pattern that no call may touch. */
enum { MORE = 5, PATTERN = 0x5A };

static uint32_t session[TRIGGER_SESSION_WORDS + MORE];
static int32_t changes[TRIGGER_CHANGE_PLACES + MORE];
static uint8_t states[TRIGGER_ORDER_PLACES + MORE];

static const size_t words = sizeof session / sizeof session[0];
static const size_t places = sizeof changes / sizeof changes[0];

static uint32_t session_before[TRIGGER_SESSION_WORDS + MORE];
static int32_t changes_before[TRIGGER_CHANGE_PLACES + MORE];
static uint8_t states_before[TRIGGER_ORDER_PLACES + MORE];

static void begin(void)
{
    memset(changes, PATTERN, sizeof changes);
    memset(states, PATTERN, sizeof states);
    memcpy(session_before, session, sizeof session);
    memcpy(changes_before, changes, sizeof changes);
    memcpy(states_before, states, sizeof states);
}

static void expect(int holds, const char *breach)
{
    if (!holds) {
        printf("  BREACH: %s\n", breach);
    }
}

/* A refusal leaves every byte, and no call writes past what it may write. */
static void end(trigger_answer answer, size_t filled, int ordered)
{
    if (!trigger_answer_accepted(answer)) {
        expect(answer <= 0xFF, "a refusal tells more than its rule");
        expect(memcmp(session, session_before, sizeof session) == 0, "a refusal wrote to the session");
        expect(memcmp(states, states_before, sizeof states) == 0, "a refusal wrote to the states");
        filled = 0;
        ordered = 0;
    }
    expect(memcmp(session + TRIGGER_SESSION_WORDS, session_before + TRIGGER_SESSION_WORDS, MORE * sizeof session[0]) == 0,
           "words past the session are written");
    expect(memcmp(changes + filled, changes_before + filled, (places - filled) * sizeof changes[0]) == 0,
           "places past the changes are written");
    const size_t kept = ordered ? TRIGGER_ORDER_PLACES : 0;
    expect(memcmp(states + kept, states_before + kept, sizeof states - kept) == 0, "places past the order are written");
}

static void report(const char *call, trigger_answer answer)
{
    const uint32_t count = trigger_answer_changes(answer);
    if (!trigger_answer_accepted(answer)) {
        printf("%s: refused %u\n", call, trigger_answer_rule(answer));
    } else {
        printf("%s: accepted, %s, trials %u, changes %u", call, trigger_answer_yes(answer) ? "fires" : "silent",
               (unsigned)trigger_answer_trials(answer), (unsigned)count);
        for (uint32_t i = 0; i < count; i++) {
            const int32_t change = changes[i];
            printf("%s%c%u", i == 0 ? ": " : " ", trigger_change_begins(change) ? '+' : '-', (unsigned)trigger_change_size(change));
            expect(trigger_change_size(change) == trigger_change_node(change) * 64 + trigger_change_state(change), "a change falls apart");
        }
        printf("\n");
    }
    end(answer, count, 0);
}

static void insert(const char *call, uint32_t start, uint32_t end_node, size_t room)
{
    begin();
    report(call, trigger_insert(session, words, start, end_node, changes, room));
}

static void delete_edge(const char *call, uint32_t start, uint32_t end_node)
{
    begin();
    report(call, trigger_delete(session, words, start, end_node, changes, places));
}

static void question(const char *call, trigger_answer answer)
{
    if (!trigger_answer_accepted(answer)) {
        printf("%s: refused %u\n", call, trigger_answer_rule(answer));
    } else {
        printf("%s: %s\n", call, trigger_answer_yes(answer) ? "yes" : "no");
    }
    expect(memcmp(session, session_before, sizeof session) == 0, "a question wrote to the session");
    end(answer, 0, 0);
}

static void order(const char *call, size_t room)
{
    begin();
    const trigger_answer answer = trigger_order(session, words, states, room);
    const uint32_t count = trigger_answer_states(answer);
    if (!trigger_answer_accepted(answer)) {
        printf("%s: refused %u\n", call, trigger_answer_rule(answer));
    } else {
        printf("%s: %u states:", call, (unsigned)count);
        for (uint32_t i = 0; i < count; i++) {
            printf(" %u", (unsigned)states[i]);
        }
        printf("\n");
        for (uint32_t i = count; i < TRIGGER_ORDER_PLACES; i++) {
            expect(states[i] == 0, "a place after the states is not zero");
        }
    }
    end(answer, 0, 1);
}

/* So many states, and nodes without edges. */
static void load_states(const char *call, size_t count, const uint16_t *masks, const uint16_t *values, const uint32_t *links, uint32_t inverted,
                        const uint16_t *samples, size_t nodes)
{
    static const uint32_t no_edges[] = {0};
    begin();
    report(call, trigger_load(session, words, masks, count, values, count, links, count, inverted, samples, nodes, no_edges, 0, no_edges, 0, changes,
                              places));
}

/* Two states. */
static void load(const char *call, const uint16_t *masks, const uint16_t *values, const uint32_t *links, uint32_t inverted, const uint16_t *samples,
                 size_t nodes)
{
    load_states(call, 2, masks, values, links, inverted, samples, nodes);
}

static const uint16_t all_bits[] = {0xFFFF, 0xFFFF};
/* each is linked to the other */
static const uint32_t ring[] = {0x0002, 0x0001};

static void play_the_description(void)
{
    const uint16_t values[] = {0x0001, 0x0002};
    const uint16_t samples[] = {0x0001, 0x0002};

    begin();
    question("fires before the load", trigger_fires(session, words));

    load("load", all_bits, values, ring, 0, samples, 2);

    insert("insert 0 1", 0, 1, places);
    insert("insert 1 0", 1, 0, places);

    begin();
    question("fires", trigger_fires(session, words));
    question("state 1 at node 0", trigger_matches(session, words, 1, 0));
    question("state 2 at node 0", trigger_matches(session, words, 2, 0));
    question("state 3 at node 0", trigger_matches(session, words, 3, 0));

    insert("insert 1 0", 1, 0, places);
    insert("insert 2 0", 2, 0, places);
    insert("insert into 16383 places", 0, 0, TRIGGER_CHANGE_PLACES - 1);
    delete_edge("delete 0 1", 0, 1);
    delete_edge("delete 0 1", 0, 1);

    begin();
    question("fires", trigger_fires(session, words));

    order("order into 31 places", TRIGGER_ORDER_PLACES - 1);
    order("order", sizeof states);
}

static void play_inverted_states(void)
{
    const uint16_t idle[] = {0x0000, 0x0000};
    const uint16_t words_seen[] = {0x0000, 0x00A5, 0x0001};

    /* state 1 is anything but the idle word, state 2 is the idle word */
    load("load of an inverted state that is not there", all_bits, idle, ring, 4, words_seen, 3);
    load("load of an inverted state", all_bits, idle, ring, 1, words_seen, 3);
    insert("insert 0 1", 0, 1, places);
    insert("insert 1 0", 1, 0, places);
    insert("insert 2 0", 2, 0, places);
    delete_edge("delete 0 1", 0, 1);

    /* state 1 has a mask of zero and admits every node, the idle word too, though it is inverted */
    const uint16_t blank[] = {0x0000, 0xFFFF};
    load("load of an inverted state of mask zero", blank, idle, ring, 1, words_seen, 3);
    expect(session[3] == 1, "the session does not hold the inversion as it was given");
    insert("insert 0 0", 0, 0, places);
    insert("insert 1 0", 1, 0, places);
    begin();
    question("state 1 at node 0", trigger_matches(session, words, 1, 0));
    delete_edge("delete 0 0", 0, 0);
}

static void play_orphans(void)
{
    const uint16_t values[] = {0x0001, 0x0002};
    const uint16_t samples[] = {0x0001, 0x0002};
    const uint32_t to_state_one[] = {0x0000, 0x0001};
    const uint32_t unlinked[] = {0x0000, 0x0000};

    /* state 2 is linked to state 1 and no state to it: the trigger fires without it, and its changes are told */
    load("load of an orphan", all_bits, values, to_state_one, 0, samples, 2);
    begin();
    question("fires", trigger_fires(session, words));
    question("state 2 at node 1", trigger_matches(session, words, 2, 1));
    insert("insert 1 0", 1, 0, places);
    delete_edge("delete 1 0", 1, 0);

    /* the orphan alone stands */
    load("load of an orphan without its state 1", all_bits, values, unlinked, 0, samples + 1, 1);
    begin();
    question("fires", trigger_fires(session, words));
}

/* State 1 is linked to the last state alone. The states between them are linked to none, and their word is nowhere. */
static uint16_t wide_masks[TRIGGER_MAX_STATES + 1], wide_values[TRIGGER_MAX_STATES + 1];
static uint32_t wide_links[TRIGGER_MAX_STATES + 1];

static void give_last(size_t count)
{
    memset(wide_links, 0, sizeof wide_links);
    for (size_t i = 0; i <= TRIGGER_MAX_STATES; i++) {
        wide_masks[i] = 0xFFFF;
        wide_values[i] = 0x0009;
    }
    wide_values[0] = 0x0001;
    wide_values[count - 1] = 0x0002;
    wide_links[0] = 1u << (count - 1);
}

/* The state with the last number decides whether state 1 stands. */
static void play_last(const char *call, size_t count)
{
    const uint16_t samples[] = {0x0001, 0x0002};
    give_last(count);
    load_states(call, count, wide_masks, wide_values, wide_links, 0, samples, 2);
    insert("insert 0 1", 0, 1, places);
    begin();
    question("the last state at node 1", trigger_matches(session, words, (uint32_t)count, 1));
    question("the state after it at node 1", trigger_matches(session, words, (uint32_t)count + 1, 1));
    delete_edge("delete 0 1", 0, 1);
    order("order", TRIGGER_ORDER_PLACES);
}

static void play_wide_triggers(void)
{
    const uint16_t samples[] = {0x0001, 0x0002};
    /* sections of the session: after four words the masks, the values, the links; at its end the marks */
    const uint32_t *links = session + 4 + 2 * TRIGGER_MAX_STATES, *marks = session + TRIGGER_SESSION_WORDS - TRIGGER_MAX_NODES;

    play_last("load of 16 states", 16);
    for (size_t i = 0; i < TRIGGER_MAX_STATES; i++) {
        expect(links[i] < 0x10000, "the links of 16 states have an upper half");
        expect(i < 16 || links[i] == 0, "a state that is not there has links");
    }
    expect(marks[0] == 0 && marks[1] == 0x8000, "the marks of 16 states");
    play_last("load of 17 states", 17);
    expect(marks[0] == 0 && marks[1] == 0x10000, "the marks of 17 states");
    play_last("load of 32 states", 32);
    expect(links[0] == 0x80000000 && marks[1] == 0x80000000, "the links and marks of 32 states");

    /* the last state inverted and the word of node 0: it is at node 1 alone, as before */
    wide_values[31] = 0x0001;
    load_states("load of 32 states, the last inverted", 32, wide_masks, wide_values, wide_links, 0x80000000, samples, 2);
    load_states("load of 33 states", 33, wide_masks, wide_values, wide_links, 0, samples, 2);
    load_states("load of 31 states, a link to the next", 31, wide_masks, wide_values, wide_links, 0, samples, 2);
    wide_links[0] = 0x00010000;
    load_states("load of 16 states, a link to the next", 16, wide_masks, wide_values, wide_links, 0, samples, 2);
    load_states("load of 17 states, a link to the last", 17, wide_masks, wide_values, wide_links, 0, samples, 2);
    load_states("load of 17 states, the next inverted", 17, wide_masks, wide_values, wide_links, 0x00020000, samples, 2);
}

int main(void)
{
    memset(session, PATTERN, sizeof session);
    printf("words %zu, places %zu\n", trigger_session_words(), trigger_change_places());
    expect(trigger_session_words() == TRIGGER_SESSION_WORDS, "the header has another number of words");
    expect(trigger_change_places() == TRIGGER_CHANGE_PLACES, "the header has another number of places");

    play_the_description();
    play_inverted_states();
    play_orphans();
    play_wide_triggers();
    return 0;
}

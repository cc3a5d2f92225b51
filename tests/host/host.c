/*
 * A till host: the ring of document 01, P8, in which a card gives what it receives, and a call for each refusal but 23. Every case
 * checks the answer and every number of the holdings, with a number before and after them; one line each. Exit status 1 where one fails.
 */
#include <stdio.h>
#include <string.h>

#include "thawcroft.h"

enum { COUNT = THAWCROFT_HOLDING_COUNT, SUM_LIMIT = 1000000000, TEXT_ROOM = 20000 };

/* What surrounds the lent holdings and must stay. */
static const uint32_t GUARD = 0xa5a5a5a5;

static const char BOOK[] =
    "C 700056000016\n"
    "C 700012000019\n"
    "C 700012000027\n"
    "G 1 2\n"
    "R 1 A a < b C *\n"
    "R 2 B a < b A *\n"
    "R 3 C a < b B *\n"
    "R 2 B a < a D * = a *\n"
    "R 3 D a < b B *\n"
    "R 1 B a < a D b ? 1 b\n"
    "R 1 A a < b D *\n"
    "R 2 D a < a A *\n";

/* 1 A 2, 2 B 3, 3 C 1, by the rules 1, 2, 3 */
static const uint8_t RING[9] = {1, 1, 2, 2, 2, 3, 3, 3, 1};
static const uint8_t RING_PROOF[36] = {
    2, 1, 1, 0, 2, 3, 0, 0, 0, 0, 0, 0,
    3, 2, 2, 0, 3, 1, 0, 0, 0, 0, 0, 0,
    0, 3, 3, 0, 1, 2, 0, 0, 0, 0, 0, 0,
};

/* One call's slices; room[1] is the first of the holdings. */
struct call {
    char text[TEXT_ROOM];
    size_t text_length;
    uint32_t room[1 + COUNT + 2];
    size_t count;
    uint8_t exchange[128];
    size_t exchange_length;
    uint8_t proof[4096];
    size_t proof_length;
};

static struct call call;
static int failures;

static size_t place(size_t card, size_t kind) {
    return (card - 1) * 16 + kind - 1;
}

static void hold(size_t card, size_t kind, uint32_t number) {
    call.room[1 + place(card, kind)] = number;
}

/* The ring's call, which settles. */
static void ring(void) {
    memset(&call, 0, sizeof call);
    call.text_length = strlen(BOOK);
    memcpy(call.text, BOOK, call.text_length);
    call.room[0] = call.room[1 + COUNT] = call.room[2 + COUNT] = GUARD;
    call.count = COUNT;
    hold(1, 1, 2);
    hold(2, 2, 1);
    hold(3, 3, 1);
    call.exchange_length = sizeof RING;
    memcpy(call.exchange, RING, sizeof RING);
    call.proof_length = sizeof RING_PROOF;
    memcpy(call.proof, RING_PROOF, sizeof RING_PROOF);
}

static uint32_t settle(void) {
    return thawcroft_settle((const uint8_t *)call.text, call.text_length, call.room + 1, call.count,
                            call.exchange, call.exchange_length, call.proof, call.proof_length);
}

/* Makes the call; `expected` is all of the room afterwards. */
static void check(const char *name, uint32_t number, const uint32_t *expected) {
    uint32_t answer = settle();
    int same = memcmp(call.room, expected, sizeof call.room) == 0;
    int good = answer == number && same;
    printf("%-4s %2u  %s\n", good ? "ok" : "BAD", (unsigned)answer, name);
    if (answer != number)
        printf("     expected %u\n", (unsigned)number);
    if (!same)
        printf("     the holdings are not the expected ones\n");
    failures += !good;
}

/* A refusal leaves every number. */
static void refused(const char *name, uint32_t number) {
    uint32_t before[sizeof call.room / sizeof call.room[0]];
    memcpy(before, call.room, sizeof before);
    check(name, number, before);
}

/* Each transfer of the exchange moves one token. */
static void settled(const char *name) {
    uint32_t after[sizeof call.room / sizeof call.room[0]];
    memcpy(after, call.room, sizeof after);
    for (size_t i = 0; i < call.exchange_length; i += 3) {
        const uint8_t *transfer = call.exchange + i;
        after[1 + place(transfer[0], transfer[1])] -= 1;
        after[1 + place(transfer[2], transfer[1])] += 1;
    }
    check(name, THAWCROFT_DONE, after);
}

static void add(const char *line) {
    size_t length = strlen(line);
    memcpy(call.text + call.text_length, line, length);
    call.text_length += length;
}

/* ---- settled */

static void settles(void) {
    ring();
    settled("the ring");
    refused("the ring again: the tokens are gone", THAWCROFT_NOT_COVERED);
    ring();
    call.text_length = 0;
    add("C 7000-5600-0016\n");
    add(BOOK + strlen("C 700056000016\n"));
    settled("the ring, its first card as it is printed");
    ring();
    hold(3, 1, SUM_LIMIT - 2);
    settled("a kind's sum of 1,000,000,000");
}

/* ---- the text: 1 to 7 */

static void text(const char *name, const char *lines, uint32_t number) {
    ring();
    call.text_length = strlen(lines);
    memcpy(call.text, lines, call.text_length);
    refused(name, number);
}

/* A card line of 12 digits, the 10th and 11th those of n, with its check digit. */
static void add_card(int n) {
    char line[] = "C 700012000000\n";
    int sum = 0;
    line[2 + 9] = (char)('0' + n / 10);
    line[2 + 10] = (char)('0' + n % 10);
    for (int i = 0; i < 11; i++) {
        int digit = line[2 + i] - '0';
        int doubled = 2 * digit > 9 ? 2 * digit - 9 : 2 * digit;
        sum += i % 2 == 0 ? doubled : digit;
    }
    line[2 + 11] = (char)('0' + (10 - sum % 10) % 10);
    add(line);
}

static void cards(const char *name, int n, uint32_t number) {
    ring();
    call.text_length = 0;
    for (int i = 0; i < n; i++)
        add_card(i);
    call.exchange_length = 0;
    refused(name, number);
}

static void rules(const char *name, int n, uint32_t number) {
    ring();
    call.text_length = 0;
    for (int i = 0; i < 3; i++)
        add_card(i);
    for (int i = 0; i < n; i++)
        add("R 1 A a\n");
    call.exchange_length = 0;
    refused(name, number);
}

static void texts(void) {
    ring();
    call.text_length = 16385;
    refused("a text of 16,385 bytes", THAWCROFT_TEXT_TOO_LONG);
    call.text_length = 16384;
    refused("16,384 bytes, the last line without its LF", THAWCROFT_NO_FORM);
    text("two spaces", "C  700012000019\n", THAWCROFT_NO_FORM);
    text("a doubled hyphen", "C 7000--1200-0019\n", THAWCROFT_NO_FORM);
    cards("32 cards: the exchange is asked next", 32, THAWCROFT_EXCHANGE_SIZE);
    cards("33 cards", 33, THAWCROFT_TOO_MANY_CARDS);
    text("a wrong check digit", "C 700012000018\n", THAWCROFT_BAD_CARD_NUMBER);
    text("a wrong check digit, the card as it is printed", "C 7000-1200-0018\n", THAWCROFT_BAD_CARD_NUMBER);
    text("a card twice", "C 700012000019\nC 700012000019\n", THAWCROFT_CARD_REPEATED);
    text("a card, then the same as it is printed", "C 700012000019\nC 7000-1200-0019\n", THAWCROFT_CARD_REPEATED);
    text("a card as it is printed, then its digits", "C 7000-1200-0019\nC 700012000019\n", THAWCROFT_CARD_REPEATED);
    text("a group before its card", "G 1 1\nC 700012000019\n", THAWCROFT_CARD_NOT_ABOVE);
    rules("56 rules: the exchange is asked next", 56, THAWCROFT_EXCHANGE_SIZE);
    rules("57 rules", 57, THAWCROFT_TOO_MANY_RULES);
}

/* ---- the holdings: 24 */

static void count(const char *name, size_t number) {
    ring();
    call.count = number;
    refused(name, THAWCROFT_BAD_HOLDINGS);
}

static void holding(const char *name, size_t card, size_t kind, uint32_t number) {
    ring();
    hold(card, kind, number);
    refused(name, THAWCROFT_BAD_HOLDINGS);
}

static void holdings(void) {
    count("no holdings", 0);
    count("511 holdings", COUNT - 1);
    count("513 holdings", COUNT + 1);
    holding("undeclared card 4 holds an A", 4, 1, 1);
    holding("undeclared card 32 holds a P", 32, 16, 1);
    holding("a kind's sum of 1,000,000,001", 3, 1, SUM_LIMIT - 1);
    holding("a kind's sum that passes 32 bits", 3, 1, 4294967295u);
    holding("a holding of 4,294,967,295", 2, 16, 4294967295u);
    ring();
    call.count = COUNT - 1;
    call.text_length -= 1;
    refused("511 holdings, a text without its last LF: the text is asked first", THAWCROFT_NO_FORM);
    ring();
    hold(4, 1, 1);
    call.exchange_length = 0;
    refused("bad holdings, no exchange: the holdings are asked first", THAWCROFT_BAD_HOLDINGS);
}

/* ---- the exchange and its proof: 12 to 22. 23 cannot be reached: where 24 is met no card can pass its kind's sum. */

static void exchange_of(const char *name, size_t length, uint32_t number) {
    ring();
    call.exchange_length = length;
    refused(name, number);
}

static void proof_of(const char *name, size_t length, uint32_t number) {
    ring();
    call.proof_length = length;
    refused(name, number);
}

/* One byte changed. */
static void in_exchange(const char *name, size_t at, uint8_t byte, uint32_t number) {
    ring();
    call.exchange[at] = byte;
    refused(name, number);
}

static void in_proof(const char *name, size_t at, uint8_t byte, uint32_t number) {
    ring();
    call.proof[at] = byte;
    refused(name, number);
}

static void sizes(void) {
    exchange_of("no exchange", 0, THAWCROFT_EXCHANGE_SIZE);
    exchange_of("8 bytes of exchange", 8, THAWCROFT_EXCHANGE_SIZE);
    exchange_of("99 bytes of exchange", 99, THAWCROFT_EXCHANGE_SIZE);
    exchange_of("96 bytes of exchange: the fourth transfer is bad", 96, THAWCROFT_BAD_TRANSFER);
    proof_of("no proof", 0, THAWCROFT_PROOF_SIZE);
    proof_of("35 bytes of proof", 35, THAWCROFT_PROOF_SIZE);
    proof_of("3,072 bytes of proof", 3072, THAWCROFT_PROOF_SIZE);
}

static void transfers(void) {
    in_exchange("an undeclared giver", 3, 4, THAWCROFT_BAD_TRANSFER);
    in_exchange("giver and receiver alike", 2, 1, THAWCROFT_BAD_TRANSFER);
    in_exchange("kind 17", 7, 17, THAWCROFT_BAD_TRANSFER);
}

static void records(void) {
    in_proof("a claim of transfer 0", 1, 0, THAWCROFT_BAD_CLAIM);
    in_proof("transfer 1 claimed twice", 13, 1, THAWCROFT_BAD_CLAIM);
    in_proof("rule 9", 26, 9, THAWCROFT_WRONG_RULE);
    in_proof("a rule of another card", 2, 2, THAWCROFT_WRONG_RULE);
    in_proof("byte 3 not zero", 3, 1, THAWCROFT_BAD_CARDS);
    in_proof("an unused variable not zero", 35, 1, THAWCROFT_BAD_CARDS);
    in_proof("a price from the owner", 5, 1, THAWCROFT_BAD_PRICE);
    in_proof("next zero too early", 0, 0, THAWCROFT_BAD_LINK);
    in_proof("next past the proof", 12, 4, THAWCROFT_BAD_LINK);
    in_proof("a price that nobody pays", 5, 2, THAWCROFT_PRICE_UNPAID);
}

/* So many transfers in the place of the ring's, and a proof with a record for each. */
static void propose(const uint8_t *exchange, const uint8_t *proof, size_t transfers) {
    call.exchange_length = transfers * 3;
    memcpy(call.exchange, exchange, call.exchange_length);
    call.proof_length = transfers * 12;
    memcpy(call.proof, proof, call.proof_length);
}

static void condition(void) {
    static const uint8_t gift[3] = {2, 2, 1};
    static const uint8_t record[12] = {0, 1, 4, 0, 1};
    ring();
    propose(gift, record, 1);
    refused("2 B 1 by rule 4: another issuer", THAWCROFT_CONDITION_UNMET);
}

static void uncovered(void) {
    ring();
    hold(2, 2, 0);
    refused("card 2 holds no B", THAWCROFT_NOT_COVERED);
    ring();
    hold(3, 3, 0);
    hold(1, 3, 1);
    refused("card 1 holds the C that card 3 gives", THAWCROFT_NOT_COVERED);
}

/* 1 A 2, 2 D 1, 2 B 3, 3 D 2, by the rules 7, 8, 4, 5: card 2 gives the D that it receives. */
static void passed_on(void) {
    static const uint8_t exchange[12] = {1, 1, 2, 2, 4, 1, 2, 2, 3, 3, 4, 2};
    static const uint8_t proof[48] = {
        2, 1, 7, 0, 2, 2, 0, 0, 0, 0, 0, 0,
        3, 2, 8, 0, 1, 0, 0, 0, 0, 0, 0, 0,
        4, 3, 4, 0, 3, 0, 0, 0, 0, 0, 0, 0,
        0, 4, 5, 0, 2, 2, 0, 0, 0, 0, 0, 0,
    };
    ring();
    propose(exchange, proof, 4);
    refused("card 3 neither holds nor receives the D that it gives", THAWCROFT_NOT_COVERED);
    hold(3, 4, 1);
    settled("card 2 gives the D that it receives");
}

/* An empty slice's pointer is not read. */
static void empty_slices(void) {
    uint32_t numbers[COUNT] = {0};
    uint32_t text_first = thawcroft_settle(NULL, 0, NULL, 0, NULL, 0, NULL, 0);
    uint32_t exchange_next = thawcroft_settle(NULL, 0, numbers, COUNT, NULL, 0, NULL, 0);
    int good = text_first == THAWCROFT_BAD_HOLDINGS && exchange_next == THAWCROFT_EXCHANGE_SIZE;
    printf("%-4s %2u  empty slices without a pointer\n", good ? "ok" : "BAD", (unsigned)exchange_next);
    failures += !good;
}

int main(void) {
    settles();
    texts();
    holdings();
    sizes();
    transfers();
    records();
    condition();
    uncovered();
    passed_on();
    empty_slices();
    printf("%s\n", failures == 0 ? "host: ok" : "host: FAILED");
    return failures != 0;
}

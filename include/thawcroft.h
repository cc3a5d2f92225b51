/*
 * The till host's call: a proposed exchange judged by a rule text and settled over lent holdings.
 *
 * Link with libtill.a (make lib), which needs nothing but the C library. The archive is for x86-64 Linux.
 *
 * Rule text: ASCII lines, each ended by LF, words one space apart. Cards and rules are numbered from 1 in the order of their lines.
 *   C digits      a card: 12 to 19 digits, the last of them the Luhn check digit. One hyphen (-) may stand between any two neighbouring
 *                 digits, as cards are printed, and counts for nothing but the text's size: C 7000-1200-0019 and C 700012000019 are
 *                 the same card
 *   G g m         card m is in group g, 1 to 8
 *   R m K v       card m gives one token of kind K, A to P, to the card for v, a variable a to h. On the same line, each after a space,
 *                 follow up to four prices and then up to four conditions; the rule serves where every price is a transfer of the
 *                 exchange and every condition holds:
 *     < w K y       the card for the variable w gives one token of kind K to y, another variable or * for card m
 *     ? g z         z, a variable or *, is in group g
 *     = y z         the cards y and z, variables or *, have the same first six digits
 *   m is 1 to 99 without a leading zero, and its C line is above.
 * Exchange: 1 to 32 transfers of three bytes, giver, kind (A is 1, P is 16) and receiver.
 * Proof: records of twelve bytes, numbered from 1: the next record, the transfer claimed (from 1), the rule used, 0, and the cards for a to h
 *   (0 where the rule does not use the variable). The chain starts at record 1, claims each transfer once, and ends with a next of 0.
 *   There are at most 255 records; one off the chain is never read.
 */
#ifndef THAWCROFT_H
#define THAWCROFT_H

#include <stddef.h>
#include <stdint.h>

#ifdef __cplusplus
extern "C" {
#endif

/*
 * Raised when some call is answered otherwise than before. 2: card lines may have hyphens; a call whose text has none is answered as in 1.
 * 3: a card may give what it receives in the same exchange, so some calls that 2 answers with 22 are answered 0; every other call is answered
 * as in 2. A host that asks by itself whether givers hold what they give has to leave that out. The archive does not tell its version: build
 * it from the commit that the header is of.
 */
#define THAWCROFT_VERSION 3

/* 32 cards by 16 kinds. Card m's holding of kind k (A is 1, P is 16) is at (m - 1) * 16 + k - 1. */
#define THAWCROFT_HOLDING_COUNT 512

/* What the call answers. */
enum thawcroft_answer {
    /* Settled: each holding has lost what the card gives and gained what it receives. */
    THAWCROFT_DONE = 0,

    /* The rule text: what its first failing line does not meet. */
    THAWCROFT_TEXT_TOO_LONG = 1,   /* more than 16,384 bytes */
    THAWCROFT_NO_FORM = 2,         /* a line has none of the three forms, or no LF */
    THAWCROFT_TOO_MANY_CARDS = 3,  /* a 33rd card */
    THAWCROFT_BAD_CARD_NUMBER = 4, /* not 12 to 19 digits (hyphens are not counted), or a wrong check digit */
    THAWCROFT_CARD_REPEATED = 5,   /* a card that is above, digit for digit, with hyphens or without */
    THAWCROFT_CARD_NOT_ABOVE = 6,  /* a group or a rule of a card that is not declared above */
    THAWCROFT_TOO_MANY_RULES = 7,  /* a 57th rule */

    /* The holdings. Asked after 1 to 7 and before 12. */
    THAWCROFT_BAD_HOLDINGS = 24, /* not 512 numbers, an undeclared card's not zero, or a kind's sum over 1,000,000,000 */

    /* The exchange and its proof. */
    THAWCROFT_EXCHANGE_SIZE = 12,   /* not 3 to 96 bytes, a multiple of 3 */
    THAWCROFT_BAD_TRANSFER = 13,    /* a transfer without two different declared cards and a kind 1 to 16 */
    THAWCROFT_PROOF_SIZE = 14,      /* not 12 to 3,060 bytes, a multiple of 12 */
    THAWCROFT_BAD_CLAIM = 15,       /* a record's transfer is not in the exchange, or claimed earlier in the chain */
    THAWCROFT_WRONG_RULE = 16,      /* no such rule, or not one with the transfer's giver and kind */
    THAWCROFT_BAD_CARDS = 17,       /* byte 3 not zero, a used variable's card not declared, the head's not the receiver, or an unused one's not zero */
    THAWCROFT_BAD_PRICE = 18,       /* a price from the owner, or from a card to itself */
    THAWCROFT_CONDITION_UNMET = 19, /* a condition does not hold */
    THAWCROFT_BAD_LINK = 20,        /* next does not end the chain with the last claim, or is no record */
    THAWCROFT_PRICE_UNPAID = 21,    /* a transfer is asked as a price more often than it occurs */
    THAWCROFT_NOT_COVERED = 22,     /* a card gives more of a kind than it holds plus what it receives of it */
    THAWCROFT_HOLDING_EXCEEDED = 23 /* a card would end with over 1,000,000,000; never the answer, since 24 rules it out */
};

/*
 * Answers 0, or the number of the first question, in the order 1 to 7, 24, 12 to 23, that is answered no. docs/REFUSALS.md says, for each
 * number, what to look at.
 * On 0 the holdings are rewritten, all 512; on any other answer each of the lent numbers is as it was. No state is kept between
 * calls, nothing is allocated (the call takes 9 KB of stack), and two threads may call it at once with holdings of their own.
 *
 * Each slice is a pointer and a length: bytes for text, exchange and proof, without a NUL at the end; for the holdings numbers, 512 and not
 * their size in bytes. The pointer of an empty slice may be NULL. The caller sees to it that each pointer is to so many elements, that the
 * holdings are aligned as uint32_t are (they are in the machine's byte order) and overlap none of the other slices, and that during the call
 * nobody else reads or writes the holdings or writes the others, which may overlap each other.
 */
uint32_t thawcroft_settle(const uint8_t *text, size_t text_length,
                          uint32_t *holdings, size_t holding_count,
                          const uint8_t *exchange, size_t exchange_length,
                          const uint8_t *proof, size_t proof_length);

#ifdef __cplusplus
}
#endif

#endif

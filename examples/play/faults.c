/* The faults on purpose of afdx_play. They change frames after the library has made them. */
#include "play.h"

#include <ctype.h>
#include <errno.h>
#include <stdlib.h>
#include <string.h>

/* The word of a fault, the number after its frame's and what that may be, how many numbers follow its network, the base of the
 * second, and its greatest value. */
static const struct form {
    const char *word, *second, *range;
    int numbers, base;
    uint64_t most;
} forms[] = {
    [LOSE] = {"lose", NULL, NULL, 1, 0, 0},
    [REPEAT] = {"repeat", NULL, NULL, 1, 0, 0},
    [SWAP] = {"swap", "OTHER", "a later frame up to 4294967295", 2, 10, UINT32_MAX},
    [NUMBER] = {"number", "NUMBER", "0 to 255", 2, 10, UINT8_MAX},
    [EARLY] = {"early", "MICROS", "0 to 4294967295", 2, 10, UINT32_MAX},
    [FLIP] = {"flip", "INDEX", "hexadecimal, 0 to 5e9", 2, 16, AFDX_GREATEST_FRAME - 1},
    [DOWN] = {"down", NULL, NULL, 1, 0, 0},
};

/* Reads a number without a sign, after spaces. Returns what follows, or NULL if there is none of 64 bits. */
static const char *read_number(const char *text, int base, uint64_t *value) {
    char *end = NULL;
    while (*text == ' ') text++;
    if (!isalnum((unsigned char)*text)) return NULL;
    errno = 0;
    *value = strtoull(text, &end, base);
    return end != text && errno == 0 ? end : NULL;
}

/* Adds a fault. Returns whether it is one. */
static bool add_fault(struct faults *faults, const char *text) {
    char word[8] = "", network = '?';
    uint64_t frame = 0, value = 0;
    int end = 0;
    if (sscanf(text, "%7s %c%n", word, &network, &end) != 2) return false;
    const char *rest = read_number(text + end, 10, &frame);
    for (size_t kind = 0; kind < sizeof forms / sizeof *forms && rest != NULL; kind++) {
        const struct form *form = &forms[kind];
        if (strcmp(word, form->word) != 0) continue;
        if (form->numbers == 2) rest = read_number(rest, form->base, &value);
        if (rest == NULL || rest[strspn(rest, " ")] != '\0') return false;
        if ((network != 'A' && network != 'B') || frame == 0 || value > form->most || (kind == SWAP && value <= frame)) return false;
        faults->list[faults->count++] = (struct fault){
            .kind = (enum fault_kind)kind, .network = network == 'A' ? AFDX_A : AFDX_B, .frame = frame, .value = value, .text = text};
        return true;
    }
    return false;
}

/* Prints which form a fault with the first word of a text has, and that it is another. */
static void tell_form(const char *text) {
    const char *word = text + strspn(text, " ");
    size_t length = strcspn(word, " "), kind = 0, kinds = sizeof forms / sizeof *forms;
    while (kind < kinds && (strlen(forms[kind].word) != length || strncmp(forms[kind].word, word, length) != 0)) kind++;
    if (kind == kinds) {
        fprintf(stderr, "--fault: lose, repeat, swap, number, early, flip or down is wanted first, and \"%s\" is seen\n", text);
        return;
    }
    const struct form *form = &forms[kind];
    if (form->second == NULL)
        fprintf(stderr, "--fault: %s NETWORK FRAME is wanted, where NETWORK is A or B and FRAME is 1 or more, and \"%s\" is seen\n",
                form->word, text);
    else
        fprintf(stderr, "--fault: %s NETWORK FRAME %s is wanted, where NETWORK is A or B, FRAME is 1 or more and %s is %s, and \"%s\" is seen\n",
                form->word, form->second, form->second, form->range, text);
}

bool read_fault(struct faults *faults, const char *text) {
    if (faults->count == MOST_FAULTS) {
        fprintf(stderr, "--fault: at most %d are wanted, and \"%s\" is one more\n", MOST_FAULTS, text);
        return false;
    }
    if (add_fault(faults, text)) return true;
    tell_form(text);
    return false;
}

/* Whether a fault, if it is made, keeps another one of its network from being made. */
static bool hinders(const struct fault *one, const struct fault *other) {
    if (one->network != other->network) return false;
    bool is_same = one->frame == other->frame;
    bool is_after = other->frame >= one->frame || (other->kind == SWAP && other->value >= one->frame);
    if (one->kind == DOWN) return is_after;
    if (one->kind == LOSE) return is_same && other->kind != SWAP && other->kind != DOWN;
    return one->kind == other->kind && is_same && (one->kind == EARLY || one->kind == REPEAT || one->kind == NUMBER || one->value == other->value);
}

bool find_clash(const struct faults *faults, const char **one, const char **other) {
    for (size_t k = 0; k < faults->count; k++)
        for (size_t i = 0; i < faults->count; i++)
            if (i != k && hinders(&faults->list[k], &faults->list[i])) {
                *one = faults->list[k].text;
                *other = faults->list[i].text;
                return true;
            }
    return false;
}

bool has_to_rehearse(const struct faults *faults) {
    for (size_t k = 0; k < faults->count; k++)
        if (faults->list[k].kind == SWAP || faults->list[k].kind == EARLY) return true;
    return false;
}

void learn(struct faults *faults, uint8_t network, uint64_t number, const struct frame *frame) {
    for (size_t k = 0; k < faults->count; k++) {
        struct fault *fault = &faults->list[k];
        if (fault->network != network) continue;
        if (fault->frame == number) fault->own = *frame;
        if (fault->kind == SWAP && fault->value == number) fault->other = *frame;
        if (fault->frame == number && fault->kind == EARLY) fault->is_known = true;
        if (fault->kind == SWAP && fault->value == number) fault->is_known = true;
    }
}

uint64_t exchange(const struct faults *faults, uint8_t network, uint64_t place, struct frame *frame) {
    const struct frame *other = NULL;
    for (size_t k = faults->count; k > 0; k--) {
        const struct fault *fault = &faults->list[k - 1];
        bool is_own = fault->frame == place;
        if (fault->kind != SWAP || fault->network != network || !fault->is_known || (!is_own && fault->value != place)) continue;
        place = is_own ? fault->value : fault->frame;
        other = is_own ? &fault->other : &fault->own;
        frame->faults |= 1U << (k - 1);
    }
    if (other == NULL) return place;
    frame->length = other->length;
    memcpy(frame->bytes, other->bytes, other->length);
    return place;
}

int alter(const struct faults *faults, uint8_t network, uint64_t place, uint64_t number, struct frame *frame) {
    int times = 1;
    uint32_t lost = 0, made = frame->faults;
    for (size_t k = 0; k < faults->count; k++) {
        const struct fault *fault = &faults->list[k];
        if (fault->network != network) continue;
        bool is_own = fault->frame == number, is_made = is_own && (fault->kind == REPEAT || fault->kind == NUMBER);
        bool is_after = place >= fault->frame || number >= fault->frame;
        if ((fault->kind == LOSE && is_own) || (fault->kind == DOWN && is_after)) lost |= 1U << k;
        if (is_own && fault->kind == EARLY && fault->done) times = 0;
        if (is_own && fault->kind == REPEAT && times > 0) times = 2;
        if (is_own && fault->kind == NUMBER) frame->bytes[frame->length - 1] = (uint8_t)fault->value;
        if (is_own && fault->kind == FLIP && fault->value < frame->length) {
            frame->bytes[fault->value] ^= UINT8_MAX;
            is_made = true;
        }
        if (is_made) made |= 1U << k;
    }
    if (lost != 0) times = 0;
    frame->faults = times == 0 ? lost : made;
    return times;
}

/* The time at which a fault sends its frame. */
static uint64_t time_of(const struct fault *fault) { return fault->own.at < fault->value ? 0 : fault->own.at - fault->value; }

struct fault *next_early(struct faults *faults) {
    struct fault *next = NULL;
    for (size_t k = 0; k < faults->count; k++) {
        struct fault *fault = &faults->list[k];
        if (fault->kind == EARLY && fault->is_known && !fault->done && (next == NULL || time_of(fault) < time_of(next)))
            next = fault;
    }
    return next;
}

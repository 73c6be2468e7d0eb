/* The model's bytes and its rules. Operations have addresses of the part, below the translation, so a wrong translation breaks a rule:
 *
 * - an erase covers whole sectors of one region, which all belong to one thing: those of a whole gate or header, or of a virtual sector of
 *   data;
 * - a program covers whole units within one thing, each erased since power-on and programmed once;
 * - neither touches the slot of the active image, the bootloader, or a sector outside the six things.
 *
 * An operation that loses power leaves its range unchanged, half done, with random bytes, all done, or with all bytes A5h. */
#include "model.h"
#include <stdio.h>
#include <string.h>

uint8_t model_bytes[MOST];
const struct part *model_part;
long model_operations, model_erases, model_cut[2];
int model_tear[2], model_active = -1;
jmp_buf model_off;

static uint8_t erased[MOST], first_bytes[MOST];
static uint32_t seed = 1;
static int wrong;

static uint32_t end_of(void) {
    uint32_t end = 0;
    for (int i = 0; i < REGIONS; i++)
        if (model_part->regions[i].count != 0)
            end = model_part->regions[i].at + model_part->regions[i].sector * model_part->regions[i].count;
    return end;
}
static uint32_t base(void) {
    return model_part->regions[0].at;
}
static uint8_t draw(void) {
    seed = seed * 1664525u + 1013904223u;
    return (uint8_t)(seed >> 20);
}
void model_expect(const char *what, int holds) {
    if (!holds && wrong < 10)
        printf("%s: %s, cuts %ld and %ld, tears %d and %d\n", model_part->name, what, model_cut[0], model_cut[1], model_tear[0],
               model_tear[1]);
    wrong += !holds;
}
int model_wrong(void) {
    return wrong;
}
void model_begin(const struct part *part) {
    model_part = part;
    for (uint32_t i = 0; i < end_of() - base(); i++)
        first_bytes[i] = model_bytes[i] = (uint8_t)(i * 7 + i / 256);
    model_forget();
}
void model_forget(void) {
    memset(erased, 0, end_of() - base());
}
const uint8_t *model_at(uint32_t address) {
    return model_bytes + (address - base());
}
void model_read(uint32_t address, uint8_t *to, size_t count) {
    memcpy(to, model_at(address), count);
}
/* Returns the thing that contains the whole range, or -1. */
static int thing_of(uint32_t at, uint32_t length) {
    for (int i = 0; i < 6; i++) {
        const struct dfu_span *it = &model_part->placement->things[i];
        if (at >= it->at && at - it->at < it->length && length <= it->length - (at - it->at))
            return i;
    }
    return -1;
}
int model_rest_is_kept(void) {
    for (uint32_t at = base(); at < end_of();) {
        const int thing = thing_of(at, 1);
        if (thing >= 0)
            at = model_part->placement->things[thing].at + model_part->placement->things[thing].length;
        else if (memcmp(model_at(at), first_bytes + (at - base()), 256) != 0)
            return 0;
        else
            at += 256;
    }
    return 1;
}
static int is_whole(uint32_t at, uint32_t length) {
    for (int i = 0; i < REGIONS; i++) {
        const struct region *it = &model_part->regions[i];
        if (it->count != 0 && at >= it->at && at + length <= it->at + it->sector * it->count)
            return (at - it->at) % it->sector == 0 && length % it->sector == 0 && length > 0;
    }
    return 0;
}
/* Changes the bytes of an operation's range. If the operation is cut off, power is lost after that. */
static void carry_out(uint32_t at, const uint8_t *bytes, uint32_t length) {
    uint8_t *to = model_bytes + (at - base());
    int tear = -1;
    model_operations++;
    for (int i = 0; i < 2; i++)
        if (model_operations == model_cut[i])
            tear = model_tear[i];
    for (uint32_t i = 0; i < length && tear != 0; i++) {
        const uint8_t done = bytes != NULL ? bytes[i] : 0xff;
        to[i] = tear == 1 && i >= length / 2 ? to[i] : tear == 2 ? draw() : tear == 4 ? 0xa5 : done;
    }
    memset(erased + (at - base()), bytes == NULL && tear < 0, length);
    if (tear >= 0)
        longjmp(model_off, 1);
}
static int erase(void *own, uint32_t at, uint32_t length) {
    const int thing = thing_of(at, length);
    const struct dfu_placement *p = model_part->placement;
    (void)own;
    model_expect("an erase of no whole sectors", is_whole(at, length));
    model_expect("an erase of no thing", thing >= 0);
    if (thing < 0)
        return 1;
    model_expect("an erase of too few or too many bytes", length == (thing % 3 == 2 ? p->sector : p->things[thing].length));
    model_expect("an erase of the active slot", thing / 3 != model_active);
    model_erases++;
    carry_out(at, NULL, length);
    return 0;
}
static int program(void *own, uint32_t at, const uint8_t *bytes, uint32_t length) {
    const int thing = thing_of(at, length);
    (void)own;
    model_expect("a program of no units", length > 0 && length <= 256 && length % UNIT == 0 && at % UNIT == 0);
    model_expect("a program of no thing", thing >= 0);
    if (thing < 0)
        return 1;
    model_expect("a program of the active slot", thing / 3 != model_active);
    for (uint32_t i = 0; i < length; i++) {
        model_expect("a byte is programmed that is not blank", *model_at(at + i) == 0xff);
        model_expect("a byte is programmed that was not erased", erased[at - base() + i]);
    }
    carry_out(at, bytes, length);
    return 0;
}
const struct dfu_driver model = {NULL, erase, program};

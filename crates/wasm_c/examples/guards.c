/* Edits and strips the module on standard input with bytes before and after each result, inside the buffer that a call is given and outside
   of it, and aborts if one of them has changed. `guards` with an edit as `edit` takes it. */
#include "binary.h"
#include <pulleynavy.h>
#include <stdio.h>
#include <stdlib.h>
#include <string.h>

enum { GUARDS = 64, GUARD = 0xa5 };

static uint8_t bytes[1 << 20];
static const char *const kinds[] = {"append", "replace", "remove", "keep"};

/* An edit: its module, its kind, its name and its data. */
struct edit {
    const uint8_t *bytes;
    size_t size;
    uint32_t kind;
    const char *name, *data;
};

static void require(bool holds) {
    if (!holds) abort();
}

/* A buffer of this size with guards on both sides, all of it guards so far. */
static uint8_t *guarded(size_t size) {
    uint8_t *all = malloc(size + 2 * GUARDS);
    require(all);
    memset(all, GUARD, size + 2 * GUARDS);
    return all + GUARDS;
}

static bool are_guards(const uint8_t *from, size_t size) {
    size_t sound = 0;
    while (sound < size && from[sound] == GUARD) sound++;
    return sound == size;
}

/* Frees a buffer of this size, in which a call wrote this many bytes. */
static void check(uint8_t *out, size_t size, size_t written) {
    require(are_guards(out - GUARDS, GUARDS) && are_guards(out + written, size - written + GUARDS));
    free(out - GUARDS);
}

static pulleynavy_edited run(const struct edit *edit, uint8_t *out, size_t room) {
    const uint8_t *name = (const uint8_t *)edit->name, *data = (const uint8_t *)edit->data;
    return pulleynavy_edit(edit->bytes, edit->size, edit->kind, name, strlen(edit->name), data, strlen(edit->data), out, room);
}

/* Edits into buffers of several sizes. In one that is too small no byte is written. */
static void edit_all(const struct edit *edit) {
    uint8_t *none = guarded(0);
    pulleynavy_edited needed = run(edit, none, 0);
    check(none, 0, 0);
    if (needed.status != PULLEYNAVY_EDIT_STATUS_NO_ROOM) return;
    for (size_t more = 0; more <= GUARDS; more += more ? more : 1) {
        size_t room = needed.size + more;
        uint8_t *out = guarded(room);
        pulleynavy_edited done = run(edit, out, room);
        require(done.status == PULLEYNAVY_EDIT_STATUS_DONE && done.size == needed.size);
        check(out, room, done.size);
    }
    uint8_t *small = guarded(needed.size - 1);
    require(run(edit, small, needed.size - 1).status == PULLEYNAVY_EDIT_STATUS_NO_ROOM);
    check(small, needed.size - 1, 0);
}

/* Encodes a custom section into buffers of several sizes. */
static void encode_all(const struct edit *edit) {
    const uint8_t *name = (const uint8_t *)edit->name, *data = (const uint8_t *)edit->data;
    size_t name_size = strlen(edit->name), data_size = strlen(edit->data);
    uint8_t *none = guarded(0);
    size_t needed = pulleynavy_encode_custom(name, name_size, data, data_size, none, 0);
    check(none, 0, 0);
    for (size_t more = 0; needed && more <= GUARDS; more += more ? more : 1) {
        uint8_t *out = guarded(needed + more);
        require(pulleynavy_encode_custom(name, name_size, data, data_size, out, needed + more) == needed);
        check(out, needed + more, needed);
    }
}

/* Strips in place: no byte beside the module is written. */
static void strip_all(const struct edit *edit, bool keeps_names) {
    uint8_t *out = guarded(edit->size);
    memcpy(out, edit->bytes, edit->size);
    pulleynavy_stripped stripped = pulleynavy_strip(out, edit->size, keeps_names);
    require(stripped.size <= edit->size);
    check(out, edit->size, edit->size);
}

int main(int count, char **words) {
    use_binary_streams();
    if (count < 3) return 2;
    struct edit edit = {bytes, fread(bytes, 1, sizeof bytes, stdin), 0, words[2], count > 3 ? words[3] : ""};
    while (edit.kind < PULLEYNAVY_EDIT_KEEP && strcmp(words[1], kinds[edit.kind])) edit.kind++;
    edit_all(&edit);
    encode_all(&edit);
    strip_all(&edit, false);
    strip_all(&edit, true);
    return 0;
}

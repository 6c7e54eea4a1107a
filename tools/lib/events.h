/* What both programs that try the library compare of two events. */
#ifndef EVENTS_H
#define EVENTS_H
#include <pulleynavy.h>

/* Whether two events have the same fields, without their positions in the bytes of a call. */
static bool is_event(const pulleynavy_event *one, const pulleynavy_event *other) {
    return one->kind == other->kind && one->id == other->id && one->count == other->count && one->size == other->size &&
           one->start == other->start && one->end == other->end && one->consumed == other->consumed && one->hint == other->hint &&
           one->data_offset == other->data_offset && one->name_size == other->name_size && one->fault.kind == other->fault.kind &&
           one->fault.offset == other->fault.offset && one->fault.number == other->fault.number &&
           one->fault.has_number == other->fault.has_number;
}
#endif

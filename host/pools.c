/* The two clients of the drill: their NAMEs, their pools, written object by object, and what the screen reads in them. */
#include <string.h>

#include "host.h"

/* NAMEs of ISO 11783-5: self-configurable, agriculture, planters and seeders; then function, instances, manufacturer and identity number. */
#define DRILL_NAME UINT64_C(0xA008810024601267)
#define FAN_NAME   UINT64_C(0xA008820124600311)

#define EVERY_BIT    UINT64_C(0xFFFFFFFFFFFFFFFF)
#define BUT_IDENTITY UINT64_C(0xFFFFFFFFFFE00000)   /* any fan of this make will do */

#define TENTH 0x3DCCCCCDu                           /* 0.1 and 0.5 as bits of a float */
#define HALF  0x3F000000u
#define NONE  0xFFFFFFFFu                           /* no number is shown, so minimum to unit are one bits */

/* A base's number and a state ID of 0 are what a field is that nobody names. */
static const scm_object drill_objects[] = {
    {.kind = SCM_OBJECT_BASE, .standard = 2, .master = DRILL_NAME, .mask = EVERY_BIT, .name = 1, .picture = 100,
     .n = 4, .version = "v1.2", .m = 6, .configuration = "8 rows", .count = 2, .list = {1, 2}},
    {.kind = SCM_OBJECT_FUNCTION, .number = 1, .function = POOL_GATE, .trigger = SCM_TRIGGER_DISTANCE, .attribute = SCM_STYLE_HIDDEN,
     .minimum = NONE, .maximum = NONE, .offset = NONE, .scale = NONE, .decimals = 0xFF, .unit = 0xFFFF, .name = 2, .picture = 101, .count = 2, .list = {3, 4}},
    {.kind = SCM_OBJECT_FUNCTION, .number = 2, .function = POOL_COULTERS, .trigger = SCM_TRIGGER_DISTANCE, .attribute = SCM_STYLE_CHANGED,
     .minimum = 0, .maximum = 1000, .offset = 0, .scale = TENTH, .decimals = 1, .unit = 8, .name = 3, .picture = 102, .count = 2, .list = {5, 6}},
    {.kind = SCM_OBJECT_STATE, .number = 3, .state = POOL_SHUT, .name = 4, .picture = 103},
    {.kind = SCM_OBJECT_STATE, .number = 4, .state = POOL_OPEN, .name = 5, .picture = 104},
    {.kind = SCM_OBJECT_STATE, .number = 5, .state = POOL_UP, .name = 6, .picture = 105},
    {.kind = SCM_OBJECT_STATE, .number = 6, .state = POOL_DOWN, .name = 7, .picture = 106},
};

/* The fan has no texts and pictures of its own, so its master is the drill. */
static const scm_object fan_objects[] = {
    {.kind = SCM_OBJECT_BASE, .standard = 2, .master = DRILL_NAME, .mask = BUT_IDENTITY, .name = 9, .picture = 107,
     .n = 4, .version = "v2.0", .m = 4, .configuration = "fan1", .count = 1, .list = {1}},
    {.kind = SCM_OBJECT_FUNCTION, .number = 1, .function = POOL_BLOWER, .trigger = SCM_TRIGGER_TIME, .attribute = SCM_STYLE_CHANGED,
     .minimum = 0, .maximum = 8000, .offset = 800, .scale = HALF, .decimals = 0, .unit = 12, .name = 9, .picture = 107, .count = 2, .list = {2, 3}},
    {.kind = SCM_OBJECT_STATE, .number = 2, .state = POOL_SLOW, .name = 10, .picture = 108},
    {.kind = SCM_OBJECT_STATE, .number = 3, .state = POOL_FAST, .name = 11, .picture = 109},
};

/* One object after the other; each says where the next one begins. */
bool pool_make(uint32_t slot, struct pool *pool, struct fault *fault)
{
    const scm_object *objects = slot == POOL_DRILL ? drill_objects : fan_objects;
    size_t count = slot == POOL_DRILL ? sizeof drill_objects / sizeof drill_objects[0] : sizeof fan_objects / sizeof fan_objects[0];

    *pool = (struct pool){.name = slot == POOL_DRILL ? DRILL_NAME : FAN_NAME};
    for (size_t i = 0; i < count; i++) {
        uint8_t number = scm_object_write(&objects[i], pool->length, pool->bytes, sizeof pool->bytes, &pool->length);
        if (!fault_unless_done(fault, "writing an object of a pool", number)) {
            return false;
        }
    }
    return true;
}

/* The texts that the pools name by number. On a drill they are in the pool that the working set master has sent to the screen. */
static const char *pool_text(uint16_t number)
{
    static const char *const texts[] = {"?", "gate and coulters", "gate", "coulters", "shut", "open", "up", "down", "mm", "fan", "slow", "fast", "rpm"};

    return number < sizeof texts / sizeof texts[0] ? texts[number] : texts[0];
}

scm_object pool_function(const struct pool *pool, uint8_t function)
{
    scm_object object = scm_object_at(pool->bytes, pool->length, 0);

    while (object.kind != SCM_OBJECT_NONE && (object.kind != SCM_OBJECT_FUNCTION || object.function != function)) {
        object = scm_object_at(pool->bytes, pool->length, object.next);
    }
    return object;
}

void pool_client_text(const struct pool *pool, char text[POOL_TEXT_BYTES])
{
    scm_object base = scm_object_at(pool->bytes, pool->length, 0);      /* the base stands first in both pools */

    snprintf(text, POOL_TEXT_BYTES, "%s", pool_text(base.name));
}

static bool pool_lists(const scm_object *owner, uint16_t number)
{
    for (size_t i = 0; i < owner->count; i++) {
        if (owner->list[i] == number) {
            return true;
        }
    }
    return false;
}

/* Two functions may have states of one ID: the right one is in the function's list. */
void pool_step_text(const struct pool *pool, uint8_t function, uint8_t state, char text[POOL_TEXT_BYTES])
{
    scm_object owner = pool_function(pool, function);
    scm_object object = scm_object_at(pool->bytes, pool->length, 0);

    while (object.kind != SCM_OBJECT_NONE && (object.kind != SCM_OBJECT_STATE || object.state != state || !pool_lists(&owner, object.number))) {
        object = scm_object_at(pool->bytes, pool->length, object.next);
    }
    snprintf(text, POOL_TEXT_BYTES, "%s %s", pool_text(owner.name), pool_text(object.name));
}

/* The library prints the value, from what is kept and the exact scale: a double may be rounded before printf rounds it again. */
void pool_shown_text(const struct pool *pool, uint8_t function, uint32_t value, char text[POOL_TEXT_BYTES])
{
    scm_object object = pool_function(pool, function);
    char number[SCM_SHOWN_BYTES];
    int32_t offset;
    float scale;

    memcpy(&offset, &object.offset, sizeof offset);         /* the object holds their bits */
    memcpy(&scale, &object.scale, sizeof scale);
    if (object.kind == SCM_OBJECT_FUNCTION && object.attribute == SCM_STYLE_HIDDEN) {
        snprintf(text, POOL_TEXT_BYTES, "-");
    } else if (scm_shown_text(value, offset, scale, object.decimals, number, sizeof number, NULL) != SCM_OK) {
        snprintf(text, POOL_TEXT_BYTES, "?");
    } else {
        snprintf(text, POOL_TEXT_BYTES, "%s %s", number, pool_text(object.unit));
    }
}

bool pool_shown_exact(const struct pool *pool, uint8_t function, uint32_t value)
{
    scm_object object = pool_function(pool, function);
    int32_t offset;

    memcpy(&offset, &object.offset, sizeof offset);
    return scm_shown_bits(value, offset, object.scale).exact == 1;
}

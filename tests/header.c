/* The header for a program that is not in C: each call of scm.h as an external function, and the table of its layout. Nothing else is done here.
   through_X is the wrapper scm_X, or the call scm_X where it has no wrapper; value_X is the call by value that a wrapper stands over. */
#include "scm.h"

/* ---- The layout: what scm.h asserts of the structs that cross, and the views that its wrappers fill. A row without a field is the size. */
typedef struct layout_row {
    const char *type;
    const char *field;
    size_t bytes;
} layout_row;

#define SIZE_ROW(type, bytes) { #type, "", bytes },
#define FIELD_ROW(type, field, at) { #type, #field, at },
#define VIEW_SIZE(type) SIZE_ROW(type, sizeof(type))
#define VIEW(type, field) FIELD_ROW(type, field, offsetof(type, field))

const layout_row through_layout[] = {
    SCM_LAYOUT(SIZE_ROW, FIELD_ROW)
    VIEW_SIZE(scm_slot_view) VIEW(scm_slot_view, taken) VIEW(scm_slot_view, wanted) VIEW(scm_slot_view, report) VIEW(scm_slot_view, name)
    VIEW_SIZE(scm_client_view) VIEW(scm_client_view, used) VIEW(scm_client_view, name) VIEW(scm_client_view, master_name)
    VIEW(scm_client_view, version_length) VIEW(scm_client_view, version) VIEW(scm_client_view, configuration_length)
    VIEW(scm_client_view, configuration)
    VIEW_SIZE(scm_check_view) VIEW(scm_check_view, slot) VIEW(scm_check_view, step)
};
const size_t through_layout_rows = sizeof through_layout / sizeof through_layout[0];

/* ---- The numbers that have names: sizes and limits, and the codes of each enum. */
#define NAMED(name) { #name, "", name },

const layout_row through_names[] = {
    NAMED(SCM_SLOTS) NAMED(SCM_STEPS) NAMED(SCM_POOL_BYTES) NAMED(SCM_OBJECT_BYTES) NAMED(SCM_MESSAGE_BYTES) NAMED(SCM_ANSWER_TICKS)
    NAMED(SCM_LAST_TICK) NAMED(SCM_ANSWER_BYTES) NAMED(SCM_FRAME_BYTES) NAMED(SCM_FRAMES_BYTES) NAMED(SCM_BLOCK_BYTES) NAMED(SCM_STORE_BYTES)
    NAMED(SCM_SHOWN_BYTES)
    NAMED(SCM_OK) NAMED(SCM_TOO_SHORT) NAMED(SCM_WRONG_STATE) NAMED(SCM_WRONG_SLOT) NAMED(SCM_WRONG_VALUE) NAMED(SCM_NOT_EXPECTED)
    NAMED(SCM_POOL_REFUSED) NAMED(SCM_NO_STEP) NAMED(SCM_NOT_ENABLED) NAMED(SCM_NAME_DIFFERS) NAMED(SCM_LABEL_DIFFERS) NAMED(SCM_NOT_IN_POOL)
    NAMED(SCM_NOT_READY) NAMED(SCM_NOT_DISABLED) NAMED(SCM_NO_CLIENT) NAMED(SCM_NO_MATCH) NAMED(SCM_CHECK_WRONG) NAMED(SCM_NOT_STORED)
    NAMED(SCM_POOL_TAKEN) NAMED(SCM_POOL_UNKNOWN_TYPE) NAMED(SCM_POOL_NO_BASE) NAMED(SCM_POOL_NO_FUNCTION) NAMED(SCM_POOL_NO_STATE)
    NAMED(SCM_POOL_NUMBER_TWICE) NAMED(SCM_POOL_FUNCTION_TWICE) NAMED(SCM_POOL_STATE_TWICE) NAMED(SCM_POOL_VERSION_LENGTH)
    NAMED(SCM_POOL_VERSION_BYTES) NAMED(SCM_POOL_CONFIGURATION_LENGTH) NAMED(SCM_POOL_WRONG_VERSION) NAMED(SCM_POOL_OTHER)
    NAMED(SCM_OBJECT_BASE) NAMED(SCM_OBJECT_FUNCTION) NAMED(SCM_OBJECT_STATE) NAMED(SCM_OBJECT_NONE)
    NAMED(SCM_TRIGGER_TIME) NAMED(SCM_TRIGGER_DISTANCE) NAMED(SCM_TRIGGER_EITHER)
    NAMED(SCM_STYLE_HIDDEN) NAMED(SCM_STYLE_SHOWN) NAMED(SCM_STYLE_CHANGED)
    NAMED(SCM_CLIENT) NAMED(SCM_MASTER)
    NAMED(SCM_NOTHING) NAMED(SCM_CAPABILITY_REQUEST) NAMED(SCM_CAPABILITY_RESPONSE) NAMED(SCM_MEMORY_REQUEST) NAMED(SCM_MEMORY_RESPONSE)
    NAMED(SCM_VERSION_REQUEST) NAMED(SCM_VERSION_RESPONSE) NAMED(SCM_CONFIGURATION_REQUEST) NAMED(SCM_CONFIGURATION_RESPONSE) NAMED(SCM_TRANSFER)
    NAMED(SCM_TRANSFER_RESPONSE) NAMED(SCM_ACTIVATION_COMMAND) NAMED(SCM_POOL_ACKNOWLEDGEMENT) NAMED(SCM_DELETE_COMMAND) NAMED(SCM_DELETE_RESPONSE)
    NAMED(SCM_STORE_COMMAND) NAMED(SCM_STORE_RESPONSE) NAMED(SCM_LOAD_COMMAND) NAMED(SCM_LOAD_RESPONSE) NAMED(SCM_STATE_COMMAND)
    NAMED(SCM_CLIENT_ABORT) NAMED(SCM_INDICATION) NAMED(SCM_INDICATION_RESPONSE) NAMED(SCM_COMMAND) NAMED(SCM_ANSWER)
    NAMED(SCM_ANSWER_ACKNOWLEDGEMENT)
    NAMED(SCM_AT_ONCE) NAMED(SCM_STARTED) NAMED(SCM_DONE) NAMED(SCM_FAILED)
    NAMED(SCM_DISABLE) NAMED(SCM_ENABLE)
    NAMED(SCM_REASON_OPERATOR) NAMED(SCM_REASON_NOT_IN_SEQUENCE) NAMED(SCM_REASON_IN_SEQUENCE) NAMED(SCM_REASON_NONE)
    NAMED(SCM_ABORT_TIMED_OUT) NAMED(SCM_ABORT_OPERATOR) NAMED(SCM_ABORT_FAULT) NAMED(SCM_ABORT_OTHER)
    NAMED(SCM_INDICATION_TAKEN) NAMED(SCM_INDICATION_NO_FUNCTION) NAMED(SCM_INDICATION_NO_STATE) NAMED(SCM_INDICATION_WRONG_STATUS)
    NAMED(SCM_INDICATION_FULL) NAMED(SCM_INDICATION_GOES_ON) NAMED(SCM_INDICATION_STOPPED) NAMED(SCM_INDICATION_OTHER)
    NAMED(SCM_ANSWER_NO_ERROR) NAMED(SCM_ANSWER_FAULT) NAMED(SCM_ANSWER_OPERATOR) NAMED(SCM_ANSWER_CONDITIONS) NAMED(SCM_ANSWER_OTHER)
    NAMED(SCM_INACTIVE) NAMED(SCM_READY) NAMED(SCM_RECORD) NAMED(SCM_RECORD_COMPLETE) NAMED(SCM_PLAYBACK) NAMED(SCM_ABORT)
    NAMED(SCM_REPORT_DISABLED) NAMED(SCM_REPORT_READY) NAMED(SCM_REPORT_RECORD) NAMED(SCM_REPORT_PLAYBACK) NAMED(SCM_REPORT_ABORT)
    NAMED(SCM_MARK_TICKS) NAMED(SCM_MARK_MILLIMETRES)
    NAMED(SCM_EDITION_1) NAMED(SCM_EDITION_2)
    NAMED(SCM_UNANSWERED) NAMED(SCM_ANSWERED_STARTED) NAMED(SCM_ANSWERED_DONE)
};
const size_t through_names_rows = sizeof through_names / sizeof through_names[0];

/* ---- Declared here as well, for external functions have a declaration before them. */
#define THROUGH(result, name, parameters, call) result name parameters; result name parameters { call; }

/* ---- The version: the header's, and the archive's */
THROUGH(uint32_t, through_header_version, (void), return SCM_VERSION)
THROUGH(uint32_t, through_version, (void), return scm_version())

/* ---- Texts */
THROUGH(const char *, through_number_text, (uint8_t number), return scm_number_text(number))
THROUGH(const char *, through_pool_code_text, (uint8_t code), return scm_pool_code_text(code))
THROUGH(const char *, through_state_text, (uint8_t state), return scm_state_text(state))
THROUGH(const char *, through_report_text, (uint8_t report), return scm_report_text(report))
THROUGH(const char *, through_status_text, (uint8_t status), return scm_status_text(status))
THROUGH(const char *, through_reason_text, (uint8_t reason), return scm_reason_text(reason))
THROUGH(const char *, through_abort_text, (uint8_t error), return scm_abort_text(error))
THROUGH(const char *, through_indication_error_text, (uint8_t error), return scm_indication_error_text(error))
THROUGH(const char *, through_answer_error_text, (uint8_t error), return scm_answer_error_text(error))

/* ---- The pool */
THROUGH(void, through_pool_check, (const uint8_t *pool, size_t len, scm_verdict *r), *r = scm_pool_check(pool, len))
THROUGH(void, through_profile_of, (const uint8_t *pool, size_t len, scm_profile *r), *r = scm_profile_of(pool, len))
THROUGH(void, through_object_at, (const uint8_t *pool, size_t len, size_t place, scm_object *r), *r = scm_object_at(pool, len, place))
THROUGH(void, through_pool_rewrite, (const uint8_t *pool, size_t len, uint8_t *out, size_t out_len, scm_rewritten *r),
        *r = scm_pool_rewrite(pool, len, out, out_len))
THROUGH(uint8_t, through_object_write, (const scm_object *object, size_t place, uint8_t *out, size_t out_len, size_t *next),
        return scm_object_write(object, place, out, out_len, next))
THROUGH(void, value_write_object, (const scm_object *object, size_t place, uint8_t *out, size_t out_len, scm_placed *r),
        *r = scm_write_object(*object, place, out, out_len))

/* ---- Messages */
THROUGH(uint8_t, through_message_read, (uint32_t side, const uint8_t *bytes, size_t len, scm_message *message),
        return scm_message_read(side, bytes, len, message))
THROUGH(uint8_t, through_message_write, (const scm_message *message, uint8_t *out, size_t out_len, size_t *length),
        return scm_message_write(message, out, out_len, length))
THROUGH(uint8_t, through_transfer_write, (const uint8_t *pool, size_t len, uint8_t *out, size_t out_len, size_t *length),
        return scm_transfer_write(pool, len, out, out_len, length))
THROUGH(void, value_read, (uint32_t side, const uint8_t *bytes, size_t len, scm_message_reading *r), *r = scm_read(side, bytes, len))
THROUGH(void, value_write, (const scm_message *message, uint8_t *out, size_t out_len, scm_written *r), *r = scm_write(*message, out, out_len))
THROUGH(void, value_write_transfer, (const uint8_t *pool, size_t len, uint8_t *out, size_t out_len, scm_written *r),
        *r = scm_write_transfer(pool, len, out, out_len))

/* ---- The shown value */
THROUGH(uint8_t, through_shown, (uint32_t value, int32_t offset, float scale, double *shown), return scm_shown(value, offset, scale, shown))
THROUGH(void, through_shown_bits, (uint32_t value, int32_t offset, uint32_t scale, scm_shown_value *r), *r = scm_shown_bits(value, offset, scale))
THROUGH(void, value_shown_of, (uint32_t value, int32_t offset, float scale, scm_shown_value *r), *r = scm_shown_of(value, offset, scale))
THROUGH(uint8_t, through_shown_text,
        (uint32_t value, int32_t offset, float scale, uint32_t decimals, char *text, size_t len, size_t *length),
        return scm_shown_text(value, offset, scale, decimals, text, len, length))
THROUGH(void, value_write_shown, (uint32_t value, int32_t offset, float scale, uint32_t decimals, uint8_t *out, size_t out_len, scm_written *r),
        *r = scm_write_shown(value, offset, scale, decimals, out, out_len))

/* ---- The master, as a host calls it */
THROUGH(void, through_init, (scm_master *m), scm_init(m))
THROUGH(uint8_t, through_on, (scm_master *m), return scm_on(m))
THROUGH(uint8_t, through_off, (scm_master *m), return scm_off(m))
THROUGH(uint8_t, through_attach,
        (scm_master *m, size_t slot, uint64_t name, const uint8_t *pool, size_t len, uint8_t *code, uint16_t *object),
        return scm_attach(m, slot, name, pool, len, code, object))
THROUGH(uint8_t, through_enable, (scm_master *m, size_t slot, uint8_t *out, size_t out_len), return scm_enable(m, slot, out, out_len))
THROUGH(uint8_t, through_disable, (scm_master *m, size_t slot, uint8_t *out, size_t out_len), return scm_disable(m, slot, out, out_len))
THROUGH(uint8_t, through_report, (scm_master *m, size_t slot, uint32_t report), return scm_report(m, slot, report))
THROUGH(uint8_t, through_lost, (scm_master *m, size_t slot), return scm_lost(m, slot))
THROUGH(uint8_t, through_record, (scm_master *m), return scm_record(m))
THROUGH(uint8_t, through_stop, (scm_master *m), return scm_stop(m))
THROUGH(uint8_t, through_cancel, (scm_master *m), return scm_cancel(m))
THROUGH(uint8_t, through_indication, (scm_master *m, size_t slot, const uint8_t *msg, size_t len, uint8_t *out, size_t out_len),
        return scm_indication(m, slot, msg, len, out, out_len))
THROUGH(uint8_t, through_client_abort, (scm_master *m, size_t slot, const uint8_t *msg, size_t len), return scm_client_abort(m, slot, msg, len))
THROUGH(uint8_t, through_start, (scm_master *m), return scm_start(m))
THROUGH(uint8_t, through_abort, (scm_master *m), return scm_abort(m))
THROUGH(uint8_t, through_tick, (scm_master *m, uint32_t mm, uint8_t *frames, size_t frames_len, uint32_t *count),
        return scm_tick(m, mm, frames, frames_len, count))
THROUGH(uint8_t, through_answer, (scm_master *m, size_t slot, const uint8_t *msg, size_t len, uint8_t *out, size_t out_len),
        return scm_answer(m, slot, msg, len, out, out_len))
THROUGH(uint8_t, through_store, (const scm_master *m, uint8_t *blocks, size_t len, size_t *written), return scm_store(m, blocks, len, written))
THROUGH(uint8_t, through_load, (scm_master *m, const uint8_t *blocks, size_t len), return scm_load(m, blocks, len))
THROUGH(uint8_t, through_edition, (scm_master *m, uint32_t edition), return scm_edition(m, edition))
THROUGH(uint8_t, through_state, (const scm_master *m), return scm_state(m))
THROUGH(uint8_t, through_slot, (const scm_master *m, size_t slot, scm_slot_view *view), return scm_slot(m, slot, view))
THROUGH(size_t, through_step_count, (const scm_master *m), return scm_step_count(m))
THROUGH(uint32_t, through_sequence_edition, (const scm_master *m), return scm_sequence_edition(m))
THROUGH(uint8_t, through_step, (const scm_master *m, size_t i, scm_step_view *view), return scm_step(m, i, view))
THROUGH(uint8_t, through_client, (const scm_master *m, size_t slot, scm_client_view *view), return scm_client(m, slot, view))
THROUGH(void, through_progress, (const scm_master *m, scm_progress_view *view), *view = scm_progress(m))
THROUGH(uint8_t, through_taken, (const scm_master *m, size_t i, scm_taken_view *view), return scm_taken(m, i, view))
THROUGH(uint8_t, through_sent, (const scm_master *m, size_t i, scm_sent_view *view), return scm_sent(m, i, view))
THROUGH(uint8_t, through_verify, (const scm_master *m, scm_check_view *view), return scm_verify(m, view))

/* ---- The master by value; the readers take the part of it that they read */
THROUGH(void, value_on, (const scm_master *m, scm_outcome *o), *o = scm_master_on(*m))
THROUGH(void, value_off, (const scm_master *m, scm_outcome *o), *o = scm_master_off(*m))
THROUGH(void, value_attach, (const scm_master *m, size_t slot, uint64_t name, const uint8_t *pool, size_t len, scm_outcome *o),
        *o = scm_master_attach(*m, slot, name, pool, len))
THROUGH(void, value_enable, (const scm_master *m, size_t slot, uint8_t *out, size_t out_len, scm_outcome *o),
        *o = scm_master_enable(*m, slot, out, out_len))
THROUGH(void, value_disable, (const scm_master *m, size_t slot, uint8_t *out, size_t out_len, scm_outcome *o),
        *o = scm_master_disable(*m, slot, out, out_len))
THROUGH(void, value_report, (const scm_master *m, size_t slot, uint32_t report, scm_outcome *o), *o = scm_master_report(*m, slot, report))
THROUGH(void, value_lost, (const scm_master *m, size_t slot, scm_outcome *o), *o = scm_master_lost(*m, slot))
THROUGH(void, value_record, (const scm_master *m, scm_outcome *o), *o = scm_master_record(*m))
THROUGH(void, value_stop, (const scm_master *m, scm_outcome *o), *o = scm_master_stop(*m))
THROUGH(void, value_cancel, (const scm_master *m, scm_outcome *o), *o = scm_master_cancel(*m))
THROUGH(void, value_indication,
        (const scm_master *m, size_t slot, const uint8_t *msg, size_t len, uint8_t *out, size_t out_len, scm_outcome *o),
        *o = scm_master_indication(*m, slot, msg, len, out, out_len))
THROUGH(void, value_client_abort, (const scm_master *m, size_t slot, const uint8_t *msg, size_t len, scm_outcome *o),
        *o = scm_master_client_abort(*m, slot, msg, len))
THROUGH(void, value_start, (const scm_master *m, scm_outcome *o), *o = scm_master_start(*m))
THROUGH(void, value_abort, (const scm_master *m, scm_outcome *o), *o = scm_master_abort(*m))
THROUGH(void, value_tick, (const scm_master *m, uint32_t mm, uint8_t *frames, size_t frames_len, scm_outcome *o),
        *o = scm_master_tick(*m, mm, frames, frames_len))
THROUGH(void, value_answer,
        (const scm_master *m, size_t slot, const uint8_t *msg, size_t len, uint8_t *out, size_t out_len, scm_outcome *o),
        *o = scm_master_answer(*m, slot, msg, len, out, out_len))
THROUGH(void, value_store, (const scm_master *m, uint8_t *blocks, size_t len, scm_outcome *o), *o = scm_master_store(*m, blocks, len))
THROUGH(void, value_load, (const scm_master *m, const uint8_t *blocks, size_t len, scm_outcome *o), *o = scm_master_load(*m, blocks, len))
THROUGH(void, value_edition, (const scm_master *m, uint32_t edition, scm_outcome *o), *o = scm_master_edition(*m, edition))
THROUGH(uint8_t, value_state, (uint8_t state), return scm_master_state(state))
THROUGH(void, value_slot, (const scm_master *m, size_t slot, scm_slot_result *r), *r = scm_master_slot(*m, slot))
THROUGH(size_t, value_step_count, (const scm_sequence *sequence), return scm_master_step_count(*sequence))
THROUGH(uint32_t, value_sequence_edition, (const scm_sequence *sequence), return scm_master_sequence_edition(*sequence))
THROUGH(void, value_step, (const scm_sequence *sequence, size_t i, scm_step_result *r), *r = scm_master_step(*sequence, i))
THROUGH(void, value_client, (const scm_sequence *sequence, size_t slot, scm_client_result *r), *r = scm_master_client(*sequence, slot))
THROUGH(void, value_progress, (uint8_t state, const scm_recording *recording, const scm_playback *playback, scm_progress_view *r),
        *r = scm_master_progress(state, *recording, *playback))
THROUGH(void, value_taken, (const scm_recording *recording, size_t i, scm_taken_result *r), *r = scm_master_taken(*recording, i))
THROUGH(void, value_sent, (const scm_playback *playback, size_t i, scm_sent_result *r), *r = scm_master_sent(*playback, i))
THROUGH(void, value_verify, (const scm_master *m, scm_check_result *r), *r = scm_master_verify(*m))

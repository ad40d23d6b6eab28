#include "sides.h"

#include "fop1.h"
#include "pondreszi.h"

const struct side library_side = {
    .name = "library",
    .prefix = "pondreszi_sender_",
    .new = pondreszi_sender_new,
    .request_ad = pondreszi_sender_request_ad,
    .request_bd = pondreszi_sender_request_bd,
    .directive = pondreszi_sender_directive,
    .tick = pondreszi_sender_tick,
    .lower_layer = pondreszi_sender_lower_layer,
    .control_word = pondreszi_sender_control_word,
};

const struct side baseline_side = {
    .name = "baseline",
    .prefix = "baseline_sender_",
    .new = baseline_sender_new,
    .request_ad = baseline_sender_request_ad,
    .request_bd = baseline_sender_request_bd,
    .directive = baseline_sender_directive,
    .tick = baseline_sender_tick,
    .lower_layer = baseline_sender_lower_layer,
    .control_word = baseline_sender_control_word,
};

/* SPDX-License-Identifier: Apache-2.0 */
#include "bench.h"

const uint8_t get_features[12] = {1, [4] = 1};
const uint8_t features_reply[20] = {1, [4] = 5, [8] = 8, [12] = 3, [15] = 0x40};
const uint8_t set_vring_num[20] = {8, [4] = 1, [8] = 8, [17] = 1};
const uint8_t acknowledged[20] = {8, [4] = 9, [8] = 8, [17] = 1};
const uint8_t acknowledgement[20] = {8, [4] = 5, [8] = 8};
/* (header: the size of the body; body: offset 0, size 256, no flags) */
const uint8_t get_config[24 + CONFIG] = {24, [4] = 1, [8] = 12, [9] = 1, [17] = 1};
const uint8_t config_reply[24 + CONFIG] = {24, [4] = 5, [8] = 12, [9] = 1, [17] = 1};

enum covretin_error accept_call(covretin_backend *backend, uint32_t call)
{
    static const uint8_t space[CONFIG];
    static uint8_t none[1];
    covretin_region regions[32];
    covretin_config config;
    uint64_t number;
    uint32_t index, num;
    size_t count;
    bool listening;
    switch (call) {
    case COVRETIN_CALL_GET_FEATURES: return covretin_reply_number(backend, FEATURES);
    case COVRETIN_CALL_GET_PROTOCOL_FEATURES: return covretin_reply_number(backend, PROTOCOL_FEATURES);
    case COVRETIN_CALL_SET_FEATURES:
    case COVRETIN_CALL_SET_PROTOCOL_FEATURES: covretin_call_number(backend, &number); return covretin_reply_done(backend);
    case COVRETIN_CALL_SET_VRING_NUM: covretin_call_ring(backend, &index, &num); return covretin_reply_done(backend);
    case COVRETIN_CALL_SET_MEM_TABLE:
        covretin_call_regions(backend, regions, 32, &count, &listening);
        return covretin_reply_done(backend);
    case COVRETIN_CALL_GET_CONFIG:
        covretin_call_config(backend, &config, none, 0, &count);
        return covretin_reply_config(backend, space, config.size);
    default: return covretin_reply_refused(backend);
    }
}

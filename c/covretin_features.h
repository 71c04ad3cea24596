/* SPDX-License-Identifier: Apache-2.0 */
/* What the features are named of which a call or a request may lack one. Private: no program includes this. */
#ifndef COVRETIN_FEATURES_H
#define COVRETIN_FEATURES_H

#include "covretin.h"

/* A feature of virtio or of the protocol, by its one bit. */
static inline const char *name_of_feature(bool is_of_virtio, uint64_t bit)
{
#define NAMED(name) {COVRETIN_PROTOCOL_##name, #name}
    static const struct {
        uint64_t bit;
        const char *name;
    } named[] = {
        /* generated from protocol/requests.toml: features that are wanted */
        NAMED(BACKEND_REQ),
        NAMED(CONFIG),
        NAMED(CONFIGURE_MEM_SLOTS),
        NAMED(CROSS_ENDIAN),
        NAMED(CRYPTO_SESSION),
        NAMED(DEVICE_STATE),
        NAMED(INBAND_NOTIFICATIONS),
        NAMED(INFLIGHT_SHMFD),
        NAMED(LOG_SHMFD),
        NAMED(MQ),
        NAMED(MTU),
        NAMED(PAGEFAULT),
        NAMED(RARP),
        NAMED(RESET_DEVICE),
        NAMED(SHARED_OBJECT),
        NAMED(SHMEM),
        NAMED(STATUS),
        /* end */
    };
#undef NAMED
    if (is_of_virtio)
        return bit == COVRETIN_FEATURE_LOG_ALL ? "LOG_ALL" : "PROTOCOL_FEATURES";
    for (size_t i = 0; i < sizeof named / sizeof *named; i++)
        if (named[i].bit == bit)
            return named[i].name;
    return "a feature";
}

#endif

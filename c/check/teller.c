/* SPDX-License-Identifier: Apache-2.0 */
/* Checked: c/covretin_device_channel.c, over any backend channel. */
#include "core.h"

#include "covretin_device_channel.c"

/* -- Any channel: what covretin_channel_socket.h allows -- */

static unsigned told; /* changes that are told by one call */

enum covretin_error covretin_channel_connect_fd(covretin_channel_connection *connection, int fd)
{
    HOLDS(connection->opaque == NULL, "the one before has ended");
    (void)fd;
    if (any_bool())
        return COVRETIN_OUT_OF_MEMORY;
    connection->opaque = connection;
    return COVRETIN_OK;
}

void covretin_channel_disconnect(covretin_channel_connection *connection)
{
    connection->opaque = NULL;
}

int covretin_channel_connection_fd(const covretin_channel_connection *connection)
{
    return connection->opaque != NULL ? 0 : -1;
}

enum covretin_error covretin_channel_set_config_change(covretin_channel *channel, bool on)
{
    (void)channel, (void)on;
    return COVRETIN_OK;
}

enum covretin_error covretin_channel_ask_config_change(covretin_channel *channel)
{
    (void)channel;
    return any_bool() ? COVRETIN_OK : any_bool() ? COVRETIN_OUT_OF_MEMORY : COVRETIN_SOCKET_BROKEN;
}

enum covretin_error covretin_channel_exchange_nowait(covretin_channel_connection *connection, short *events)
{
    HOLDS(connection->opaque != NULL, "there is a channel");
    *events = (short)any_int();
    told++;
    return told > MOST_AGAIN ? COVRETIN_NOT_YET : (enum covretin_error)any_int();
}

/* -- Any device -- */

static bool any_change(void *own)
{
    (void)own;
    HOLDS(locks_held == 0, "no lock is held while the device is called");
    return any_bool();
}

static covretin_device_calls calls;
static struct session the;

static void any_session(void)
{
    calls.config_changed = any_bool() ? any_change : NULL;
    the.calls = &calls;
    the.teller.timer = -1;
    the.polled = fd_new();
    the.protocol_features = any_u64();
}

bool poll_for(const struct session *session, int fd, uint32_t of)
{
    (void)of;
    return fd >= 0 && session->polled >= 0 && any_bool();
}

/* -- Checks -- */

void check_teller(void)
{
    any_session();
    (void)teller_prepare(&the);
    if (teller_begin(&the, fd_new())) {
        REACHED("begun");
        the.teller.is_due = any_bool();
        the.teller.is_asked = any_bool();
        pthread_mutex_lock(&the.lock);
        if (calls.config_changed != NULL && any_bool())
            teller_look(&the);
        else
            teller_go_on(&the);
        HOLDS(locks_held == 1, "the session's lock is held as before");
        pthread_mutex_unlock(&the.lock);
    }
    teller_free(&the);
    HOLDS(the.teller.vmm.opaque == NULL && !the.teller.is_asked && !the.teller.is_due, "nothing is left of the channel");
    nothing_is_held();
    fd_gone(the.polled);
    fd_gone(1 + (the.teller.timer == 1)); /* (the socket is its owner's) */
    fds_are_closed(-1);
    REACHED("freed");
}

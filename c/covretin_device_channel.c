/* SPDX-License-Identifier: Apache-2.0 */
/* A device's backend channel, over which the frontend is told that the configuration changed. No reply is asked for, and nothing read: the
 * frontend has the socket, too, and whoever reads from it waits as long as another does. One that no callback wants is kept open: User Mode
 * Linux has no device without a channel. */
#ifndef _GNU_SOURCE
#define _GNU_SOURCE
#endif

#include "covretin_device_session.h"

#include <sys/epoll.h>
#include <sys/timerfd.h>
#include <unistd.h>

bool teller_prepare(struct session *session)
{
    session->teller.timer = timerfd_create(CLOCK_MONOTONIC, TFD_CLOEXEC | TFD_NONBLOCK);
    return poll_for(session, session->teller.timer, CHANNEL_TIMER);
}

void teller_free(struct session *session)
{
    teller_end(session);
    if (session->teller.timer >= 0)
        close(session->teller.timer);
}

/* Has the channel polled for this. */
static void poll_channel(const struct session *session, int operation, short events)
{
    struct epoll_event ready = {.events = (uint32_t)events, .data.u32 = CHANNEL};
    epoll_ctl(session->polled, operation, covretin_channel_connection_fd(&session->teller.vmm), &ready);
}

/* Five times a second, or not. */
static void set_timer(const struct session *session, bool is_on)
{
    const struct timespec each = {0, is_on ? 200000000 : 0};
    timerfd_settime(session->teller.timer, 0, &(struct itimerspec){each, each}, NULL);
}

bool teller_begin(struct session *session, int fd)
{
    struct teller *teller = &session->teller;
    teller_end(session);
    if (covretin_channel_connect_fd(&teller->vmm, fd))
        return false;
    covretin_channel_set_config_change(&teller->vmm.channel, session->protocol_features & COVRETIN_PROTOCOL_CONFIG);
    poll_channel(session, EPOLL_CTL_ADD, 0);
    set_timer(session, session->calls->config_changed != NULL);
    return true;
}

/* (the frontend may have the socket, too, so that closing it here does not take it off what is polled) */
void teller_end(struct session *session)
{
    struct teller *teller = &session->teller;
    if (covretin_channel_connection_fd(&teller->vmm) < 0)
        return;
    poll_channel(session, EPOLL_CTL_DEL, 0);
    covretin_channel_disconnect(&teller->vmm);
    teller->is_due = teller->is_asked = false;
    set_timer(session, false);
}

/* Tells one change. OK: it was told; NOT_YET: the channel has to be ready for this. */
static enum covretin_error tell_change(struct teller *teller, short *events)
{
    enum covretin_error error = teller->is_asked ? COVRETIN_OK : covretin_channel_ask_config_change(&teller->vmm.channel);
    if (error != COVRETIN_OK)
        return error;
    teller->is_asked = true;
    error = covretin_channel_exchange_nowait(&teller->vmm, events);
    teller->is_asked = error == COVRETIN_NOT_YET;
    return error == COVRETIN_FRONTEND_INTERNAL_ERROR ? COVRETIN_OK : error;
}

/* (what nobody asked for is a channel that ended) */
void teller_go_on(struct session *session)
{
    struct teller *teller = &session->teller;
    short events = 0;
    enum covretin_error error = teller->is_asked || teller->is_due ? COVRETIN_OK : COVRETIN_DISCONNECTED;
    while (error == COVRETIN_OK && (teller->is_asked || teller->is_due)) {
        teller->is_due = teller->is_due && teller->is_asked; /* it has changed since that was asked */
        error = tell_change(teller, &events);
    }
    if (error == COVRETIN_OK || error == COVRETIN_NOT_YET)
        poll_channel(session, EPOLL_CTL_MOD, events);
    else
        teller_end(session);
}

void teller_look(struct session *session)
{
    bool has_changed;
    pthread_mutex_unlock(&session->lock);
    has_changed = session->calls->config_changed(session->own);
    pthread_mutex_lock(&session->lock);
    if (!has_changed || covretin_channel_connection_fd(&session->teller.vmm) < 0)
        return;
    session->teller.is_due = true;
    if (!session->teller.is_asked)
        teller_go_on(session);
}

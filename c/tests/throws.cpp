/* A device over covretin_device.h in C++, of which each callback in turn throws: the session and its listener can be closed, and the next
 * frontend is served. */
#include "covretin_device.h"
#include "covretin_socket.h"

extern "C" {
#include "testing.h"
}

#include <sys/eventfd.h>
#include <sys/mman.h>
#include <unistd.h>

namespace {

struct Thrown {};

enum Callback { ACCEPTED, READ_CONFIG, WRITE_CONFIG, RESET, REFUSED, OTHER, REQUEST, BROKEN, ENDED, NONE };

const uint64_t SIZE = 0x4000, USED = 0x1000, AVAILABLE = 0x2000, BUFFER = 0x3000;

Callback throws;
covretin_request *kept;
covretin_device device;
covretin_listener listener;
covretin_connection vmm;

void come(Callback callback)
{
    if (callback == throws)
        throw Thrown();
}

void on_request(void *, covretin_request *request)
{
    kept = request;
    come(REQUEST);
    covretin_request_done(request, 0);
    kept = NULL;
}

void on_accepted(void *, uint64_t, uint64_t)
{
    come(ACCEPTED);
}

bool on_read_config(void *, uint32_t, uint8_t *bytes, uint32_t size)
{
    come(READ_CONFIG);
    for (uint32_t i = 0; i < size; i++)
        bytes[i] = 0;
    return true;
}

bool on_write_config(void *, uint32_t, const uint8_t *, uint32_t)
{
    come(WRITE_CONFIG);
    return false;
}

void on_reset(void *)
{
    come(RESET);
}

void on_refused(void *, uint32_t, covretin_error)
{
    come(REFUSED);
}

bool on_other(void *, uint32_t, const uint8_t *, size_t, const int32_t *, size_t)
{
    come(OTHER);
    return true;
}

void on_broken(void *, uint32_t, covretin_queue_error)
{
    come(BROKEN);
}

void on_ended(void *, covretin_error)
{
    come(ENDED);
}

covretin_device_calls table()
{
    covretin_device_calls calls = covretin_device_calls();
    calls.queues = 1;
    calls.request = on_request;
    calls.accepted = on_accepted;
    calls.read_config = on_read_config;
    calls.write_config = on_write_config;
    calls.reset = on_reset;
    calls.refused = on_refused;
    calls.other = on_other;
    calls.broken = on_broken;
    calls.ended = on_ended;
    return calls;
}

covretin_error serve()
{
    covretin_error error = COVRETIN_NOT_YET;
    for (int turn = 0; turn < 4 && error == COVRETIN_NOT_YET; turn++)
        error = covretin_device_serve(&device);
    return error;
}

/* Makes a call, and has the device answer. */
covretin_error make(covretin_error asked)
{
    short events;
    EXPECT(COVRETIN_OK, asked);
    covretin_error error = covretin_exchange_nowait(&vmm, &events);
    serve();
    return error == COVRETIN_NOT_YET ? covretin_exchange_nowait(&vmm, &events) : error;
}

/* A ring with one request, or a head that there is none of. */
void use_ring(bool is_broken)
{
    int file = memfd_create("guest", MFD_CLOEXEC), kick = eventfd(1, EFD_CLOEXEC);
    if (file < 0 || kick < 0 || ftruncate(file, SIZE))
        give_up("memfd_create");
    const uint64_t descriptor[2] = {BUFFER, 16};
    const uint16_t available[3] = {0, 1, static_cast<uint16_t>(is_broken ? 99 : 0)};
    if (pwrite(file, descriptor, sizeof descriptor, 0) < 0 || pwrite(file, available, sizeof available, AVAILABLE) < 0)
        give_up("pwrite");
    covretin_region region = covretin_region();
    region.memory_size = SIZE;
    region.fd = file;
    covretin_vring place = covretin_vring();
    place.used_ring_addr = USED;
    place.avail_ring_addr = AVAILABLE;
    try {
        make(covretin_ask_set_mem_table(&vmm.session, &region, 1));
        make(covretin_ask_set_vring_num(&vmm.session, 0, 8));
        make(covretin_ask_set_vring_addr(&vmm.session, 0, &place));
        make(covretin_ask_set_vring_base(&vmm.session, 0, 0));
        make(covretin_ask_set_vring_enable(&vmm.session, 0, true));
        make(covretin_ask_set_vring_kick(&vmm.session, 0, kick));
    } catch (...) {
        close(file);
        close(kick);
        throw;
    }
    close(file);
    close(kick);
}

/* A session in which each callback comes. */
void play()
{
    const uint8_t bytes[4] = {0};
    make(covretin_ask_get_features(&vmm.session));
    make(covretin_ask_get_protocol_features(&vmm.session));
    make(covretin_ask_set_protocol_features(&vmm.session, COVRETIN_PROTOCOL_CONFIG | COVRETIN_PROTOCOL_RESET_DEVICE));
    make(covretin_ask_set_owner(&vmm.session));
    make(covretin_ask_set_features(&vmm.session, COVRETIN_FEATURE_PROTOCOL_FEATURES | COVRETIN_DEVICE_VERSION_1));
    EXPECT(COVRETIN_OK, make(covretin_ask_get_config(&vmm.session, 0, 4, 0)));
    make(covretin_ask_set_config(&vmm.session, 0, 0, bytes, sizeof bytes));
    const uint32_t other[3] = {19, 1, 0};
    if (write(covretin_connection_fd(&vmm), other, sizeof other) != sizeof other)
        give_up("write");
    serve();
    use_ring(false);
    make(covretin_ask_reset_device(&vmm.session));
    use_ring(true);
    covretin_disconnect(&vmm);
    serve();
}

/* The session ends amid this callback. Whether that came. */
bool is_left_by(Callback callback)
{
    const covretin_device_calls calls = table();
    bool is_thrown = false;
    throws = callback;
    EXPECT(COVRETIN_OK, covretin_connect(&vmm, "throws.socket", 8, 20000));
    EXPECT(COVRETIN_OK, covretin_device_open(&device, &calls, NULL, &listener));
    try {
        play();
    } catch (const Thrown &) {
        is_thrown = true;
    }
    covretin_device_close(&device);
    if (kept != NULL)
        covretin_request_done(kept, 0);
    kept = NULL;
    covretin_disconnect(&vmm);
    return is_thrown;
}

void a_callback_may_throw()
{
    EXPECT(COVRETIN_OK, covretin_listen(&listener, "throws.socket"));
    for (int callback = ACCEPTED; callback <= NONE; callback++)
        EXPECT(callback != NONE, is_left_by(static_cast<Callback>(callback)));
    covretin_unlisten(&listener);
    EXPECT(-1, access("throws.socket", F_OK));
}

}

int main()
{
    RUN(a_callback_may_throw);
    return status();
}

/* SPDX-License-Identifier: Apache-2.0 */
/* A device over QEMU's libvhost-user, whose source is compiled in: the ring is set up as its messages would. */
#include "libvhost-user.c"

#include "driver.h"

static VuDev device;
static VuVirtq ring;

void device_open(const struct shape *shape)
{
    device.nregions = (uint32_t)shape->regions;
    device.max_queues = 1;
    device.vq = &ring;
    for (int i = 0; i < shape->regions; i++)
        device.regions[i] = (VuDevRegion){.gpa = guest_at(i), .size = REGION_SIZE, .qva = guest_at(i), .mmap_addr = (uintptr_t)mapped_at(i)};
    device.features = shape->has_event_idx ? 1ull << VIRTIO_RING_F_EVENT_IDX : 0;
    ring.vring.num = (unsigned)shape->size;
    ring.vring.desc = (void *)(mapped_at(0) + TABLE_AT);
    ring.vring.avail = (void *)(mapped_at(0) + AVAILABLE_AT);
    ring.vring.used = (void *)(mapped_at(0) + USED_AT);
    ring.enable = ring.started = ring.notification = true;
    ring.call_fd = eventfd(0, EFD_NONBLOCK);
    ring.kick_fd = -1;
}

int device_serve(const struct shape *shape, int count)
{
    unsigned segments = 0;
    (void)shape;
    for (int i = 0; i < count; i++) {
        VuVirtqElement *element = vu_queue_pop(&device, &ring, sizeof *element);
        if (element == NULL)
            return -1;
        segments += element->out_num + element->in_num;
        vu_queue_push(&device, &ring, element, WRITTEN);
        free(element);
    }
    vu_queue_notify(&device, &ring);
    return (int)segments;
}

/* SPDX-License-Identifier: Apache-2.0 */
/* What Covretin's errors mean, in English, what requests are called, and its version. No system call. */
#include "covretin_backend.h"
#include "covretin_channel.h"

const char *covretin_error_text(enum covretin_error error)
{
    switch (error) {
    case COVRETIN_OK: return "success";
    case COVRETIN_INVALID_PARAM: return "invalid parameters";
    case COVRETIN_INVALID_OPERATION: return "invalid operation";
    case COVRETIN_INACTIVE_FEATURE: return "inactive feature";
    case COVRETIN_INACTIVE_OPERATION: return "inactive protocol operation";
    case COVRETIN_INVALID_MESSAGE: return "invalid message";
    case COVRETIN_INVALID_SOCKET_FD: return "invalid AF_UNIX SOCK_STREAM socket fd";
    case COVRETIN_NOT_UNIX_SOCKET: return "socket is not AF_UNIX";
    case COVRETIN_NOT_STREAM_SOCKET: return "socket is not SOCK_STREAM";
    case COVRETIN_PARTIAL_MESSAGE: return "partial message";
    case COVRETIN_DISCONNECTED: return "peer disconnected";
    case COVRETIN_OVERSIZED_MSG: return "oversized message";
    case COVRETIN_INCORRECT_FDS: return "wrong number of attached fds";
    case COVRETIN_SOCKET_ERROR: return "socket error";
    case COVRETIN_SOCKET_CONNECT: return "can't connect to peer";
    case COVRETIN_SOCKET_BROKEN: return "socket is broken";
    case COVRETIN_SOCKET_RETRY: return "temporary socket error";
    case COVRETIN_BACKEND_INTERNAL_ERROR: return "backend internal error";
    case COVRETIN_FRONTEND_INTERNAL_ERROR: return "Frontend internal error";
    case COVRETIN_FEATURE_MISMATCH: return "virtio/protocol features mismatch";
    case COVRETIN_REQ_HANDLER_ERROR: return "handler failed to handle request";
    case COVRETIN_MEMFD_CREATE_ERROR: return "handler failed to allocate memfd during get_inflight_fd";
    case COVRETIN_FILE_TRUNCATE_ERROR: return "handler failed to truncate memfd during get_inflight_fd";
    case COVRETIN_MEMFD_SEAL_ERROR: return "handler failed to apply seals to memfd during get_inflight_fd";
    case COVRETIN_OUT_OF_MEMORY: return "out of memory";
    case COVRETIN_NO_SESSION: return "no session is open";
    case COVRETIN_SESSION_OPEN: return "a session is open already";
    case COVRETIN_NOT_TAKEN: return "the reply of the call before is still to be taken";
    case COVRETIN_NOTHING_ASKED: return "nothing was asked";
    case COVRETIN_NOT_YET: return "the reply has not come whole";
    case COVRETIN_TOO_MANY_BYTES: return "more bytes than are missing";
    case COVRETIN_NO_ROOM: return "an array is too small";
    case COVRETIN_OTHER_ANSWER: return "the reply has another form";
    case COVRETIN_NOT_REPLIED: return "the call before is still to be replied to";
    case COVRETIN_OTHER_CALL: return "no call of this form is to be replied to";
    case COVRETIN_TIMED_OUT: return "the limit of time passed";
    case COVRETIN_FDS_LOST: return "file descriptors were lost";
    case COVRETIN_INVALID_PATH: return "the socket's path is empty or too long";
    case COVRETIN_MEMORY_LOST: return "memory of the frontend is gone";
    case COVRETIN_STOPPED: return "the device was stopped";
    }
    return "unknown error";
}

const char *covretin_version(void)
{
    return COVRETIN_VERSION;
}

/* -- The names of requests, as the specification has them -- */

static const char *const frontend_requests[] = {
    /* generated from protocol/requests.toml: requests of a frontend */
    [1] = "GET_FEATURES",
    [2] = "SET_FEATURES",
    [3] = "SET_OWNER",
    [4] = "RESET_OWNER",
    [5] = "SET_MEM_TABLE",
    [6] = "SET_LOG_BASE",
    [7] = "SET_LOG_FD",
    [8] = "SET_VRING_NUM",
    [9] = "SET_VRING_ADDR",
    [10] = "SET_VRING_BASE",
    [11] = "GET_VRING_BASE",
    [12] = "SET_VRING_KICK",
    [13] = "SET_VRING_CALL",
    [14] = "SET_VRING_ERR",
    [15] = "GET_PROTOCOL_FEATURES",
    [16] = "SET_PROTOCOL_FEATURES",
    [17] = "GET_QUEUE_NUM",
    [18] = "SET_VRING_ENABLE",
    [19] = "SEND_RARP",
    [20] = "NET_SET_MTU",
    [21] = "SET_BACKEND_REQ_FD",
    [22] = "IOTLB_MSG",
    [23] = "SET_VRING_ENDIAN",
    [24] = "GET_CONFIG",
    [25] = "SET_CONFIG",
    [26] = "CREATE_CRYPTO_SESSION",
    [27] = "CLOSE_CRYPTO_SESSION",
    [28] = "POSTCOPY_ADVISE",
    [29] = "POSTCOPY_LISTEN",
    [30] = "POSTCOPY_END",
    [31] = "GET_INFLIGHT_FD",
    [32] = "SET_INFLIGHT_FD",
    [33] = "GPU_SET_SOCKET",
    [34] = "RESET_DEVICE",
    [35] = "VRING_KICK",
    [36] = "GET_MAX_MEM_SLOTS",
    [37] = "ADD_MEM_REG",
    [38] = "REM_MEM_REG",
    [39] = "SET_STATUS",
    [40] = "GET_STATUS",
    [41] = "GET_SHARED_OBJECT",
    [42] = "SET_DEVICE_STATE_FD",
    [43] = "CHECK_DEVICE_STATE",
    [44] = "GET_SHMEM_CONFIG",
    /* end */
};

static const char *const backend_requests[] = {
    /* generated from protocol/requests.toml: requests of a backend */
    [1] = "IOTLB_MSG",
    [2] = "CONFIG_CHANGE_MSG",
    [3] = "VRING_HOST_NOTIFIER_MSG",
    [4] = "VRING_CALL",
    [5] = "VRING_ERR",
    [6] = "SHARED_OBJECT_ADD",
    [7] = "SHARED_OBJECT_REMOVE",
    [8] = "SHARED_OBJECT_LOOKUP",
    [9] = "SHMEM_MAP",
    [10] = "SHMEM_UNMAP",
    /* end */
};

static const char *name_of(const char *const *names, size_t count, uint32_t request)
{
    return request < count && names[request] != NULL ? names[request] : "unknown request";
}

const char *covretin_request_text(uint32_t request)
{
    if (request == COVRETIN_CALL_POSTCOPY_ACK)
        return "POSTCOPY_ACK";
    return name_of(frontend_requests, sizeof frontend_requests / sizeof *frontend_requests, request);
}

const char *covretin_channel_request_text(uint32_t request)
{
    return name_of(backend_requests, sizeof backend_requests / sizeof *backend_requests, request);
}

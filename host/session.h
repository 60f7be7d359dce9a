/* SPDX-License-Identifier: Apache-2.0 */
/* A full proving session, the same events as scripts/proving-session.bus, and what it proves. */
#ifndef HOST_SESSION_H
#define HOST_SESSION_H

#include <stddef.h>
#include <stdint.h>

#include "story.h"

enum { SESSION_STEPS = 10, SESSION_ROOM = 2048 };

/* The events of the session, and where each step ends. */
struct session {
    uint8_t events[SESSION_ROOM];
    size_t count;
    size_t ends[SESSION_STEPS];
};

/* Lists the events. */
void session_list(struct session *session);

/* Does them and tells of them. Returns whether every step came out as it must. */
int session_tell(const struct session *session, struct story *story, uint8_t *answers);

#endif

/* protocol: what each message of vhost-user does. */
#ifndef PROTOCOL_H
#define PROTOCOL_H

#include "front_end.h"

/* Finds out what the device offers: NULL where it is done, else why not. */
const char *protocol_offer(struct front_end *front_end);
/* Judges and handles a message: NULL where the connection goes on, else why it ends. */
const char *protocol_handle(struct front_end *front_end, struct message *message);
/* Stops all queues and forgets all that was said. Where the program ends, a stop waits no longer than seconds. */
void protocol_forget(struct front_end *front_end, bool is_ending);
/* The name of a request, as the specification has it, for people. */
const char *protocol_name(uint32_t request);

#endif

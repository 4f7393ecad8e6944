/*
 * protocol: a table of messages, by which the length, the files and the protocol feature of each are judged, and a function for each.
 * A function judges all numbers of its message before it changes anything.
 */
#include "protocol.h"

#include <errno.h>
#include <fcntl.h>
#include <stddef.h>
#include <string.h>
#include <sys/eventfd.h>
#include <sys/stat.h>
#include <unistd.h>

/* Features that vhost-user adds to the device's, and several queues (5.2.3). */
#define FEATURE_PROTOCOL ((uint64_t)1 << 30)
#define FEATURE_LOG_ALL ((uint64_t)1 << 26)
#define FEATURE_MQ ((uint64_t)1 << 12)
enum { CONFIG_QUEUES = 34 }; /* where the configuration has their number */

#define PROTOCOL_OFFERED                                                                                                           \
    ((uint64_t)1 << PROTOCOL_MQ | (uint64_t)1 << PROTOCOL_LOG_SHMFD | (uint64_t)1 << PROTOCOL_REPLY_ACK |                          \
     (uint64_t)1 << PROTOCOL_CONFIG | (uint64_t)1 << PROTOCOL_RESET_DEVICE | (uint64_t)1 << PROTOCOL_MEM_SLOTS |                   \
     (uint64_t)1 << PROTOCOL_STATUS)

/* The device's status (2.1): the bits that are looked at. */
enum { STATUS_FEATURES_OK = 8, STATUS_NEEDS_RESET = 0x40 };

/* For how many seconds a stop waits where the program ends. */
enum { LAST_DRAIN = 2 };

/* ---- queues */

static void stop_all(struct front_end *front_end)
{
    for (unsigned i = 0; i < front_end->disk->queues; i++)
        server_stop(&front_end->queues[i], front_end->drain);
}

/* Before memory or the log of pages changes. */
static void hold_all(struct front_end *front_end)
{
    for (unsigned i = 0; i < front_end->disk->queues; i++)
        server_hold(&front_end->queues[i], front_end->drain);
}

static bool runs_any(const struct front_end *front_end)
{
    for (unsigned i = 0; i < front_end->disk->queues; i++)
        if (front_end->queues[i].server != NULL)
            return true;
    return false;
}

/* Whether all of a queue is said. Its rings may lie outside while the front end changes regions. */
static bool is_ready(const struct front_end *front_end, const struct queue *queue)
{
    const struct memory *memory = &front_end->memory;
    uint64_t at;
    bool is_enabled = queue->is_enabled || (front_end->features & FEATURE_PROTOCOL) == 0;
    return front_end->has_features && is_enabled && queue->has_addresses && queue->kick >= 0 && queue->num != 0 &&
           memory_find(memory, queue->desc, 1, &at) && memory_find(memory, queue->avail, 1, &at) &&
           memory_find(memory, queue->used, 1, &at);
}

/* Has each queue go on that was held, and starts each that is ready. */
static const char *start_ready(struct front_end *front_end)
{
    struct page_log *log = front_end->is_logged ? front_end->log : NULL;
    struct origin origin = { front_end->name, front_end->disk, &front_end->memory, log, front_end->features, front_end->socket };
    for (unsigned i = 0; i < front_end->disk->queues; i++) {
        struct queue *queue = &front_end->queues[i];
        server_go_on(queue, &origin);
        const char *why = queue->server == NULL && is_ready(front_end, queue) ? server_start(queue, &origin) : NULL;
        if (why != NULL)
            return why;
    }
    return NULL;
}

/* Puts a file in the place of another, which a thread may be using; an event of nobody where there is none. */
static const char *put_event(int at, int file)
{
    if (file < 0)
        file = eventfd(0, EFD_CLOEXEC | EFD_NONBLOCK);
    if (file < 0)
        return strerror(errno);
    int put = dup3(file, at, O_CLOEXEC);
    close(file);
    return put < 0 ? strerror(errno) : NULL;
}

static void forget_kick(struct queue *queue)
{
    if (queue->kick >= 0)
        close(queue->kick);
    queue->kick = -1;
}

/* Stops all queues; each keeps its place, which a front end asks for behind a status of 0. */
static void reset_queues(struct front_end *front_end)
{
    stop_all(front_end);
    for (unsigned i = 0; i < front_end->disk->queues; i++) {
        struct queue *queue = &front_end->queues[i];
        forget_kick(queue);
        queue->has_addresses = queue->is_enabled = false;
        queue->num = 0;
    }
}

/* The queue of this number, or NULL. */
static struct queue *find_queue(struct front_end *front_end, uint32_t index)
{
    return index < front_end->disk->queues ? &front_end->queues[index] : NULL;
}
static const char NO_QUEUE[] = "it names a queue that isn't there";

/* ---- features and configuration */

const char *protocol_offer(struct front_end *front_end)
{
    const char *why = window_shows(front_end->disk, &front_end->offered, front_end->config, &front_end->most);
    if (front_end->disk->queues > 1) {
        front_end->offered |= FEATURE_MQ;
        front_end->config[CONFIG_QUEUES] = (uint8_t)front_end->disk->queues;
    }
    front_end->offered |= FEATURE_PROTOCOL | FEATURE_LOG_ALL;
    front_end->drain = front_end->disk->drain;
    return why;
}

static const char *reply_number(const struct front_end *front_end, struct message *message, uint64_t number)
{
    message->it.number = number;
    return wire_reply(front_end->socket, message, sizeof number);
}

static const char *get_features(struct front_end *front_end, struct message *message)
{
    return reply_number(front_end, message, front_end->offered);
}

static const char *set_features(struct front_end *front_end, struct message *message)
{
    uint64_t features = message->it.number;
    if ((features & ~front_end->offered) != 0)
        return "it takes features that aren't offered";
    if (runs_any(front_end) && ((features ^ front_end->features) & ~FEATURE_LOG_ALL) != 0)
        return "it changes features while a queue runs";
    bool is_logged = front_end->log != NULL && (features & FEATURE_LOG_ALL) != 0;
    if (is_logged != front_end->is_logged)
        hold_all(front_end);
    front_end->features = features;
    front_end->has_features = true;
    front_end->is_logged = is_logged;
    return start_ready(front_end);
}

static const char *get_protocol_features(struct front_end *front_end, struct message *message)
{
    return reply_number(front_end, message, PROTOCOL_OFFERED);
}

static const char *set_protocol_features(struct front_end *front_end, struct message *message)
{
    if ((message->it.number & ~PROTOCOL_OFFERED) != 0)
        return "it takes protocol features that aren't offered";
    if (runs_any(front_end))
        return "it comes while a queue runs";
    front_end->protocol = message->it.number;
    return NULL;
}

static const char *get_queue_num(struct front_end *front_end, struct message *message)
{
    return reply_number(front_end, message, front_end->disk->queues);
}

/* Why the numbers of a message about the configuration aren't good, or NULL. */
static const char *judge_config(const struct message *message)
{
    if (message->size < CONFIG_HEAD || message->size != CONFIG_HEAD + (uint64_t)message->it.config.size)
        return "its size isn't its message's";
    if ((uint64_t)message->it.config.offset + message->it.config.size > MESSAGE_CONFIG)
        return "it passes the configuration's 256 bytes";
    return NULL;
}

static const char *get_config(struct front_end *front_end, struct message *message)
{
    const char *why = judge_config(message);
    if (why != NULL)
        return why;
    for (uint32_t i = 0, at = message->it.config.offset; i < message->it.config.size; i++, at++)
        message->it.config.bytes[i] = at < CONFIG_LEN ? front_end->config[at] : 0;
    return wire_reply(front_end->socket, message, CONFIG_HEAD + message->it.config.size);
}

/* No byte of the configuration can be written. */
static const char *set_config(struct front_end *front_end, struct message *message)
{
    front_end->is_refused = true;
    return judge_config(message);
}

static const char *set_owner(struct front_end *front_end, struct message *message)
{
    (void)front_end, (void)message;
    return NULL;
}

static const char *reset_device(struct front_end *front_end, struct message *message)
{
    (void)message;
    reset_queues(front_end);
    front_end->status = 0;
    return NULL;
}

static const char *set_status(struct front_end *front_end, struct message *message)
{
    if (message->it.number > UINT8_MAX)
        return "a status has 8 bits";
    front_end->status = (uint8_t)message->it.number;
    if (front_end->status == 0)
        reset_queues(front_end);
    if ((front_end->features & FEATURE_VERSION_1) == 0)
        front_end->status &= (uint8_t)~STATUS_FEATURES_OK;
    return NULL;
}

static const char *get_status(struct front_end *front_end, struct message *message)
{
    uint64_t status = front_end->status;
    for (unsigned i = 0; i < front_end->disk->queues; i++)
        if (front_end->queues[i].server != NULL && server_is_faulty(front_end->queues[i].server))
            status |= STATUS_NEEDS_RESET;
    return reply_number(front_end, message, status);
}

/* ---- memory */

static struct region region_of(const struct wire_region *said, int file)
{
    return (struct region){ said->guest, said->size, said->user, said->offset, file };
}

/* Other regions: each queue that runs is held, and goes on over them. */
static const char *set_memory(struct front_end *front_end, struct message *message)
{
    uint32_t len = message->it.memory.len;
    struct memory memory = { 0 };
    const char *why = NULL;
    if (len == 0 || len > MESSAGE_REGIONS || message->files_len != len || message->size != 8 + len * sizeof(struct wire_region))
        return "it hasn't as many regions as files, or its size is another";
    for (uint32_t i = 0; i < len && why == NULL; i++) {
        why = memory_add(&memory, region_of(&message->it.memory.regions[i], message->files[i]));
        message->files[i] = -1;
    }
    if (why != NULL) {
        memory_clear(&memory);
        return why;
    }
    hold_all(front_end);
    memory_clear(&front_end->memory);
    front_end->memory = memory;
    return start_ready(front_end);
}

static const char *get_memory_slots(struct front_end *front_end, struct message *message)
{
    return reply_number(front_end, message, SLOTS);
}

static const char *add_region(struct front_end *front_end, struct message *message)
{
    hold_all(front_end);
    const char *why = memory_add(&front_end->memory, region_of(&message->it.one.region, wire_take_file(message)));
    return why != NULL ? why : start_ready(front_end);
}

static const char *remove_region(struct front_end *front_end, struct message *message)
{
    struct region region = region_of(&message->it.one.region, -1);
    hold_all(front_end);
    const char *why = memory_remove(&front_end->memory, &region);
    return why != NULL ? why : start_ready(front_end);
}

/* Other memory for the log of pages that are written to. */
static const char *set_log(struct front_end *front_end, struct message *message)
{
    hold_all(front_end);
    const char *why = page_log_map(&front_end->log, message->files[0], message->it.log.len, message->it.log.offset);
    if (why != NULL)
        return why;
    front_end->is_logged = (front_end->features & FEATURE_LOG_ALL) != 0;
    why = start_ready(front_end);
    return why != NULL ? why : reply_number(front_end, message, 0);
}

/* The log is looked at without this event. */
static const char *set_log_event(struct front_end *front_end, struct message *message)
{
    (void)front_end, (void)message;
    return NULL;
}

/* ---- messages about a queue */

static const char *set_num(struct front_end *front_end, struct message *message)
{
    struct queue *queue = find_queue(front_end, message->it.state.index);
    if (queue == NULL)
        return NO_QUEUE;
    if (queue->server != NULL)
        return "its queue runs";
    if (message->it.state.number == 0 || message->it.state.number > front_end->most)
        return "a queue has 1 to 256 entries";
    queue->num = message->it.state.number;
    return start_ready(front_end);
}

static const char *set_addresses(struct front_end *front_end, struct message *message)
{
    struct queue *queue = find_queue(front_end, message->it.addresses.index);
    uint64_t desc = message->it.addresses.desc, avail = message->it.addresses.avail, used = message->it.addresses.used, at;
    if (queue == NULL)
        return NO_QUEUE;
    if (!memory_find(&front_end->memory, desc, 1, &at) || !memory_find(&front_end->memory, avail, 1, &at) ||
        !memory_find(&front_end->memory, used, 1, &at))
        return "a ring lies in no region of memory";
    if (queue->server != NULL) /* said again, as where the log begins */
        return queue->desc == desc && queue->avail == avail && queue->used == used ? NULL : "its queue runs";
    queue->desc = desc;
    queue->avail = avail;
    queue->used = used;
    queue->has_addresses = true;
    return start_ready(front_end);
}

static const char *set_base(struct front_end *front_end, struct message *message)
{
    struct queue *queue = find_queue(front_end, message->it.state.index);
    if (queue == NULL)
        return NO_QUEUE;
    if (queue->server != NULL)
        return "its queue runs";
    queue->base = message->it.state.number;
    return NULL;
}

static const char *get_base(struct front_end *front_end, struct message *message)
{
    struct queue *queue = find_queue(front_end, message->it.state.index);
    if (queue == NULL)
        return NO_QUEUE;
    server_stop(queue, front_end->drain);
    forget_kick(queue);
    queue->has_addresses = false;
    message->it.state.number = queue->base;
    return wire_reply(front_end->socket, message, sizeof message->it.state);
}

/* The queue of a message that may bring an event, and the event or -1 where it says that it brings none. NULL, or why it is bad. */
static const char *take_event(struct front_end *front_end, struct message *message, struct queue **queue, int *file)
{
    struct stat stat;
    bool has_file = (message->it.number & QUEUE_NO_FILE) == 0;
    if ((message->it.number & ~(uint64_t)(QUEUE_MASK | QUEUE_NO_FILE)) != 0)
        return "it has bits that say nothing";
    if ((*queue = find_queue(front_end, (uint32_t)message->it.number & QUEUE_MASK)) == NULL)
        return NO_QUEUE;
    if (message->files_len != has_file)
        return "it says another number of files than come with it";
    if (has_file && (fstat(message->files[0], &stat) != 0 || (stat.st_mode & S_IFMT) != 0))
        return "its file is no event";
    *file = wire_take_file(message);
    return NULL;
}

static const char *set_kick(struct front_end *front_end, struct message *message)
{
    struct queue *queue;
    int file;
    const char *why = take_event(front_end, message, &queue, &file);
    if (why != NULL)
        return why;
    if (file < 0)
        return "a queue without kicks isn't served";
    server_stop(queue, front_end->drain);
    forget_kick(queue);
    queue->kick = file;
    return start_ready(front_end);
}

static const char *set_call(struct front_end *front_end, struct message *message)
{
    struct queue *queue;
    int file;
    const char *why = take_event(front_end, message, &queue, &file);
    return why != NULL ? why : put_event(queue->call, file);
}

static const char *set_error(struct front_end *front_end, struct message *message)
{
    struct queue *queue;
    int file;
    const char *why = take_event(front_end, message, &queue, &file);
    return why != NULL ? why : put_event(queue->error, file);
}

static const char *set_enable(struct front_end *front_end, struct message *message)
{
    struct queue *queue = find_queue(front_end, message->it.state.index);
    if (queue == NULL)
        return NO_QUEUE;
    if (message->it.state.number > 1)
        return "a queue is enabled by 1 and disabled by 0";
    queue->is_enabled = message->it.state.number != 0;
    if (!queue->is_enabled)
        server_stop(queue, front_end->drain);
    return start_ready(front_end);
}

/* ---- the table */

#define SIZE_OF(member) sizeof(((struct message *)NULL)->it.member)
enum { NO_FEATURE = -1 };

static const struct rule {
    const char *name;
    uint32_t least, most; /* bytes of the payload */
    uint8_t files_least, files_most;
    int8_t feature;       /* the protocol feature that it is of */
    bool replies;         /* it has a reply of its own */
    const char *(*handle)(struct front_end *front_end, struct message *message);
} RULES[REQUESTS] = {
    [GET_FEATURES] = { "GET_FEATURES", 0, 0, 0, 0, NO_FEATURE, true, get_features },
    [SET_FEATURES] = { "SET_FEATURES", 8, 8, 0, 0, NO_FEATURE, false, set_features },
    [SET_OWNER] = { "SET_OWNER", 0, 0, 0, 0, NO_FEATURE, false, set_owner },
    [RESET_OWNER] = { "RESET_OWNER", 0, 0, 0, 0, NO_FEATURE, false, reset_device },
    [SET_MEM_TABLE] = { "SET_MEM_TABLE", 8, SIZE_OF(memory), 1, MESSAGE_REGIONS, NO_FEATURE, false, set_memory },
    [SET_LOG_BASE] = { "SET_LOG_BASE", 16, 16, 1, 1, PROTOCOL_LOG_SHMFD, true, set_log },
    [SET_LOG_FD] = { "SET_LOG_FD", 0, 8, 0, 1, NO_FEATURE, false, set_log_event },
    [SET_VRING_NUM] = { "SET_VRING_NUM", 8, 8, 0, 0, NO_FEATURE, false, set_num },
    [SET_VRING_ADDR] = { "SET_VRING_ADDR", SIZE_OF(addresses), SIZE_OF(addresses), 0, 0, NO_FEATURE, false, set_addresses },
    [SET_VRING_BASE] = { "SET_VRING_BASE", 8, 8, 0, 0, NO_FEATURE, false, set_base },
    [GET_VRING_BASE] = { "GET_VRING_BASE", 8, 8, 0, 0, NO_FEATURE, true, get_base },
    [SET_VRING_KICK] = { "SET_VRING_KICK", 8, 8, 0, 1, NO_FEATURE, false, set_kick },
    [SET_VRING_CALL] = { "SET_VRING_CALL", 8, 8, 0, 1, NO_FEATURE, false, set_call },
    [SET_VRING_ERR] = { "SET_VRING_ERR", 8, 8, 0, 1, NO_FEATURE, false, set_error },
    [GET_PROTOCOL_FEATURES] = { "GET_PROTOCOL_FEATURES", 0, 0, 0, 0, NO_FEATURE, true, get_protocol_features },
    [SET_PROTOCOL_FEATURES] = { "SET_PROTOCOL_FEATURES", 8, 8, 0, 0, NO_FEATURE, false, set_protocol_features },
    [GET_QUEUE_NUM] = { "GET_QUEUE_NUM", 0, 0, 0, 0, PROTOCOL_MQ, true, get_queue_num },
    [SET_VRING_ENABLE] = { "SET_VRING_ENABLE", 8, 8, 0, 0, NO_FEATURE, false, set_enable },
    [GET_CONFIG] = { "GET_CONFIG", CONFIG_HEAD, SIZE_OF(config), 0, 0, PROTOCOL_CONFIG, true, get_config },
    [SET_CONFIG] = { "SET_CONFIG", CONFIG_HEAD, SIZE_OF(config), 0, 0, PROTOCOL_CONFIG, false, set_config },
    [RESET_DEVICE] = { "RESET_DEVICE", 0, 0, 0, 0, PROTOCOL_RESET_DEVICE, false, reset_device },
    [GET_MAX_MEM_SLOTS] = { "GET_MAX_MEM_SLOTS", 0, 0, 0, 0, PROTOCOL_MEM_SLOTS, true, get_memory_slots },
    [ADD_MEM_REG] = { "ADD_MEM_REG", SIZE_OF(one), SIZE_OF(one), 1, 1, PROTOCOL_MEM_SLOTS, false, add_region },
    [REM_MEM_REG] = { "REM_MEM_REG", SIZE_OF(one), SIZE_OF(one), 0, 1, PROTOCOL_MEM_SLOTS, false, remove_region },
    [SET_STATUS] = { "SET_STATUS", 8, 8, 0, 0, PROTOCOL_STATUS, false, set_status },
    [GET_STATUS] = { "GET_STATUS", 0, 0, 0, 0, PROTOCOL_STATUS, true, get_status },
};

static const struct rule *rule_of(uint32_t request)
{
    return request < REQUESTS && RULES[request].handle != NULL ? &RULES[request] : NULL;
}

const char *protocol_name(uint32_t request)
{
    const struct rule *rule = rule_of(request);
    return rule != NULL ? rule->name : "a request without a name";
}

static const char *judge_message(const struct front_end *front_end, const struct rule *rule, const struct message *message)
{
    if (rule == NULL)
        return "it isn't known";
    if (message->size < rule->least || message->size > rule->most)
        return "its payload has another length";
    if (message->files_len < rule->files_least || message->files_len > rule->files_most)
        return "another number of files comes with it";
    if (rule->feature != NO_FEATURE && (front_end->protocol >> rule->feature & 1) == 0)
        return "its protocol feature wasn't taken";
    return NULL;
}

const char *protocol_handle(struct front_end *front_end, struct message *message)
{
    const struct rule *rule = rule_of(message->request);
    bool wants_answer = (message->flags & FLAG_NEED_REPLY) != 0 && (front_end->protocol >> PROTOCOL_REPLY_ACK & 1) != 0;
    front_end->is_refused = false;
    const char *why = judge_message(front_end, rule, message);
    if (why == NULL)
        why = rule->handle(front_end, message);
    if (wants_answer && rule != NULL && !rule->replies) {
        const char *unsent = reply_number(front_end, message, why != NULL || front_end->is_refused);
        why = why != NULL ? why : unsent;
    }
    return why;
}

void protocol_forget(struct front_end *front_end, bool is_ending)
{
    if (is_ending && front_end->drain > LAST_DRAIN)
        front_end->drain = LAST_DRAIN;
    reset_queues(front_end);
    for (unsigned i = 0; i < front_end->disk->queues; i++) {
        (void)put_event(front_end->queues[i].call, -1);
        (void)put_event(front_end->queues[i].error, -1);
        front_end->queues[i].base = 0;
    }
    memory_clear(&front_end->memory);
    page_log_drop(front_end->log);
    front_end->log = NULL;
    front_end->is_logged = false;
    front_end->features = front_end->protocol = 0;
    front_end->status = 0;
    front_end->has_features = false;
}

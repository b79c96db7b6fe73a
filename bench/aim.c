/* Records with arguments worth trying, call by call. */
#include "aim.h"

static const uint8_t arguments[CALLS] = {
    [TICK] = 0, [TASK_CREATE] = 2, [TASK_DELETE] = 1, [TASK_IDENT] = 1,
    [TASK_START] = 1, [TASK_SUSPEND] = 1, [TASK_RESUME] = 1,
    [TASK_SET_PRIORITY] = 2, [SEM_CREATE] = 3, [SEM_DELETE] = 1,
    [SEM_IDENT] = 1, [SEM_CLAIM] = 3, [SEM_RELEASE] = 1, [SEM_INFO] = 1,
    [POOL_CREATE] = 5, [POOL_DELETE] = 1, [POOL_IDENT] = 1,
    [POOL_GET_BUFF] = 1, [POOL_RET_BUFF] = 2, [POOL_INFO] = 1,
    [QUEUE_CREATE] = 4, [QUEUE_DELETE] = 1, [QUEUE_IDENT] = 1,
    [QUEUE_SEND] = 5, [QUEUE_JUMP] = 5, [QUEUE_RECEIVE] = 3, [QUEUE_INFO] = 1
};

/* PUT with the mark left to put_marked. */
#define PUT_MARKED(a, call, ...) \
    put_marked((a), (call), (const uint32_t[5]){ __VA_ARGS__ })

void put_number(uint8_t *bytes, uint32_t number)
{
    for (int i = 0; i < 4; i++)
        bytes[i] = (uint8_t)(number >> 8 * i);
}

void aim_put(struct aim *a, uint32_t call, uint32_t mark,
             const uint32_t arg[5])
{
    uint32_t record[NUMBERS] = { call, mark };
    int used = call < CALLS ? arguments[call] : 1;

    if (aim_is_full(a))
        return;
    for (int i = 0; i < 5; i++)
        record[2 + i] = i < used ? arg[i] : ONE_OF(&a->dice, 0, 0, 1, TOP);
    for (int i = 0; i < NUMBERS; i++)
        put_number(a->bytes + 28 * a->records + 4 * i, record[i]);
    a->records++;
    picture_follow(&a->picture, record);
}

uint32_t aim_running(const struct aim *a)
{
    const struct picture *p = &a->picture;

    return p->running == NOBODY ? 0
         : picture_id(p, A_TASK, (uint32_t)p->running);
}

static bool now_wild(struct aim *a)
{
    return chance(&a->dice, a->wild);
}

/* The mark of the call's own caller, and now and then another. */
static uint32_t mark_of(struct aim *a, uint32_t call)
{
    if (roll(&a->dice, 4000) < a->wild)
        return ONE_OF(&a->dice, 0, 1, 1, 2, 3, 256, TOP);
    return call == TICK;
}

static void put_marked(struct aim *a, uint32_t call, const uint32_t arg[5])
{
    aim_put(a, call, mark_of(a, call), arg);
}

static bool anchor_runs(const struct aim *a)
{
    return a->anchor && aim_running(a) == 64;
}

/* Whether it names the only task left to run. */
static bool would_stop(const struct aim *a, uint32_t id)
{
    uint32_t ready = picture_ready(&a->picture);

    return !a->may_stop && ready != 0 && (ready & (ready - 1)) == 0
        && (id == 0 || id == aim_running(a));
}

static uint32_t wild_id(struct aim *a, enum kind kind)
{
    struct dice *d = &a->dice;
    uint32_t room = picture_room(kind), slot = roll(d, room);
    uint32_t serial = a->picture.serial[kind][slot], any = roll_32(d);

    switch (roll(d, 8)) {
    case 0:
        return ONE_OF(d, 0, 1, 63, 64, 65, 64 + room, 63 + room, slot);
    case 1:
        return ONE_OF(d, 65535 * 64 + slot, 65536 * 64 + slot, TOP,
                      TOP - 63 + slot, any);
    case 2:
        return serial * 64 + any % 64;
    case 3:
        return (serial + 1) * 64 + slot;
    case 4:
        return (serial > 0 ? serial - 1 : 0) * 64 + slot;
    case 5:
        return serial * 64 + slot + (any % 2 != 0 ? 1u << 22 : 1u << 31);
    default:
        return (1 + any % (serial + 1)) * 64 + slot;
    }
}

/* The identifier of one of the live objects wanted, or a wild one. */
static uint32_t some_id(struct aim *a, enum kind kind, uint32_t wanted)
{
    uint32_t live = a->picture.live[kind];

    if ((live & wanted) != 0)
        live &= wanted;
    if (now_wild(a) || live == 0)
        return wild_id(a, kind);
    return picture_id(&a->picture, kind, roll_bit(&a->dice, live));
}

static uint32_t task_id(struct aim *a, uint32_t wanted)
{
    uint32_t id;

    if (chance(&a->dice, 100) && !anchor_runs(a))
        return 0;
    id = some_id(a, A_TASK, a->anchor ? wanted & ~1u : wanted);
    return a->anchor && (id == 64 || id == 0) ? 1 : id;
}

/* The tasks of the mask, and in one of ten all others instead. */
static uint32_t mostly(struct aim *a, uint32_t mask)
{
    return chance(&a->dice, 100) ? ~mask : mask;
}

static uint32_t options(struct aim *a)
{
    if (now_wild(a))
        return ONE_OF(&a->dice, 2, 3, 4, 1u << 31, TOP, TOP - 1);
    return roll(&a->dice, 2);
}

static uint32_t a_priority(struct aim *a)
{
    if (now_wild(a))
        return ONE_OF(&a->dice, 15, 16, 17, 255, 256, TOP);
    return roll(&a->dice, 16);
}

static uint32_t a_name(struct aim *a)
{
    return ONE_OF(&a->dice, 0, 1, 2, 3, 7, 9, TOP);
}

static uint32_t a_time_out(struct aim *a)
{
    if (now_wild(a))
        return ONE_OF(&a->dice, 0, 1, 65535, 65536, TOP - 1, 1u << 31);
    return ONE_OF(&a->dice, 1, 1, 2, 2, 3, 4, 6, 40, 65535, TOP, TOP);
}

static void unknown_call(struct aim *a)
{
    uint32_t call = ONE_OF(&a->dice, CALLS, CALLS + 1, 31, 32, 255,
                            256, TOP);

    PUT_MARKED(a, call, roll_32(&a->dice));
}

static void task_create(struct aim *a)
{
    uint32_t name = a_name(a);

    PUT_MARKED(a, TASK_CREATE, name, a_priority(a));
}

/* Delete or suspend, which can leave nothing that runs. */
static void stop_a_task(struct aim *a, uint32_t call, uint32_t wanted)
{
    uint32_t id = task_id(a, wanted);

    PUT_MARKED(a, call, would_stop(a, id) ? 1 : id);
}

static void any_ident(struct aim *a, uint32_t call)
{
    uint32_t name = chance(&a->dice, 125) ? 11 : a_name(a);

    PUT_MARKED(a, call, name);
}

static void sem_create(struct aim *a)
{
    uint32_t name = a_name(a);
    uint32_t count = now_wild(a)
        ? ONE_OF(&a->dice, 32767, 32768, 65536, (1u << 31) - 1, 1u << 31, TOP)
        : ONE_OF(&a->dice, 0, 0, 0, 1, 1, 2, 3, 32766, 32767);

    PUT_MARKED(a, SEM_CREATE, name, count, options(a));
}

/* The semaphores that have a queue, or soon would. */
static uint32_t semaphores_below(const struct aim *a, int32_t count)
{
    uint32_t found = 0;

    for (uint32_t slot = 0; slot < picture_room(A_SEMAPHORE); slot++) {
        if (a->picture.count[slot] < count)
            found |= 1u << slot;
    }
    return found;
}

static void sem_claim(struct aim *a)
{
    uint32_t id = some_id(a, A_SEMAPHORE, semaphores_below(a, 9));
    uint32_t how = chance(&a->dice, 800) ? 0 : options(a);

    PUT_MARKED(a, SEM_CLAIM, id, anchor_runs(a) ? 1 : how, a_time_out(a));
}

static void sem_release(struct aim *a)
{
    uint32_t wanted = chance(&a->dice, 800) ? semaphores_below(a, 0) : TOP;
    uint32_t mark = chance(&a->dice, 200) ? 1 : mark_of(a, SEM_RELEASE);

    PUT(a, SEM_RELEASE, mark, some_id(a, A_SEMAPHORE, wanted));
}

/* Free ground, either end of the ground, or a live pool's edge. */
static uint32_t an_address(struct aim *a, uint32_t length)
{
    struct dice *d = &a->dice;
    uint32_t end = TOP - length + 1, live = a->picture.live[A_POOL];
    uint32_t any = roll_32(d);
    const struct area *near;

    if (live == 0 || chance(d, 400)) {
        if (now_wild(a))
            return end + 1;
        return ONE_OF(d, any, any % 64 * 4096, 0, end);
    }
    near = &a->picture.area[roll_bit(d, live)];
    if (now_wild(a))
        return ONE_OF(d, near->address + near->length - 1, near->address,
                      near->address - length + 1, near->address + 1);
    return chance(d, 500) ? near->address + near->length
                          : near->address - length;
}

static void pool_create(struct aim *a)
{
    struct dice *d = &a->dice;
    uint32_t size = now_wild(a) ? ONE_OF(d, 0, 1, 1u << 31, TOP)
                  : ONE_OF(d, 1, 2, 3, 16, 32, 64, 1000, 1u << 26);
    uint32_t buffers = now_wild(a) ? ONE_OF(d, 0, 65, 66, 128)
                     : ONE_OF(d, 1, 2, 3, 5, 63, 64);
    uint64_t exact = (uint64_t)size * buffers
                   + ONE_OF(d, 0, 0, 1, size != 0 ? size - 1 : 0);
    uint32_t length = exact > TOP ? TOP : (uint32_t)exact;
    uint32_t name = a_name(a), address;

    if (now_wild(a))
        length = ONE_OF(d, 0, 1, TOP, length);
    address = an_address(a, length);
    PUT_MARKED(a, POOL_CREATE, name, address, length, size, options(a));
}

/* A buffer that is out, if there is one, or an address beside the good. */
static uint32_t returned(struct aim *a, const struct area *pool)
{
    struct dice *d = &a->dice;
    uint32_t past = pool->address + pool->length, low = (uint32_t)pool->out;
    uint32_t high = (uint32_t)(pool->out >> 32), buffer = 0;
    uint32_t any = roll_32(d);

    if (now_wild(a))
        return ONE_OF(d, 0, TOP, any, past, past - 1, pool->address,
                      pool->address + pool->size, pool->address + 1,
                      pool->address - 1,
                      pool->address + pool->length / pool->size * pool->size);
    if (low != 0 && (high == 0 || chance(d, 500)))
        buffer = roll_bit(d, low);
    else if (high != 0)
        buffer = 32 + roll_bit(d, high);
    return pool->address + buffer * pool->size;
}

static void pool_ret_buff(struct aim *a)
{
    uint32_t id = some_id(a, A_POOL, TOP);
    int slot = picture_named(&a->picture, A_POOL, id);
    uint32_t address = slot == NOBODY ? roll_32(&a->dice)
                     : returned(a, &a->picture.area[slot]);

    PUT_MARKED(a, POOL_RET_BUFF, id, address);
}

static void queue_create(struct aim *a)
{
    struct dice *d = &a->dice;
    uint32_t name = a_name(a);
    uint32_t most = now_wild(a) ? ONE_OF(d, 0, 1, 16, 17, 256, 272, TOP)
                  : ONE_OF(d, 1, 1, 2, 3, 8, 15, 16);
    uint32_t longest = now_wild(a) ? ONE_OF(d, 0, 1, 64, 65, 256, 320, TOP)
                     : ONE_OF(d, 1, 2, 8, 12, 13, 63, 64);

    PUT_MARKED(a, QUEUE_CREATE, name, most, longest, options(a));
}

/* The queues with waiters, those with messages, or those about to be full. */
enum wish { WAITED_ON, HOLDING, NEARLY_FULL };

static uint32_t queues_of(const struct aim *a, enum wish wish)
{
    const struct picture *p = &a->picture;
    uint32_t found = 0;

    for (uint32_t left = p->live[A_QUEUE]; left != 0; left &= left - 1) {
        uint32_t slot = (uint32_t)__builtin_ctz(left);
        const struct store *s = &p->store[slot];
        bool good = wish == WAITED_ON
                  ? picture_waiters(p, A_QUEUE, (int)slot) != 0
                  : s->held + (wish == NEARLY_FULL) >= (wish == HOLDING ? 1
                                                        : s->most);

        found |= good ? 1u << slot : 0;
    }
    return found;
}

/* A length on either side of the longest, or any that goes. */
static uint32_t a_length(struct aim *a, uint32_t longest)
{
    struct dice *d = &a->dice;
    uint32_t any = roll(d, longest + 1);

    if (now_wild(a))
        return ONE_OF(d, longest + 1, longest + 1, 64, 65, 255, 256,
                      256 + longest, TOP);
    return ONE_OF(d, 0, 1, any, any, longest);
}

static void queue_put(struct aim *a, uint32_t call)
{
    struct dice *d = &a->dice;
    uint32_t wish = roll(d, 10), wanted = TOP, id, length, byte[3];
    uint32_t mark = chance(d, 200) ? 1 : mark_of(a, call);
    int slot;

    if (wish < 7)
        wanted = queues_of(a, wish < 5 ? WAITED_ON : NEARLY_FULL);
    id = some_id(a, A_QUEUE, wanted);
    slot = picture_named(&a->picture, A_QUEUE, id);
    length = a_length(a, slot == NOBODY ? 64 : a->picture.store[slot].longest);
    for (int i = 0; i < 3; i++)
        byte[i] = roll_32(d);
    PUT(a, call, mark, id, length, byte[0], byte[1], byte[2]);
}

void aim_put_message(struct aim *a, uint32_t mark, uint32_t slot)
{
    uint32_t call = ONE_OF(&a->dice, QUEUE_SEND, QUEUE_SEND, QUEUE_JUMP);
    uint32_t length = roll(&a->dice, a->picture.store[slot].longest + 1);
    uint32_t byte = roll_32(&a->dice);

    PUT(a, call, mark, picture_id(&a->picture, A_QUEUE, slot), length, byte,
        ~byte, byte);
}

static void queue_receive(struct aim *a)
{
    uint32_t wanted = chance(&a->dice, 500) ? queues_of(a, HOLDING)
                    : ~queues_of(a, HOLDING);
    uint32_t id = some_id(a, A_QUEUE, wanted);
    uint32_t how = chance(&a->dice, 800) ? 0 : options(a);

    PUT_MARKED(a, QUEUE_RECEIVE, id, anchor_runs(a) ? 1 : how, a_time_out(a));
}

static enum kind kind_of(uint32_t call)
{
    return call < SEM_CREATE ? A_TASK : call < POOL_CREATE ? A_SEMAPHORE
         : call < QUEUE_CREATE ? A_POOL : A_QUEUE;
}

static void set_priority(struct aim *a)
{
    uint32_t id = task_id(a, TOP);

    PUT_MARKED(a, TASK_SET_PRIORITY, id, a_priority(a));
}

static void one_task(struct aim *a, uint32_t call, uint32_t wanted)
{
    uint32_t id = task_id(a, mostly(a, wanted));

    PUT_MARKED(a, call, id);
}

void aim_call(struct aim *a, uint32_t call)
{
    const struct picture *p = &a->picture;

    switch (call) {
    case TICK: PUT_MARKED(a, TICK, 0); break;
    case TASK_CREATE: task_create(a); break;
    case TASK_DELETE: stop_a_task(a, call, TOP); break;
    case TASK_START: one_task(a, call, ~p->started); break;
    case TASK_SUSPEND: stop_a_task(a, call, mostly(a, ~p->suspended)); break;
    case TASK_RESUME: one_task(a, call, p->suspended); break;
    case TASK_SET_PRIORITY: set_priority(a); break;
    case SEM_CREATE: sem_create(a); break;
    case SEM_CLAIM: sem_claim(a); break;
    case SEM_RELEASE: sem_release(a); break;
    case POOL_CREATE: pool_create(a); break;
    case POOL_RET_BUFF: pool_ret_buff(a); break;
    case QUEUE_CREATE: queue_create(a); break;
    case QUEUE_SEND: case QUEUE_JUMP: queue_put(a, call); break;
    case QUEUE_RECEIVE: queue_receive(a); break;
    case TASK_IDENT: case SEM_IDENT: case POOL_IDENT: case QUEUE_IDENT:
        any_ident(a, call);
        break;
    case SEM_DELETE: case SEM_INFO: case POOL_DELETE: case POOL_GET_BUFF:
    case POOL_INFO: case QUEUE_DELETE: case QUEUE_INFO:
        PUT_MARKED(a, call, some_id(a, kind_of(call), TOP));
        break;
    default: unknown_call(a);
    }
}

static uint32_t any_number(struct aim *a)
{
    uint32_t any = roll_32(&a->dice);

    return ONE_OF(&a->dice, any % 4, 64 + any % 8, any % 256, any);
}

void aim_chaos(struct aim *a)
{
    uint32_t call = roll(&a->dice, CALLS + 1);
    uint32_t mark = roll(&a->dice, 6);
    uint32_t arg[5];

    for (int i = 0; i < 5; i++)
        arg[i] = any_number(a);
    if ((call == TASK_DELETE || call == TASK_SUSPEND) && would_stop(a, arg[0]))
        call = TASK_START;
    aim_put(a, call, mark < 4 ? 0 : mark == 4 ? 1 : any_number(a), arg);
}

void aim_revive(struct aim *a)
{
    uint32_t waited = semaphores_below(a, 0) & a->picture.live[A_SEMAPHORE];
    uint32_t received = queues_of(a, WAITED_ON);

    if (a->picture.running != NOBODY || chance(&a->dice, 500))
        return;
    if (received != 0 && chance(&a->dice, 400))
        aim_put_message(a, 1, roll_bit(&a->dice, received));
    else if (waited != 0 && chance(&a->dice, 700))
        PUT(a, SEM_RELEASE, 1, picture_id(&a->picture, A_SEMAPHORE,
                                          roll_bit(&a->dice, waited)));
    else
        PUT(a, TICK, 1, 0);
}

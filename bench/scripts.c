/* From a seed to the bytes of a script. */
#include "scripts.h"

#include "profiles.h"

enum { HEADER = 16, RECORD = 28 };

/* Damaged scripts are short, so there can be many of them. */
enum { DAMAGED_TURNS = 6 };

uint32_t script_profiles(void)
{
    return profiles_number;
}

uint32_t script_turns(void)
{
    return profiles_number + DAMAGED_TURNS;
}

/* In half of the scripts some calls come seldom, often or not at all, so
 * that histories grow which an even mix would cut short. Gives the sum. */
static uint32_t draw_weights(struct dice *d, const struct profile *p,
                             uint32_t weight[CALL_ROWS])
{
    bool uneven = chance(d, 500);
    uint32_t sum = 0;

    for (int call = 0; call < CALL_ROWS; call++) {
        weight[call] = p->base + p->more[call];
        if (uneven)
            weight[call] *= ONE_OF(d, 0, 1, 1, 4);
        sum += weight[call];
    }
    if (sum == 0)
        weight[SEM_INFO] = sum = 1;
    return sum;
}

static uint32_t drawn_call(struct dice *d, const uint32_t *weight,
                           uint32_t sum)
{
    uint32_t left = roll(d, sum), call = 0;

    while (left >= weight[call])
        left -= weight[call++];
    return call;
}

static void play(struct aim *a, const struct profile *p)
{
    uint32_t weight[CALL_ROWS];
    uint32_t sum = draw_weights(&a->dice, p, weight), pause = 0;

    if (p->opening != NULL)
        p->opening(a);
    while (!aim_is_full(a)) {
        if (pause-- == 0) {
            pause = 20 + roll(&a->dice, 40);
            if (p->again != NULL)
                p->again(a);
        }
        aim_revive(a);
        if (p->each != NULL)
            p->each(a);
        else
            aim_call(a, drawn_call(&a->dice, weight, sum));
    }
}

/* Writes the records of a profile behind so many bytes, and the header. */
static void fill(struct script *s, const struct profile *p, struct dice *d,
                 uint32_t before, uint32_t records)
{
    static struct aim a;
    uint32_t priority = roll(d, 16);

    if (p->priority != ANY_PRIORITY)
        priority = p->priority;
    a.wild = p->wild;
    a.anchor = p->anchor == ANCHORED;
    if (p->anchor == EITHER)
        a.anchor = chance(d, 500);
    a.may_stop = p->may_stop || (p->each != NULL && chance(d, 250));
    a.bytes = s->bytes + HEADER + before;
    a.records = 0;
    a.most = records;
    a.dice = *d;
    picture_start(&a.picture, priority);
    play(&a, p);
    *d = a.dice;
    s->length = HEADER + before + RECORD * records;
    put_number(s->bytes, records);
    put_number(s->bytes + 4, HEADER + before);
    put_number(s->bytes + 8, priority);
    put_number(s->bytes + 12, 0);
}

static void any_bytes(struct dice *d, uint8_t *bytes, uint32_t number)
{
    while (number-- > 0)
        *bytes++ = (uint8_t)roll(d, 256);
}

/* Most scripts are as long as can be; some are short, some in between. */
static uint32_t drawn_length(struct dice *d, bool damaged)
{
    uint32_t kind = roll(d, 8);

    if (damaged ? kind < 7 : kind == 0)
        return roll(d, 61);
    return kind == 1 ? 61 + roll(d, 940) : MOST_RECORDS;
}

void script_make(struct script *s, uint64_t seed)
{
    struct dice d = dice_of(seed);
    uint32_t profile = (uint32_t)(seed % script_turns());
    uint32_t before = 0, after = 0, records, room;

    s->seed = seed;
    s->damaged = profile >= profiles_number;
    s->profile = s->damaged ? "damaged" : profiles[profile].name;
    if (s->damaged)
        profile = roll(&d, profiles_number);
    records = drawn_length(&d, s->damaged);
    if (chance(&d, 125)) {
        before = ONE_OF(&d, 1, 2, 3, 4, 5, 28, 1000);
        after = ONE_OF(&d, 0, 1, 2, 3, 27, 28, 29);
    }
    room = (MOST_BYTES - HEADER - before - after) / RECORD;
    fill(s, &profiles[profile], &d, before, records < room ? records : room);
    any_bytes(&d, s->bytes + HEADER, before);
    any_bytes(&d, s->bytes + s->length, after);
    s->length += after;
    if (s->damaged)
        script_damage(s, &d);
}

void script_make_whole(struct script *s, uint64_t seed, uint32_t records)
{
    struct dice d = dice_of(seed);
    const struct profile *p = &profiles[seed % profiles_number];

    s->seed = seed;
    s->damaged = false;
    s->profile = p->name;
    fill(s, p, &d, 0, records);
}

static void ten_records(struct aim *a)
{
    uint32_t id = 64 * (1 + a->records / 10);

    PUT(a, SEM_CREATE, 0, 7, 1, 1);
    PUT(a, SEM_CLAIM, 0, id, 0, TOP);
    PUT(a, SEM_RELEASE, 0, id);
    PUT(a, SEM_INFO, 0, id);
    PUT(a, SEM_DELETE, 0, id);
    PUT(a, POOL_CREATE, 0, 7, 4096, 2048, 32, 0);
    PUT(a, POOL_GET_BUFF, 0, id);
    PUT(a, POOL_RET_BUFF, 0, id, 4096);
    PUT(a, POOL_INFO, 0, id);
    PUT(a, POOL_DELETE, 0, id);
}

void script_make_steady(struct script *s, uint32_t records)
{
    static const struct profile steady = { .name = "steady", .priority = 5,
                                           .each = ten_records };
    struct dice d = dice_of(0);

    s->seed = 0;
    s->damaged = false;
    s->profile = steady.name;
    fill(s, &steady, &d, 0, records);
}

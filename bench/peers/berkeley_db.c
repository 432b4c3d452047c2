// The lock subsystem of Berkeley DB under the same loads: what the proved core is compared with.
//
//     berkeley_db LOAD COUNT SIZE
//
// makes COUNT operations of a load beside SIZE locks. The six modes stand at 9 to 14 of a matrix of 15, clear of the
// meaning that Berkeley DB gives to 0 to 8.
#include <db.h>
#include <stdint.h>
#include <stdio.h>
#include <stdlib.h>
#include <string.h>

enum { FIRST = 9, NL = 9, CR = 10, PR = 12, EX = 14, MODES = 15 };

// Row: wanted, column: held; 1 where the two may be held together.
static const char *const compatible[6] = {"111111", "111110", "111000", "110100", "110000", "100000"};

static DB_ENV *env;

static void must(int error, const char *what) {
    if (error) {
        fprintf(stderr, "%s: %s\n", what, db_strerror(error));
        exit(1);
    }
}

static void open_environment(uint32_t locks, uint32_t lockers, uint32_t objects) {
    static u_int8_t conflicts[MODES * MODES];
    for (int want = 0; want < 6; want++)
        for (int held = 0; held < 6; held++)
            conflicts[(FIRST + want) * MODES + FIRST + held] = compatible[want][held] == '0';
    must(db_env_create(&env, 0), "db_env_create");
    must(env->set_lk_conflicts(env, conflicts, MODES), "set_lk_conflicts");
    must(env->set_lk_max_locks(env, locks + 1000), "set_lk_max_locks");
    must(env->set_lk_max_lockers(env, lockers + 1000), "set_lk_max_lockers");
    must(env->set_lk_max_objects(env, objects + 1000), "set_lk_max_objects");
    must(env->set_lk_tablesize(env, objects + 1000), "set_lk_tablesize");
    // With more partitions the requests for one object can use the entries of one of them up.
    must(env->set_lk_partitions(env, 1), "set_lk_partitions");
    must(env->open(env, NULL, DB_CREATE | DB_INIT_LOCK | DB_PRIVATE, 0), "open");
}

// The name of a resource, as all programs use it: R and eight digits.
static DBT *name_of(long number) {
    static char text[9];
    static DBT name;
    text[0] = 'R';
    for (int place = 8; place > 0; place--, number /= 10)
        text[place] = (char)('0' + number % 10);
    name.size = sizeof text;
    name.data = text;
    return &name;
}

static uint32_t locker(void) {
    uint32_t id;
    must(env->lock_id(env, &id), "lock_id");
    return id;
}

static DB_LOCK get(uint32_t me, long resource, int mode) {
    DB_LOCK lock;
    must(env->lock_get(env, me, 0, name_of(resource), (db_lockmode_t)mode, &lock), "lock_get");
    return lock;
}

// The numbers below `size`, in an order that is the same in every program.
static uint32_t *shuffled(long size) {
    uint32_t *order = calloc((size_t)size, sizeof *order);
    uint64_t x = 88172645463325252ULL;
    for (long i = 0; i < size; i++)
        order[i] = (uint32_t)i;
    for (long i = size - 1; i > 0; i--) {
        x ^= x << 13, x ^= x >> 7, x ^= x << 17;
        long other = (long)(x % (uint64_t)(i + 1));
        uint32_t moved = order[i];
        order[i] = order[other], order[other] = moved;
    }
    return order;
}

static void pairs(long count, long size) {
    open_environment((uint32_t)size, 1, (uint32_t)size);
    DB_LOCK *locks = malloc((size_t)size * sizeof *locks);
    uint32_t *order = shuffled(size), me = locker();
    for (long i = 0; i < size; i++)
        locks[i] = get(me, i, EX);
    for (long turn = 0; turn < count; turn++) {
        long i = order[turn % size];
        must(env->lock_put(env, &locks[i]), "lock_put");
        locks[i] = get(me, i, EX);
    }
    free(order);
    free(locks);
}

// It has no conversion between modes of one's own: a locker asks for the object again in the new mode, since its own
// locks do not conflict, and puts the old lock.
static void convert(uint32_t me, long resource, DB_LOCK *lock, int mode) {
    DB_LOCKREQ wanted[2] = {{0}}, *failed;
    wanted[0].op = DB_LOCK_GET;
    wanted[0].mode = (db_lockmode_t)mode;
    wanted[0].obj = name_of(resource);
    wanted[1].op = DB_LOCK_PUT;
    wanted[1].lock = *lock;
    must(env->lock_vec(env, me, DB_LOCK_NOWAIT, wanted, 2, &failed), "lock_vec");
    *lock = wanted[0].lock;
}

static void conversions(long count, long size) {
    open_environment((uint32_t)(2 * size), 1, (uint32_t)size);
    DB_LOCK *locks = malloc((size_t)size * sizeof *locks);
    uint32_t me = locker();
    for (long i = 0; i < size; i++)
        locks[i] = get(me, i, NL);
    for (long turn = 0; turn < count; turn++)
        convert(me, turn % size, &locks[turn % size], turn / size % 2 == 0 ? EX : NL);
    free(locks);
}

static uint32_t hold(long size, int mode) {
    open_environment((uint32_t)size + 10, (uint32_t)size + 10, 10);
    for (long i = 0; i < size; i++)
        get(locker(), 0, mode);
    return locker();
}

static void beside(long count, long size) {
    uint32_t me = hold(size, NL);
    DB_LOCK lock = get(me, 0, NL);
    for (long turn = 0; turn < count; turn++)
        convert(me, 0, &lock, turn % 2 == 0 ? EX : NL);
}

static void shared(long count, long size) {
    uint32_t me = hold(size, CR);
    for (long turn = 0; turn < count; turn++) {
        DB_LOCK lock = get(me, 0, PR);
        must(env->lock_put(env, &lock), "lock_put");
    }
}

static void refused(long count, long size) {
    uint32_t me = hold(size, CR);
    for (long turn = 0; turn < count; turn++) {
        DB_LOCK lock;
        if (env->lock_get(env, me, DB_LOCK_NOWAIT, name_of(0), (db_lockmode_t)EX, &lock) != DB_LOCK_NOTGRANTED)
            must(1, "lock_get");
    }
}

int main(int argc, char **argv) {
    static const struct {
        const char *name;
        void (*run)(long count, long size);
    } loads[] = {
        {"pairs", pairs}, {"conversions", conversions}, {"beside", beside}, {"shared", shared}, {"refused", refused}};
    if (argc == 4)
        for (size_t i = 0; i < sizeof loads / sizeof *loads; i++)
            if (!strcmp(argv[1], loads[i].name)) {
                loads[i].run(atol(argv[2]), atol(argv[3]));
                return 0;
            }
    fprintf(stderr, "berkeley_db pairs|conversions|beside|shared|refused COUNT SIZE\n");
    return 1;
}

/* The core for Lua 5.4: `require "ref_lua"` gives a table with one function.
 *
 *   ref_lua.world(mutators, workers, queues, cells, span, scaled)
 *
 * makes a world, which ends as Lua collects it, or with its scope where it is a `<close>` variable. Each step is a
 * method with the arguments of its call in c/ref.h, as world:new(0, 0, 2); a reference for no queue has nil there. It
 * returns the reply's kind and then what this tells, in order: world:hand(0) may return "notice", 2, 0, 1, 0. What a
 * batch lists is a table. A number that no step can have raises an error. */
#include "ref.h"
#include <lauxlib.h>
#include <lua.h>
#include <string.h>

#define WORLD "ref_lua.world"

/* A step's name and kind, and for each argument a digit of {by 1, a 2, b 3, c 4, n 6, clock 7}. */
static const struct {
    const char *name, *given;
    uint32_t kind;
} steps[] = {
    {"new", "126", REF_NEW}, {"soft", "12346", REF_SOFT}, {"weak", "12346", REF_WEAK},
    {"phantom", "12346", REF_PHANTOM}, {"store", "1263", REF_STORE}, {"load", "1236", REF_LOAD},
    {"copy", "123", REF_COPY}, {"drop", "12", REF_DROP}, {"get", "123", REF_GET}, {"clear", "12", REF_CLEAR},
    {"refers", "123", REF_REFERS}, {"unhook", "12", REF_UNHOOK}, {"put", "1", REF_PUT}, {"puts", "1", REF_PUTS},
    {"poll", "14", REF_POLL}, {"polls", "146", REF_POLLS}, {"adopt", "12", REF_ADOPT}, {"release", "1", REF_RELEASE},
    {"close", "14", REF_CLOSE}, {"begin", "76", REF_BEGIN}, {"scan", "1", REF_SCAN}, {"end_mark", "", REF_END_MARK},
    {"clear_next", "1", REF_CLEAR_NEXT}, {"end_clear", "", REF_END_CLEAR}, {"hand", "1", REF_HAND},
    {"hands", "16", REF_HANDS}, {"worker_put", "1", REF_WORKER_PUT}, {"worker_puts", "1", REF_WORKER_PUTS},
    {"worker_release", "1", REF_WORKER_RELEASE}, {"sweep", "1", REF_SWEEP}, {"end_sweep", "", REF_END_SWEEP},
    {"select", "", REF_SELECT}, {"move", "1", REF_MOVE}, {"end_move", "", REF_END_MOVE}};

/* By its kind, a reply's name, and for what it tells digits of {fault 1, object 2, queue 3, worker 4, count 5,
 * number 6}, or `l` for a list of as many as it counts, or `L` for one of two numbers each. */
static const struct {
    const char *name, *told;
} replies[] = {
    {"object", "2"}, {"null", ""}, {"ok", ""}, {"true", ""}, {"false", ""}, {"notice", "2364"}, {"own notice", "23"},
    {"notices", "l364"}, {"none", ""}, {"added", "6"}, {"already", ""}, {"closed", ""}, {"outs", "L"}, {"took", "2"},
    {"took some", "l"}, {"empty", ""}, {"cycle", "6"}, {"scanned", "2"}, {"doomed", "5"}, {"cleared", "2"},
    {"kept", "2"}, {"skipped", "2"}, {"swept", "5"}, {"selected", "5"}, {"moved", "2"}, {"refused", "1"},
    {"no step", ""}, {"no world", ""}};

static uint64_t number_at(lua_State *L, int place, uint64_t most) {
    lua_Integer number = luaL_checkinteger(L, place);
    luaL_argcheck(L, number >= 0 && (uint64_t)number <= most, place, "no such number");
    return (uint64_t)number;
}

static void push_list(lua_State *L, const uint64_t *list, uint32_t count) {
    lua_newtable(L);
    for (uint32_t i = 0; i < count; i++) {
        lua_pushinteger(L, (lua_Integer)list[i]);
        lua_rawseti(L, -2, (lua_Integer)i + 1);
    }
}

static int push_reply(lua_State *L, struct ref_reply reply, const uint64_t *list) {
    const uint64_t numbers[] = {0, reply.fault, reply.object, reply.queue, reply.worker, reply.count, reply.number};
    const char *told = replies[reply.kind - REF_IS_OBJECT].told;
    lua_pushstring(L, replies[reply.kind - REF_IS_OBJECT].name);
    for (int i = 0; told[i] != '\0'; i++)
        if (told[i] == 'l' || told[i] == 'L') push_list(L, list, told[i] == 'l' ? reply.count : 2 * reply.count);
        else lua_pushinteger(L, (lua_Integer)numbers[told[i] - '0']);
    return 1 + (int)strlen(told);
}

/* A method, whose upvalue is the place of its step in the table. */
static int do_step(lua_State *L) {
    struct ref_world *world = luaL_checkudata(L, 1, WORLD);
    lua_Integer place = lua_tointeger(L, lua_upvalueindex(1));
    uint32_t kind = steps[place].kind;
    uint64_t given[8] = {0}, list[64];
    for (int i = 0; steps[place].given[i] != '\0'; i++) {
        int digit = steps[place].given[i] - '0';
        if (digit == 4 && kind <= REF_PHANTOM && lua_isnil(L, i + 2)) kind += REF_SOFT_UNQUEUED - REF_SOFT;
        else given[digit] = number_at(L, i + 2, digit == 7 ? UINT64_MAX : UINT32_MAX);
    }
    struct ref_step step = {kind, (uint32_t)given[1], (uint32_t)given[2], (uint32_t)given[3], (uint32_t)given[4],
                            (uint32_t)given[6], given[7]};
    struct ref_reply reply = ref_listed(world, step, list, 64);
    return push_reply(L, reply, list);
}

static int make_world(lua_State *L) {
    uint64_t given[6];
    for (int i = 0; i < 6; i++) given[i] = number_at(L, i + 1, i == 4 ? UINT64_MAX : UINT32_MAX);
    struct ref_config config = {(uint32_t)given[0], (uint32_t)given[1], (uint32_t)given[2],
                                (uint32_t)given[3], given[4], (uint32_t)given[5]};
    struct ref_world *world = lua_newuserdatauv(L, sizeof *world, 0);
    world->at = NULL;
    luaL_setmetatable(L, WORLD);
    uint32_t fault = ref_world_new(world, &config);
    return fault == 0 ? 1 : luaL_error(L, "no world is made: fault %d", (int)fault);
}

static int end_world(lua_State *L) {
    ref_world_end(luaL_checkudata(L, 1, WORLD));
    return 0;
}

int luaopen_ref_lua(lua_State *L) {
    const luaL_Reg module[] = {{"world", make_world}, {NULL, NULL}};
    const luaL_Reg ends[] = {{"__gc", end_world}, {"__close", end_world}, {NULL, NULL}};
    luaL_newmetatable(L, WORLD);
    luaL_setfuncs(L, ends, 0);
    lua_newtable(L);
    for (size_t i = 0; i < sizeof steps / sizeof *steps; i++) {
        lua_pushinteger(L, (lua_Integer)i);
        lua_pushcclosure(L, do_step, 1);
        lua_setfield(L, -2, steps[i].name);
    }
    lua_setfield(L, -2, "__index");
    luaL_newlib(L, module);
    return 1;
}

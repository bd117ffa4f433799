/* The interpreter Lua, as it is, with a script; each of its objects comes from the store. */
#include "work.h"

#include <lauxlib.h>
#include <lua.h>
#include <lualib.h>
#include <stdio.h>
#include <string.h>

#define TEXT(number) #number
#define TEXT_OF(number) TEXT(number)

static const char script[] =
    "local scale = " TEXT_OF(SCALE) "\n"
    "local words, count = {}, 0\n"
    "for i = 1, 20 * scale do\n"
    "    local word = string.format('%x', i * 7919 % 1009)\n"
    "    words[word] = (words[word] or 0) + 1\n"
    "end\n"
    "for word, times in pairs(words) do count = count + #word * times end\n"
    "local function made(depth)\n"
    "    if depth == 0 then return { value = count } end\n"
    "    return { left = made(depth - 1), right = made(depth - 1), name = 'n' .. depth }\n"
    "end\n"
    "local function sum(tree) return tree.value or sum(tree.left) + sum(tree.right) end\n"
    "local total = 0\n"
    "for round = 1, scale do total = total + sum(made(5)) end\n"
    "local list = {}\n"
    "for i = 1, 30 * scale do list[i] = i * 7919 % 1000 end\n"
    "table.sort(list, function(one, other) return one > other end)\n"
    "local squares = coroutine.wrap(function() for i = 1, 5 * scale do coroutine.yield(i * i) end end)\n"
    "for i = 1, 5 * scale do total = total + squares() end\n"
    "print(count, total, list[1], list[#list], table.concat(list, ' ', 1, 5), 2 ^ 0.5)\n";

static void *changed(void *own, void *object, size_t old, size_t bytes) {
    (void)own;
    void *made = bytes == 0 ? 0 : take(bytes);
    if (bytes != 0 && made == 0) return 0;
    if (object && made) memcpy(made, object, old < bytes ? old : bytes);
    if (object) give(object);
    return made;
}

static void open_library(lua_State *lua, const char *name, lua_CFunction library) {
    luaL_requiref(lua, name, library, 1);
    lua_pop(lua, 1);
}

int main(void) {
    lua_State *lua = lua_newstate(changed, 0);
    if (!lua) return 1;
    open_library(lua, LUA_GNAME, luaopen_base);
    open_library(lua, LUA_TABLIBNAME, luaopen_table);
    open_library(lua, LUA_STRLIBNAME, luaopen_string);
    open_library(lua, LUA_COLIBNAME, luaopen_coroutine);
    if (luaL_dostring(lua, script) != LUA_OK) {
        puts(lua_tostring(lua, -1));
        return 1;
    }
    lua_close(lua);
    return 0;
}

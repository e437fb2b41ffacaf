/* More calls than the run of a script may make: each spawns an entity, writes it, takes that back or does it again. All
 * have to be done, the last one as the first.
 *
 *     many_calls [CALLS]       so many calls, 1,100,000 where none are given
 *
 * The status is 1, with a message, where a call doesn't come to what it has to. */
#include "scene.h"

#include <inttypes.h>
#include <stdio.h>
#include <stdlib.h>
#include <string.h>

enum { COUNT, KEPT = 100 };

/* Makes the call of a number: of each four one spawns, or despawns what was spawned long before, one writes, one undoes
 * and one redoes. */
static scene_code call(scene **s, scene_entity kept[KEPT], unsigned long number)
{
    scene_entity *entity = &kept[number / 4 % KEPT];
    scene_cell cell = {.kind = COUNT, .shape = SCENE_INT, .x = (int64_t)number};
    scene_code code;
    switch (number % 4) {
    case 0:
        if (number / 4 >= KEPT && number / 4 / KEPT % 2 == 1) return scene_insert(s, *entity, cell);
        if (number / 4 >= KEPT && (code = scene_despawn(s, *entity)) != SCENE_DONE) return code;
        code = scene_spawn(s);
        return code == SCENE_DONE ? scene_spawned(s, 0, entity) : code;
    case 1: return scene_insert(s, *entity, cell);
    case 2: return scene_undo(s);
    default: return scene_redo(s);
    }
}

static int play(scene **s, unsigned long calls)
{
    static const char kind[] = "kind Count Int";
    scene_entity kept[KEPT];
    if (scene_open(s) != SCENE_DONE || scene_line(s, (const uint8_t *)kind, strlen(kind)) != SCENE_DONE) return 1;
    for (unsigned long number = 0; number < calls; number++) {
        scene_code code = call(s, kept, number);
        if (code == SCENE_DONE) continue;
        fprintf(stderr, "many_calls: call %lu comes to code %d\n", number, (int)code);
        return 1;
    }
    return 0;
}

int main(int count, char **words)
{
    unsigned long calls = count > 1 ? strtoul(words[1], NULL, 10) : 1100000;
    scene *s = NULL;
    int status = play(&s, calls);
    scene_close(&s);
    if (status == 0) printf("%lu calls are done\n", calls);
    return status;
}

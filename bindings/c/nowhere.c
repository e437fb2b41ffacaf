/* What stands in front of the proved calls that take an array with its length. A slice of the toolchain is never null,
 * and always aligned, also one of no items; C may pass NULL for no items, or anything. So each call here hands on its
 * arguments to the proved one, to which tools/library gives the other name; but in place of an array of no items it
 * hands on a place of its own. An array that has items is handed on as it is, and has to be aligned.
 *
 * scene_answer and scene_fault_name take NULL themselves. */
#include "scene.h"

/* Aligned for items of any type. Nothing reads or writes it, so all threads may have it at once. */
static max_align_t nowhere;

/* The array at `at`, of `count` items. */
#define PLACE(at, count) ((count) != 0 ? (at) : (__typeof__(at))&nowhere)

__typeof__(scene_line) proved_scene_line;
scene_code scene_line(scene **s, const uint8_t *line, size_t len)
{
    return proved_scene_line(s, PLACE(line, len), len);
}

__typeof__(scene_request) proved_scene_request;
scene_code scene_request(scene **s, const uint8_t *request, size_t len)
{
    return proved_scene_request(s, PLACE(request, len), len);
}

__typeof__(scene_declare) proved_scene_declare;
scene_code scene_declare(scene **s, const uint8_t *name, size_t len, uint32_t shape, uint32_t *kind)
{
    return proved_scene_declare(s, PLACE(name, len), len, shape, kind);
}

__typeof__(scene_load) proved_scene_load;
scene_code scene_load(scene **s, const uint8_t *text, size_t len)
{
    return proved_scene_load(s, PLACE(text, len), len);
}

__typeof__(scene_with_text) proved_scene_with_text;
scene_code scene_with_text(scene **s, uint32_t kind, const uint8_t *text, size_t len)
{
    return proved_scene_with_text(s, kind, PLACE(text, len), len);
}

__typeof__(scene_spawn_cells) proved_scene_spawn_cells;
scene_code scene_spawn_cells(scene **s, const scene_cell *cells, size_t count, const uint8_t *bytes, size_t len,
                             scene_entity *out)
{
    return proved_scene_spawn_cells(s, PLACE(cells, count), count, PLACE(bytes, len), len, out);
}

__typeof__(scene_insert_text) proved_scene_insert_text;
scene_code scene_insert_text(scene **s, scene_entity entity, uint32_t kind, const uint8_t *text, size_t len)
{
    return proved_scene_insert_text(s, entity, kind, PLACE(text, len), len);
}

__typeof__(scene_insert_cells) proved_scene_insert_cells;
scene_code scene_insert_cells(scene **s, const scene_entity *entities, size_t count, const scene_cell *cells,
                              size_t cell_count, const uint8_t *bytes, size_t len)
{
    return proved_scene_insert_cells(s, PLACE(entities, count), count, PLACE(cells, cell_count), cell_count,
                                     PLACE(bytes, len), len);
}

__typeof__(scene_put) proved_scene_put;
scene_code scene_put(scene **s, const uint8_t *name, size_t name_len, scene_cell cell)
{
    return proved_scene_put(s, PLACE(name, name_len), name_len, cell);
}

__typeof__(scene_put_text) proved_scene_put_text;
scene_code scene_put_text(scene **s, const uint8_t *name, size_t name_len, const uint8_t *text, size_t len)
{
    return proved_scene_put_text(s, PLACE(name, name_len), name_len, PLACE(text, len), len);
}

__typeof__(scene_drop) proved_scene_drop;
scene_code scene_drop(scene **s, const uint8_t *name, size_t name_len)
{
    return proved_scene_drop(s, PLACE(name, name_len), name_len);
}

__typeof__(scene_children) proved_scene_children;
scene_code scene_children(scene **s, scene_entity entity, size_t from, scene_entity *at, size_t room, size_t *total)
{
    return proved_scene_children(s, entity, from, PLACE(at, room), room, total);
}

__typeof__(scene_roots) proved_scene_roots;
scene_code scene_roots(scene **s, size_t from, scene_entity *at, size_t room, size_t *total)
{
    return proved_scene_roots(s, from, PLACE(at, room), room, total);
}

__typeof__(scene_tables) proved_scene_tables;
scene_code scene_tables(scene **s, uint64_t need, uint64_t without, size_t from, scene_table *at, size_t room,
                        size_t *total)
{
    return proved_scene_tables(s, need, without, from, PLACE(at, room), room, total);
}

__typeof__(scene_rows) proved_scene_rows;
scene_code scene_rows(scene **s, uint64_t mask, size_t from, scene_entity *at, size_t room, size_t *total)
{
    return proved_scene_rows(s, mask, from, PLACE(at, room), room, total);
}

__typeof__(scene_ints) proved_scene_ints;
scene_code scene_ints(scene **s, uint64_t mask, uint32_t kind, size_t from, int64_t *at, size_t room, size_t *total)
{
    return proved_scene_ints(s, mask, kind, from, PLACE(at, room), room, total);
}

__typeof__(scene_vec3s) proved_scene_vec3s;
scene_code scene_vec3s(scene **s, uint64_t mask, uint32_t kind, size_t from, scene_vec3 *at, size_t room, size_t *total)
{
    return proved_scene_vec3s(s, mask, kind, from, PLACE(at, room), room, total);
}

__typeof__(scene_links) proved_scene_links;
scene_code scene_links(scene **s, uint64_t mask, uint32_t kind, size_t from, scene_entity *at, size_t room,
                       size_t *total)
{
    return proved_scene_links(s, mask, kind, from, PLACE(at, room), room, total);
}

__typeof__(scene_texts) proved_scene_texts;
scene_code scene_texts(scene **s, uint64_t mask, uint32_t kind, size_t from, size_t *ends, size_t room, uint8_t *bytes,
                       size_t bytes_room, size_t *told, size_t *total)
{
    return proved_scene_texts(s, mask, kind, from, PLACE(ends, room), room, PLACE(bytes, bytes_room), bytes_room, told,
                              total);
}

__typeof__(scene_ticks) proved_scene_ticks;
scene_code scene_ticks(scene **s, uint64_t mask, uint32_t kind, uint32_t which, size_t from, uint64_t *at, size_t room,
                       size_t *total)
{
    return proved_scene_ticks(s, mask, kind, which, from, PLACE(at, room), room, total);
}

__typeof__(scene_kind) proved_scene_kind;
scene_code scene_kind(scene **s, uint32_t kind, uint32_t *shape, size_t from, uint8_t *at, size_t room, size_t *total)
{
    return proved_scene_kind(s, kind, shape, from, PLACE(at, room), room, total);
}

__typeof__(scene_kind_named) proved_scene_kind_named;
scene_code scene_kind_named(scene **s, const uint8_t *name, size_t len, uint32_t *out)
{
    return proved_scene_kind_named(s, PLACE(name, len), len, out);
}

__typeof__(scene_read_text) proved_scene_read_text;
scene_code scene_read_text(scene **s, scene_entity entity, uint32_t kind, size_t from, uint8_t *at, size_t room,
                           size_t *total)
{
    return proved_scene_read_text(s, entity, kind, from, PLACE(at, room), room, total);
}

__typeof__(scene_gather) proved_scene_gather;
scene_code scene_gather(scene **s, const scene_entity *entities, size_t count, uint32_t kind, scene_cell *at,
                        size_t room)
{
    return proved_scene_gather(s, PLACE(entities, count), count, kind, PLACE(at, room), room);
}

__typeof__(scene_resources) proved_scene_resources;
scene_code scene_resources(scene **s, size_t place, size_t from, uint8_t *at, size_t room, size_t *total)
{
    return proved_scene_resources(s, place, from, PLACE(at, room), room, total);
}

__typeof__(scene_resource) proved_scene_resource;
scene_code scene_resource(scene **s, const uint8_t *name, size_t len, scene_cell *out, scene_tick_pair *ticks)
{
    return proved_scene_resource(s, PLACE(name, len), len, out, ticks);
}

__typeof__(scene_resource_text) proved_scene_resource_text;
scene_code scene_resource_text(scene **s, const uint8_t *name, size_t len, size_t from, uint8_t *at, size_t room,
                               size_t *total)
{
    return proved_scene_resource_text(s, PLACE(name, len), len, from, PLACE(at, room), room, total);
}

__typeof__(scene_changed_since) proved_scene_changed_since;
scene_code scene_changed_since(scene **s, scene_moment moment, uint64_t need, uint64_t without, size_t from,
                               scene_name *at, size_t room, size_t *total)
{
    return proved_scene_changed_since(s, moment, need, without, from, PLACE(at, room), room, total);
}

__typeof__(scene_added_since) proved_scene_added_since;
scene_code scene_added_since(scene **s, scene_moment moment, uint64_t need, uint64_t without, size_t from,
                             scene_name *at, size_t room, size_t *total)
{
    return proved_scene_added_since(s, moment, need, without, from, PLACE(at, room), room, total);
}

__typeof__(scene_step) proved_scene_step;
scene_code scene_step(scene **s, uint32_t way, size_t place, uint64_t *tick, size_t from, scene_delta *at, size_t room,
                      size_t *total)
{
    return proved_scene_step(s, way, place, tick, from, PLACE(at, room), room, total);
}

__typeof__(scene_delta_rows) proved_scene_delta_rows;
scene_code scene_delta_rows(scene **s, uint32_t way, size_t place, size_t from, size_t *ends, size_t room,
                            scene_cell *cells, size_t cells_room, size_t *told, size_t *total)
{
    return proved_scene_delta_rows(s, way, place, from, PLACE(ends, room), room, PLACE(cells, cells_room), cells_room,
                                   told, total);
}

__typeof__(scene_delta_texts) proved_scene_delta_texts;
scene_code scene_delta_texts(scene **s, uint32_t way, size_t place, uint32_t which, uint32_t kind, size_t from,
                             size_t *ends, size_t room, uint8_t *bytes, size_t bytes_room, size_t *told, size_t *total)
{
    return proved_scene_delta_texts(s, way, place, which, kind, from, PLACE(ends, room), room, PLACE(bytes, bytes_room),
                                    bytes_room, told, total);
}

__typeof__(scene_save_into) proved_scene_save_into;
scene_code scene_save_into(scene **s, uint32_t version, size_t from, uint8_t *at, size_t room, size_t *total)
{
    return proved_scene_save_into(s, version, from, PLACE(at, room), room, total);
}

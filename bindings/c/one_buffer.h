/* The calls that read two buffers, with one buffer for both, or with two that overlap. TREE is the type of a tree,
 * CALL(name) a function, and IS and HOLDS compare; all are defined before this file is included. */
static void one_buffer(TREE *t) {
    char text[] = "/abc", out[8] = { 0 };
    struct wt_stat s;
    IS(CALL(create)(t, text, 2, 0644), 2), IS(CALL(write)(t, text, 2, 0, text, 4), 4);
    IS(CALL(pread)(t, text, 2, 0, out, sizeof out), 4), HOLDS(!strcmp(out, "/abc"));
    IS(CALL(rename)(t, text, 2, text, 2), 0), IS(CALL(rename)(t, text, 2, text, 3), 0);
    IS(CALL(rename2)(t, text, 3, text, 3, 1), -EEXIST), IS(CALL(rename2)(t, text, 3, text, 4, 1), 0);
    IS(CALL(rename2)(t, text, 4, text, 4, 2), 0), IS(CALL(link)(t, text, 4, text, 4), -EEXIST);
    IS(CALL(link)(t, text, 4, text, 3), 0), IS(CALL(stat)(t, text, 3, &s), 0), HOLDS(s.number == 2 && s.links == 2);
    IS(CALL(stat)(t, text, 2, &s), -ENOENT), IS(CALL(stat)(t, text, 4, &s), 0), HOLDS(s.size == 4);
    HOLDS(!strcmp(text, "/abc"));
}

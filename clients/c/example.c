/* Runs the script in a file, and prints its transcript:  example SCRIPT [POLICY PROFILE]  */
#include "landtree.h"
#include <stdio.h>
#include <stdlib.h>
#include <string.h>

struct text {
    uint8_t *bytes;
    size_t length;
};

static struct text read_file(const char *path) {
    struct text it = {malloc(1), 0};
    size_t room = 1, got;
    FILE *file = fopen(path, "rb");
    if (file == NULL) {
        perror(path);
        exit(1);
    }
    do {
        room *= 2;
        it.bytes = realloc(it.bytes, room);
        got = fread(it.bytes + it.length, 1, room - it.length, file);
        it.length += got;
    } while (it.length == room);
    fclose(file);
    return it;
}

int main(int argc, char **argv) {
    if (argc != 2 && argc != 4) {
        fprintf(stderr, "usage: %s SCRIPT [POLICY PROFILE]\n", argv[0]);
        return 2;
    }
    struct text script = read_file(argv[1]);
    struct text policy = argc == 4 ? read_file(argv[2]) : (struct text){malloc(1), 0};
    const char *profile = argc == 4 ? argv[3] : "";
    size_t capacity = 4096, length = 0;
    uint8_t *out = malloc(capacity);
    uint32_t status;
    for (;;) {
        status = landtree_run(0, 4096, 0, 0, policy.bytes, policy.length, (const uint8_t *)profile, strlen(profile),
                              script.bytes, script.length, out, capacity, &length);
        if (status != LANDTREE_TOO_SHORT) break;
        capacity = length;
        out = realloc(out, capacity);
    }
    int is_answer = status == LANDTREE_DONE || status == LANDTREE_ENDED;
    fwrite(out, 1, length, is_answer ? stdout : stderr);
    free(out);
    free(policy.bytes);
    free(script.bytes);
    return (int)status;
}

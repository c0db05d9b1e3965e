/* Asks the system for the stamps of the paths in a file, one a line, by several threads, and does nothing else. This is
 * the time that a build with nothing to do can't go below if it asks for all of them: floor THREADS FILE */
#include <fcntl.h>
#include <pthread.h>
#include <stdio.h>
#include <stdlib.h>
#include <string.h>
#include <sys/stat.h>

struct share {
    char **paths;
    size_t count;
    unsigned long missing;
    pthread_t thread;
};

static void *ask(void *given) {
    struct share *share = given;
    for (size_t number = 0; number < share->count; number++) {
        struct stat found;
        if (fstatat(AT_FDCWD, share->paths[number], &found, 0) != 0) share->missing++;
    }
    return NULL;
}

static char *read_all(const char *name, size_t *size) {
    FILE *file = fopen(name, "rb");
    if (file == NULL) return NULL;
    fseek(file, 0, SEEK_END);
    *size = (size_t)ftell(file);
    rewind(file);
    char *text = malloc(*size + 1);
    if (text == NULL || fread(text, 1, *size, file) != *size) return NULL;
    text[*size] = '\0';
    fclose(file);
    return text;
}

int main(int count, char **words) {
    size_t size = 0, lines = 0;
    int threads = count == 3 ? atoi(words[1]) : 0;
    char *text = threads > 0 && threads <= 64 ? read_all(words[2], &size) : NULL;
    char **paths = text == NULL ? NULL : malloc((size + 1) * sizeof *paths);
    if (paths == NULL) {
        fputs("floor THREADS FILE\n", stderr);
        return 2;
    }
    for (char *line = strtok(text, "\n"); line != NULL; line = strtok(NULL, "\n")) paths[lines++] = line;
    struct share shares[64];
    for (int number = 0; number < threads; number++) {
        size_t begin = lines * number / threads, end = lines * (number + 1) / threads;
        shares[number] = (struct share){paths + begin, end - begin, 0, 0};
        if (pthread_create(&shares[number].thread, NULL, ask, &shares[number]) != 0) return 2;
    }
    for (int number = 0; number < threads; number++) pthread_join(shares[number].thread, NULL);
    return 0;
}

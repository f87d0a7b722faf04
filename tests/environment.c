/* Calls on threads, each in an environment of its own: environment SHEET. The answers are those of the usual environment, bit for bit,
 * and each thread's environment is as it was after every call. Ends with 1 where one differs; a trapped exception ends it too. */
#include <pthread.h>
#include <signal.h>
#include <stdio.h>
#include <stdlib.h>
#include <string.h>

#include "dihkelu.h"
#include "environments.h"

enum { ROUNDS = 2000, NUMBERS = 2 * 64 + 2 + DIHKELU_RESPONSE };
static uint8_t sheet[40000];
static size_t size;
static uint64_t usual[NUMBERS + 3];

/* A run, a band and a coated surface: three numbers returned and all numbers written, as bits. */
static void answers(uint64_t *to) {
    static const double wavelengths[] = {500.0, 532.0, 1064.0};
    static const uint32_t weights[] = {1, 2, 3};
    memset(to, 0, 8 * (NUMBERS + 3));
    double *list = (double *)(to + 3);
    to[0] = dihkelu_run(sheet, size, list, 128);
    to[1] = dihkelu_band(sheet, size, wavelengths, 3, weights, 3, list + 128, 2);
    to[2] = dihkelu_evaluate(2, 550.0, 1.0, 1.5, 0.3, 633.0, NULL, 0, list + 130, DIHKELU_RESPONSE);
}

static void *in_environment(void *number) {
    uint64_t *found = malloc(8 * (NUMBERS + 3));
    if (found == NULL) return number;
    environment_take(environments[*(size_t *)number]);
    uint64_t before = environment_now();
    int same = 1;
    for (int i = 0; i < ROUNDS && same; i++) {
        answers(found);
        same = environment_now() == before && memcmp(found, usual, 8 * (NUMBERS + 3)) == 0;
    }
    environment_take(environments[0]);
    free(found);
    return same ? NULL : number;
}

static void trapped(int number) {
    (void)number;
    _Exit(4);
}

int main(int count, char **words) {
    FILE *file = count == 2 ? fopen(words[1], "rb") : NULL;
    if (file == NULL) return puts("usage: environment SHEET"), 2;
    size = fread(sheet, 1, sizeof sheet, file);
    fclose(file);
    signal(SIGFPE, trapped);
    environment_take(environments[0]);
    answers(usual);
    if (dihkelu_refusal(usual[0]) || dihkelu_refusal(usual[1]) || dihkelu_refusal(usual[2])) return puts("environment: refused"), 2;
    pthread_t threads[ENVIRONMENTS];
    size_t numbers[ENVIRONMENTS];
    int wrong = 0;
    for (size_t i = 0; i < ENVIRONMENTS; i++) {
        numbers[i] = i;
        if (pthread_create(&threads[i], NULL, in_environment, &numbers[i]) != 0) return puts("environment: no thread"), 2;
    }
    for (size_t i = 0; i < ENVIRONMENTS; i++) {
        void *differs;
        pthread_join(threads[i], &differs);
        if (differs != NULL) printf("environment %zu: other answers, or it was not given back\n", i);
        wrong |= differs != NULL;
    }
    printf("environment: %d calls on each of %d threads\n", 3 * ROUNDS, (int)ENVIRONMENTS);
    return wrong;
}

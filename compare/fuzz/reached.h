/* Which instructions of the archive the cases reach. It has no counters of its own, so each of its instructions is a breakpoint until it is reached
 * for the first time; the fuzzer keeps the case that reaches it. The addresses are those that `run` lists beside the program. */
#ifndef REACHED_H
#define REACHED_H

#include <signal.h>
#include <stdint.h>
#include <stdio.h>
#include <stdlib.h>
#include <sys/mman.h>
#include <ucontext.h>

enum { MOST_INSTRUCTIONS = 1 << 15, BREAKPOINT = 0xcc };

/* Where the program begins; the linker's. */
extern const char __executable_start;

__attribute__((section("__libfuzzer_extra_counters"))) static uint8_t reached_now[MOST_INSTRUCTIONS];
static uint8_t *instructions[MOST_INSTRUCTIONS]; /* in the order of their addresses */
static uint8_t first_bytes[MOST_INSTRUCTIONS];
static size_t instruction_count, reached_count;

/* The place of an address in the list, or the list's length. */
static size_t place_of(const uint8_t *address) {
    size_t low = 0, high = instruction_count;
    while (low < high) {
        size_t middle = (low + high) / 2;
        if (instructions[middle] < address)
            low = middle + 1;
        else
            high = middle;
    }
    return low < instruction_count && instructions[low] == address ? low : instruction_count;
}

/* Puts the instruction back and goes on with it. */
static void reach(int number, siginfo_t *info, void *context) {
    (void)number, (void)info;
    greg_t *next = &((ucontext_t *)context)->uc_mcontext.gregs[REG_RIP];
    uint8_t *address = (uint8_t *)(uintptr_t)*next - 1;
    size_t place = place_of(address);
    if (place == instruction_count)
        abort();
    *address = first_bytes[place];
    reached_now[place] = 1;
    reached_count++;
    *next -= 1;
}

static void make_writable(uint8_t *first, uint8_t *last) {
    uintptr_t page = 4096, from = (uintptr_t)first & ~(page - 1), to = ((uintptr_t)last | (page - 1)) + 1;
    if (mprotect((void *)from, to - from, PROT_READ | PROT_WRITE | PROT_EXEC) != 0) {
        perror("mprotect");
        exit(1);
    }
}

/* Without the list nothing is watched. */
static void watch_instructions(const char *program) {
    char name[4096];
    snprintf(name, sizeof name, "%s.instructions", program);
    FILE *list = fopen(name, "r");
    if (list == NULL)
        return;
    unsigned long at;
    while (instruction_count < MOST_INSTRUCTIONS && fscanf(list, "%lx", &at) == 1)
        instructions[instruction_count++] = (uint8_t *)(uintptr_t)&__executable_start + at;
    fclose(list);
    if (instruction_count == 0)
        return;
    struct sigaction action = {.sa_sigaction = reach, .sa_flags = SA_SIGINFO};
    sigaction(SIGTRAP, &action, NULL);
    make_writable(instructions[0], instructions[instruction_count - 1]);
    for (size_t i = 0; i < instruction_count; i++) {
        first_bytes[i] = *instructions[i];
        *instructions[i] = BREAKPOINT;
    }
}

#endif

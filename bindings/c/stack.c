/*
 * How deep the calls go: tools/bindings links this before the archives by the linker's --wrap. A call is entered with its caller's stack as it is,
 * whatever it is lent: the stack below is painted before it, and afterwards the lowest place is sought that is not as painted. Counted are the
 * return address and all below it; numbers that the caller pushed stand above. At the end each call's largest count is written to
 * standard error, a line each.
 */
#include <stddef.h>
#include <stdint.h>

int dprintf(int file, const char *form, ...);

/*
 * eight bytes each: the paint, how many of them are painted below the stack's end (a plan goes deep, and a call that goes past the paint counts as all
 * of it), and what has to outlast a call (one at a time: the driver has no threads)
 */
__asm__(".set PAINT, 0x5A5A5A5A5A5A5A5A\n"
        ".set SOME, 1024\n"
        ".set MANY, 16384\n"
        ".lcomm stack_kept, 64\n"
        ".macro through name, place, painted\n"
        "    .globl __wrap_\\name\n"
        "    .type __wrap_\\name, @function\n"
        "__wrap_\\name:\n"
        "    popq stack_kept+48(%rip)\n"
        "    movq %rdi, stack_kept(%rip)\n"
        "    movq %rcx, stack_kept+8(%rip)\n"
        "    leaq -8*\\painted(%rsp), %rdi\n"
        "    movl $\\painted, %ecx\n"
        "    movabsq $PAINT, %rax\n"
        "    rep stosq\n"
        "    movq stack_kept(%rip), %rdi\n"
        "    movq stack_kept+8(%rip), %rcx\n"
        "    call __real_\\name@PLT\n"
        "    movq %rax, stack_kept(%rip)\n"
        "    leaq -8*\\painted(%rsp), %rdi\n"
        "    movl $\\painted, %ecx\n"
        "    movabsq $PAINT, %rax\n"
        "    repe scasq\n"
        "    leaq 8(%rsp), %rax\n"
        "    subq %rdi, %rax\n"
        "    cmpq stack_depths+8*\\place(%rip), %rax\n"
        "    jbe 1f\n"
        "    movq %rax, stack_depths+8*\\place(%rip)\n"
        "1:  movq stack_kept(%rip), %rax\n"
        "    pushq stack_kept+48(%rip)\n"
        "    ret\n"
        ".endm\n"
        ".text\n"
        "through tt_join_line, 0, SOME\n"
        "through tt_replace_letter, 1, SOME\n"
        "through tt_reorder_modifier_combining_marks, 2, SOME\n"
        "through tt_record_stch, 3, SOME\n"
        "through tt_stretch, 4, SOME\n"
        "through tt_serialize_single_lookup, 5, SOME\n"
        "through tt_serialize_ligature_lookup, 6, SOME\n"
        "through tt_read_lookup, 7, SOME\n"
        "through tt_fallback_plan, 8, MANY\n"
        "through tt_do_fallback, 9, SOME\n"
        "through tt_joining_type, 10, SOME\n"
        "through tt_join_codes, 11, SOME\n"
        "through tt_replace_code, 12, SOME\n");

enum { CALLS = 13 };

static const char *const names[CALLS] = {
    "join_line",          "replace_letter",
    "reorder_modifier_combining_marks", "record_stch",
    "stretch",            "serialize_single_lookup",
    "serialize_ligature_lookup", "read_lookup",
    "fallback_plan",      "do_fallback",
    "joining_type",       "join_codes",
    "replace_code",
};

uint64_t stack_depths[CALLS];

__attribute__((destructor)) static void tell(void) {
    for (size_t i = 0; i < CALLS; i++) {
        if (stack_depths[i] > 0) dprintf(2, "stack %s %lu\n", names[i], (unsigned long)stack_depths[i]);
    }
}

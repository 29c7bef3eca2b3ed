/* Runs a channel on the harts of a RISC-V board: hart 0 receives, hart i + 1 is sender i. The programs run
 * in user mode as rings.S has them. Machine mode answers their environment calls, and knows no ring.
 * on-harts writes channel.h: the ring's programs and size, the lists, and how the runs are to be made. */

#include <stdint.h>
#include "channel.h"

#define PAGE 4096
#define MEMORY_BYTES 16384
/* the board, qemu's `virt` */
#define UART_DATA (*(volatile uint8_t *)0x10000000)
#define UART_STATUS (*(volatile uint8_t *)0x10000005)
#define UART_READY 0x20
#define FINISHER (*(volatile uint32_t *)0x100000)
#define TIME ((volatile uint32_t *)0x0200BFF8) /* low and high half */
#define ALARM(hart) ((volatile uint32_t *)0x02004000 + 2 * (hart))
#define TICKS_A_SECOND 10000000u
/* environment calls */
#define NEXT 1
#define TOOK 2
#define CLOSED 3
#define EXIT 93
/* causes of a trap */
#define CALL_FROM_USER 8u
#define TIMER 0x80000007u
/* bits of a page table's entry. Accessed and dirty are set from the start: else it is up to the hardware
 * whether the first access traps. */
#define VALID 1u
#define READ 2u
#define WRITE 4u
#define EXECUTE 8u
#define FOR_USERS (0x10u | 0x40u | 0x80u)
/* what the firmware ends with */
#define CLEAN 0
#define UNCLEAN 1
#define CUT 2
#define STOPPED 3

#define csr_write(csr, value) asm volatile("csrw " #csr ", %0" ::"r"(value) : "memory")
#define csr_read(csr) ({ uint32_t value_; asm volatile("csrr %0, " #csr : "=r"(value_)); value_; })

/* what a trap keeps */
struct frame { uint32_t x1, x5, x6, x7, x10, x11, x12, x13, x14, x15, x16, x17, x28, x29, x30, x31; };
struct report { uint32_t call, sender, word; };

void enter(uint32_t pc, const uint32_t registers[32]) __attribute__((noreturn));
extern const uint32_t SENDER_PROGRAM[], RECEIVER_PROGRAM[];

static uint32_t memory[MEMORY_BYTES / 4] __attribute__((aligned(PAGE)));
static uint32_t root[1024] __attribute__((aligned(PAGE))), pages[1024] __attribute__((aligned(PAGE)));
static uint32_t opening[HARTS][32]; /* registers that nothing sets are 0 */
static uint32_t next_word[HARTS], arrived, began;
/* of this run, and of all */
static struct report reports[ALL_WORDS + SENDERS];
static uint32_t reported, taken[SENDERS], is_closed[SENDERS], faults;
static uint32_t runs, words_taken, senders_closed, unclean;

static void put(char c) {
    while (!(UART_STATUS & UART_READY));
    UART_DATA = c;
}

static void print(const char *text, uint32_t number) {
    char digits[11], *at = digits + 10;
    while (*text) put(*text++);
    for (*at = 0; number || !*at; number /= 10) *--at = '0' + number % 10;
    while (*at) put(*at++);
}

static void print_reports(void) {
    for (uint32_t k = 0; k < reported; k++) {
        print(reports[k].call == TOOK ? "took " : "closed ", reports[k].sender);
        if (reports[k].call == TOOK) print(" ", reports[k].word);
        put('\n');
    }
}

static void power_off(uint32_t status) {
    print("# runs ", runs);
    print(" words ", words_taken);
    print(" closed ", senders_closed);
    print(" unclean ", unclean);
    put('\n');
    FINISHER = status ? status << 16 | 0x3333 : 0x5555;
    for (;;);
}

/* Waits until every hart has come here. What any of them stored before is then seen by all, since the
 * addition orders a hart's stores before it. */
static void meet(void) {
    uint32_t mine = __atomic_add_fetch(&arrived, 1, __ATOMIC_SEQ_CST);
    uint32_t all = (mine + HARTS - 1) / HARTS * HARTS;
    while (__atomic_load_n(&arrived, __ATOMIC_SEQ_CST) < all);
}

/* Interrupts this hart again in a millisecond. */
static void set_alarm(uint32_t hart) {
    uint32_t high = TIME[1], low = TIME[0], then;
    if (TIME[1] != high) high++, low = 0;
    then = low + TICKS_A_SECOND / 1000;
    ALARM(hart)[1] = ~0u; /* no alarm between the halves */
    ALARM(hart)[0] = then;
    ALARM(hart)[1] = high + (then < low);
}

/* Where a program begins for user mode: its page is mapped at 64 KiB. */
static uint32_t address_of(const uint32_t *program) {
    return PAGED ? 16 * PAGE + (uint32_t)program % PAGE : (uint32_t)program;
}

/* Begins a run with the opening of docs/channels.md. Blocks begin STRIDE bytes apart. */
static void open(uint32_t hart) {
    uint32_t *x = opening[hart], base = PAGED ? 0 : (uint32_t)memory;
    x[9] = 4 * SLOTS;
    if (hart == 0) {
        x[18] = STRIDE;
        x[19] = base + SENDERS * STRIDE;
        x[20] = SENDERS;
        x[21] = base;
        for (uint32_t k = 0; k < MEMORY_BYTES / 4; k++) memory[k] = 0;
        for (uint32_t k = 0; k < SENDERS; k++) taken[k] = is_closed[k] = 0;
        reported = faults = 0;
    } else {
        x[8] = base + (hart - 1) * STRIDE;
        next_word[hart] = list_at[hart - 1];
    }
    meet();
    if (hart == 0) began = TIME[0];
    set_alarm(hart);
    enter(address_of(hart ? SENDER_PROGRAM : RECEIVER_PROGRAM), x);
}

/* Where C code begins. Hart 0 makes the page table: memory at address 0, and at 64 KiB the programs, which
 * user mode can execute, but neither read nor write. */
void begin(uint32_t hart) {
    if (hart == 0 && PAGED) {
        for (uint32_t k = 0; k < MEMORY_BYTES / PAGE; k++)
            pages[k] = ((uint32_t)memory + k * PAGE) >> 2 | FOR_USERS | READ | WRITE | VALID;
        pages[16] = (uint32_t)SENDER_PROGRAM / PAGE * PAGE >> 2 | FOR_USERS | EXECUTE | VALID;
        root[0] = (uint32_t)pages >> 2 | VALID;
    }
    meet();
    csr_write(pmpaddr0, ~0u); /* without a rule user mode may touch nothing */
    csr_write(pmpcfg0, 0x1F);
    if (PAGED) csr_write(satp, 0x80000000 | (uint32_t)root >> 12);
    asm volatile("sfence.vma" ::: "memory");
    csr_write(mstatus, 0); /* mret goes to user mode */
    csr_write(mie, 0x80);
    open(hart);
}

/* Whether this report is wrong after those before it. */
static uint32_t is_wrong(uint32_t call, uint32_t sender, uint32_t word) {
    if (sender >= SENDERS || is_closed[sender]) return 1;
    uint32_t at = list_at[sender] + taken[sender], end = list_at[sender + 1];
    return call == CLOSED ? at != end : at >= end || all_words[at] != word;
}

static void keep_report(uint32_t call, uint32_t sender, uint32_t word) {
    if (reported == ALL_WORDS + SENDERS) { /* more than any clean run has */
        print_reports();
        unclean++;
        power_off(UNCLEAN);
    }
    faults += is_wrong(call, sender, word);
    reports[reported++] = (struct report){call, sender, word};
    if (call == TOOK) words_taken++;
    else senders_closed++;
    if (sender < SENDERS) {
        if (call == TOOK) taken[sender]++;
        else is_closed[sender] = 1;
    }
}

/* This hart's program has ended. When all have, the next run begins, or the board is switched off. */
static void end(uint32_t hart) {
    meet();
    if (hart == 0) {
        runs++;
        unclean += faults != 0;
        if (RUNS == 1 || (faults && unclean == 1)) print_reports();
        if (runs == RUNS) power_off(unclean ? UNCLEAN : CLEAN);
    }
    meet();
    open(hart);
}

/* Each hart is interrupted every millisecond, and goes on. Hart 0 ends a run that takes too long. */
static void on_alarm(uint32_t hart) {
    if (hart == 0 && TIME[0] - began > SECONDS * TICKS_A_SECOND) {
        print_reports();
        print("# cut after seconds ", SECONDS);
        put('\n');
        unclean += faults != 0;
        power_off(CUT);
    }
    set_alarm(hart);
}

void on_trap(struct frame *x) {
    uint32_t cause = csr_read(mcause), pc = csr_read(mepc), hart = csr_read(mhartid);
    if (cause == TIMER) return on_alarm(hart);
    if (cause == CALL_FROM_USER) {
        csr_write(mepc, pc + 4);
        switch (x->x17) {
        case NEXT:
            x->x11 = hart && next_word[hart] < list_at[hart];
            if (x->x11) x->x10 = all_words[next_word[hart]++];
            return;
        case TOOK:
        case CLOSED: return keep_report(x->x17, x->x10, x->x11);
        case EXIT: end(hart);
        }
    }
    print("# hart ", hart);
    print(" stopped by cause ", cause);
    print(" pc ", pc);
    print(" address ", csr_read(mtval));
    put('\n');
    power_off(STOPPED);
}

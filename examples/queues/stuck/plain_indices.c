/* The indices are plain variables: compilers keep them in registers, so that nothing arrives.
   queue: head=q.sent,tail=q.taken,slots=q.word,size=8
   answer: kept in every run, but not shown to go on
   named: not shown that hart 1 takes, or */

#define SLOTS 8

struct {
  unsigned sent, taken;
  int word[SLOTS];
} q;
volatile int got;

void P0(void) {
  for (int i = 0;; i++) {
    while (q.sent - q.taken == SLOTS) {}
    q.word[q.sent % SLOTS] = i;
    q.sent++;
  }
}

void P1(void) {
  for (;;) {
    while (q.taken == q.sent) {}
    got = q.word[q.taken % SLOTS];
    q.taken++;
  }
}

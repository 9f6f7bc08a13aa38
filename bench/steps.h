/* One call, stepped through instruction by instruction. */
#ifndef STEPS_H
#define STEPS_H
struct steps { long instructions, stack; };
struct steps step_through(void (*entry)(void), void (*run)(void));
#endif

/* Interrupts the waiting calls of a program that this is preloaded into: a signal comes each millisecond, whose handler
 * has no call begun again. */
#include <signal.h>
#include <stddef.h>
#include <sys/time.h>

static void ignore(int number) { (void)number; }

__attribute__((constructor)) static void begin(void) {
    const struct sigaction action = {.sa_handler = ignore};
    const struct itimerval each = {.it_interval = {.tv_usec = 1000}, .it_value = {.tv_usec = 1000}};
    sigaction(SIGALRM, &action, NULL);
    setitimer(ITIMER_REAL, &each, NULL);
}

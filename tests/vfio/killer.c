/* Runs a program again and again, and kills it soon after each line `started` that it prints, which may have a number.
 *
 *     killer TIMES MILLISECONDS PROGRAM WORD..
 *
 * From one kill to the next it waits at least so many milliseconds. It prints how many it killed, how many ended before
 * that, and the least of the numbers.
 */
#define _GNU_SOURCE
#include <signal.h>
#include <stdio.h>
#include <stdlib.h>
#include <string.h>
#include <sys/wait.h>
#include <unistd.h>

int main(int argc, char **words) {
    char line[128];
    int killed = 0, ended = 0, least = -1;
    if (argc < 4)
        return 2;
    while (killed < atoi(words[1]) && ended < 20) {
        int ends[2];
        if (pipe(ends))
            return 1;
        pid_t child = fork();
        if (child == 0) {
            dup2(ends[1], 1);
            close(ends[0]);
            close(ends[1]);
            execvp(words[3], words + 3);
            _exit(127);
        }
        close(ends[1]);
        FILE *said = fdopen(ends[0], "r");
        if (!said || child < 0)
            return 1;
        int started = 0, number = 0;
        while (!started && fgets(line, sizeof line, said))
            started = strncmp(line, "started", strlen("started")) == 0;
        if (started) {
            sscanf(line, "started %d", &number);
            usleep((useconds_t)(killed * 37 % 150) * 1000);
            killed += kill(child, SIGKILL) == 0;
            least = least < 0 || number < least ? number : least;
        } else {
            ended++;
        }
        waitpid(child, NULL, 0);
        fclose(said);
        usleep((useconds_t)atoi(words[2]) * 1000);
    }
    printf("killed %d ended %d least %d\n", killed, ended, least < 0 ? 0 : least);
    return ended > 0;
}

/* Asks btf which equations and unknowns make a system structurally singular.

       cc -o /tmp/parts examples/parts.c && /tmp/parts crates/btf/out/btf examples/three_parts.mtx

   A report is lines of a word and numbers, so sscanf and strtok read it. */
#include <stdio.h>
#include <stdlib.h>
#include <string.h>

int main(int count, char **words) {
    char command[4096];
    if (count != 3 || snprintf(command, sizeof command, "'%s' analyse < '%s'", words[1], words[2]) >= (int)sizeof command)
        return 2;
    FILE *report = popen(command, "r");
    if (report == NULL)
        return 1;
    const char *part = "";
    char *line = NULL;
    size_t room = 0;
    while (getline(&line, &room, report) > 0) {
        long first, second;
        if (sscanf(line, "horizontal %ld %ld", &first, &second) == 2) {
            printf("unknowns without an equation of their own: %ld\n", second - first);
            part = "too few equations";
        } else if (sscanf(line, "vertical %ld %ld", &first, &second) == 2) {
            printf("equations without an unknown of their own: %ld\n", first - second);
            part = "too many equations";
        } else if (strncmp(line, "square ", 7) == 0 || strstr(line, "_components ") != NULL) {
            part = "";
        } else if (*part != 0 && (strncmp(line, "rows", 4) == 0 || strncmp(line, "columns", 7) == 0)) {
            printf("%s: %s", part, line);
        }
    }
    free(line);
    int status = pclose(report);
    return status == 0 ? 0 : 1;
}

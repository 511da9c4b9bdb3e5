/* git-remote-floor REMOTE PATH: the least that a remote helper of git may do (gitremote-helpers). It has one git upload-pack list the
   refs and send a pack of all that git asks for, and git index-pack take that: no settings, no checks, no lock, no errors. Its haves
   are what packed refs hold, all in the only request, so that it has no rounds, and asks git for nothing. */
#include <stdio.h>
#include <stdlib.h>
#include <string.h>
#include <sys/wait.h>
#include <unistd.h>

static char text[1 << 16], wants[1 << 22], haves[1 << 22];

static void refuse(void) { exit(128); }

/* Starts git with these words over two pipes. */
static pid_t start(char **words, FILE **to, FILE **from) {
    int in[2], out[2];
    if (pipe(in) || pipe(out)) refuse();
    pid_t begun = vfork();
    if (begun == 0) {
        dup2(in[0], 0);
        dup2(out[1], 1);
        for (int end = 0; end < 2; end++) close(in[end]), close(out[end]);
        execvp("git", words);
        _exit(127);
    }
    close(in[0]);
    close(out[1]);
    *to = fdopen(in[1], "w");
    *from = fdopen(out[0], "r");
    return begun;
}

/* Reads a packet line: its length, 0 for a flush packet, 1 for a delimiter. */
static int packet(FILE *from) {
    char digits[5] = "";
    if (fread(digits, 1, 4, from) != 4) refuse();
    int size = (int)strtol(digits, NULL, 16);
    if (size < 4) return size;
    if (fread(text, 1, (size_t)size - 4, from) != (size_t)size - 4) refuse();
    text[size - 4] = 0;
    return size;
}

static void list(FILE *to, FILE *from) {
    while (packet(from)) {}
    fputs("0014command=ls-refs\n00010009peel\n000csymrefs\n0000", to);
    fflush(to);
    while (packet(from)) {
        char *target = strstr(text, " symref-target:"), *end = strpbrk(text + 41, " \n");
        if (target) printf("@%.*s ", (int)strcspn(target + 15, " \n"), target + 15);
        else printf("%.40s ", text);
        printf("%.*s\n", (int)(end - text - 41), text + 41);
    }
    putchar('\n');
}

/* Reads what packed refs hold. */
static void offer(void) {
    char path[4096], line[4096];
    size_t length = 0;
    snprintf(path, sizeof path, "%s/packed-refs", getenv("GIT_DIR") ? getenv("GIT_DIR") : ".git");
    FILE *refs = fopen(path, "r");
    while (refs && length + 64 < sizeof haves && fgets(line, sizeof line, refs))
        if (line[0] != '#' && line[0] != '^') length += (size_t)sprintf(haves + length, "0032have %.40s\n", line);
    if (refs) fclose(refs);
}

static void fetch(FILE *to, FILE *from) {
    char *words[] = {"git", "index-pack", "--stdin", "--fix-thin", NULL};
    FILE *pack, *told;
    offer();
    fprintf(to, "0012command=fetch\n0001000ethin-pack\n000eofs-delta\n%s%s0009done\n0000", wants, haves);
    fflush(to);
    pid_t begun = start(words, &pack, &told);
    packet(from);
    for (int size; (size = packet(from));)
        if (text[0] == 1) fwrite(text + 1, 1, (size_t)size - 5, pack);
    fclose(pack);
    waitpid(begun, NULL, 0);
    fclose(told);
    putchar('\n');
    wants[0] = 0;
}

int main(int count, char **words) {
    char line[4096], *server[] = {"git", "upload-pack", words[2], NULL};
    FILE *to = NULL, *from = NULL;
    size_t length = 0;
    if (count < 3) refuse();
    pid_t begun = 0;
    while (fgets(line, sizeof line, stdin)) {
        if (strcmp(line, "capabilities\n") == 0) printf("fetch\noption\n\n");
        else if (strncmp(line, "option ", 7) == 0) printf("ok\n");
        else if (strcmp(line, "list\n") == 0) {
            setenv("GIT_PROTOCOL", "version=2", 1);
            char *kept = getenv("GIT_DIR") ? strdup(getenv("GIT_DIR")) : NULL;
            unsetenv("GIT_DIR");
            begun = start(server, &to, &from);
            if (kept) setenv("GIT_DIR", kept, 1);
            list(to, from);
        } else if (strncmp(line, "fetch ", 6) == 0 && length + 64 < sizeof wants)
            length += (size_t)sprintf(wants + length, "0032want %.40s\n", line + 6);
        else if (length) fetch(to, from), length = 0;
        else break;
        fflush(stdout);
    }
    if (begun) fputs("0000", to), fclose(to), waitpid(begun, NULL, 0);
    return 0;
}

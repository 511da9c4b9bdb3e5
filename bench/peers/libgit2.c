/* libgit2 URL: the refs of a server by libgit2, a line with id and name each. */
#include <git2.h>
#include <stdio.h>

int main(int count, char **words) {
    git_remote *remote = NULL;
    const git_remote_head **heads = NULL;
    size_t size = 0;
    char id[GIT_OID_HEXSZ + 1];
    if (count != 2) return 2;
    git_libgit2_init();
    if (git_remote_create_detached(&remote, words[1]) < 0 || git_remote_connect(remote, GIT_DIRECTION_FETCH, NULL, NULL, NULL) < 0 ||
        git_remote_ls(&heads, &size, remote) < 0) {
        fprintf(stderr, "libgit2: %s\n", git_error_last() ? git_error_last()->message : "refused");
        return 1;
    }
    for (size_t at = 0; at < size; at++) printf("%s\t%s\n", git_oid_tostr(id, sizeof id, &heads[at]->oid), heads[at]->name);
    git_remote_disconnect(remote);
    git_remote_free(remote);
    git_libgit2_shutdown();
    return fflush(stdout) ? 4 : 0;
}

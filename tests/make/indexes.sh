# Read by the scripts that make index files with git (list_indexes, write_back): OUT/data, OUT/args and OUT/stdout begin anew, OUT being the script's first word, and each
# index gets a repository of its own. Nothing depends on the machine, its user or a clock, so that the same git makes the same bytes again.
umask 022
mkdir -p "$1/data"
out=$(cd "$1" && pwd)
: > "$out/args"
: > "$out/stdout"
work=$(mktemp -d)
trap 'rm -rf "$work"' EXIT

unset $(env | sed -n 's/^\(GIT_[A-Z_]*\)=.*/\1/p')
export GIT_CONFIG_GLOBAL=/dev/null GIT_CONFIG_NOSYSTEM=1 HOME="$work" LC_ALL=C TZ=UTC
export GIT_AUTHOR_NAME=reporter GIT_AUTHOR_EMAIL=reporter@example.org GIT_AUTHOR_DATE='1700000000 +0000'
export GIT_COMMITTER_NAME=reporter GIT_COMMITTER_EMAIL=reporter@example.org GIT_COMMITTER_DATE='1700000000 +0000'

# A new repository, which sees no other's configuration and holds three words.
repository() {
    cd "$work"
    rm -rf repo
    git init -q repo
    cd repo
    git config index.threads 1
    pear=$(printf 'pear\n' | git hash-object -w --stdin)
    pair=$(printf 'pair\n' | git hash-object -w --stdin)
    pare=$(printf 'pare\n' | git hash-object -w --stdin)
}

# One entry to a line of the input: mode, id, stage, tab, path. Paths that hold a newline are given with -z.
entries() { git update-index --add "$@" --index-info; }

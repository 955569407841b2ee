# Sourced by the scripts beside it.

# Freed memory stays with a program, since the system clears each page that it takes back and gives
# again.
export MALLOC_TRIM_THRESHOLD_=4000000000 MALLOC_MMAP_MAX_=0

# Prints the lines of bench/operations whose names have one of these words, or all if there are none.
wanted() {
    awk -v words="$*" '
        BEGIN { count = split(words, word, " ") }
        /^#/ { next }
        { is_wanted = count == 0 }
        { for (i in word) if (index($1, word[i])) is_wanted = 1 }
        is_wanted' "$(dirname "${BASH_SOURCE[0]}")/operations"
}

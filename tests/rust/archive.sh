# Read by run, long, bench and fault; `here` is the folder of this file.

# Sees to it that the library's archive is there and not older than its sources.
ribalonga_archive() {
    if [ -n "${RIBALONGA_LIB:-}" ]; then
        return 0
    fi
    "$here/../../tools/archive"
}

/* pair.h: a snapshot's two files on disk, a pair that is never half.

   PAIR is a directory. In it `current` is a symbolic link to a directory `pair.N` (N decimal, 1 and up) beside it,
   which holds the files `records` and `pages`. A writer makes pair.(N+1), brings all of it to disk, and then renames
   a new link over `current`: that one step replaces the pair. Hosts in other languages that keep to this read each
   other's pairs.

   Promised, where PAIR lies on a local file system with POSIX rename and flock (ext4, xfs, btrfs, tmpfs ..):
   - A writer that is killed at any moment leaves in `current` the old pair or the new one, whole; before the first
     pair, none or the new one. What else it leaves is no part of a pair and is removed by the next writer.
   - A reader sees one pair, whole, also beside writers; writers come one after another. Both wait, however long, for
     a lock on PAIR, which the system lets go of when its holder ends, however it ends.
   - After a power cut the same holds, and a write that was answered PAIR_DONE is there, as far as the disk keeps what
     fsync was told: files and directories are on disk before the rename, and the rename before the answer.

   Not promised:
   - on network file systems, where rename or flock may be less than that;
   - beside programs that change PAIR without its lock;
   - that the bytes are a snapshot, of this machine or any: latchpebble_resume looks at their form;
   - that the sources are those of the snapshot: a pair does not hold them, and whoever resumes lends the same;
   - against a disk that loses or alters what it has acknowledged: there is no checksum. */

#ifndef PAIR_H
#define PAIR_H

#include "latchpebble.h"

/* The most bytes of the two files. */
#define PAIR_MOST_RECORDS (LATCHPEBBLE_MOST_RECORDS * LATCHPEBBLE_RECORD_BYTES)
#define PAIR_MOST_PAGES LATCHPEBBLE_MAX_MEMORY

/* The bytes of a text, its final zero too. */
#define PAIR_TEXT 512

/* The two files: lengths, and so many bytes at the front of each array. */
struct pair_files {
    size_t records_len;
    size_t pages_len;
    uint8_t records[PAIR_MOST_RECORDS];
    uint8_t pages[PAIR_MOST_PAGES];
};

/* What is answered. But for PAIR_DONE, `text` says what failed. No descriptor is left open. */
enum pair_answer {
    PAIR_DONE,
    /* Nothing was read; or `current` is as it was, and the next write removes what was begun beside it. */
    PAIR_FAILED,
    /* The new pair is current, but the steps after the rename failed: it may not outlast a power cut, or an older
       pair lies beside it. The next write removes that. */
    PAIR_UNSURE
};

/* Replaces the pair of the directory `pair`, which is made where it is missing (its parent is not). A `current` that
   is no link to a pair.N is refused, and so is a pair that is to be removed and holds more than its two files. */
enum pair_answer pair_write(const char *pair, const struct pair_files *files, char text[PAIR_TEXT]);

/* Reads the current pair of the directory `pair`. Files longer than `struct pair_files` holds are refused. Where the
   answer is PAIR_FAILED, `files` holds nothing of use. */
enum pair_answer pair_read(const char *pair, struct pair_files *files, char text[PAIR_TEXT]);

#endif

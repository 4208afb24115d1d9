#!/usr/bin/env bash
# A day of a device in a directory. It is made and formatted, two users write to it, a write fails, the power goes, and
# what was synced is there on the next day.
# shellcheck source=examples/folder.bash
source "$(dirname "$0")/folder.bash"

# 64 zones of one MiB, of which eight are conventional.
mkdir store
zonefs add store capacity_mb=64 zone_size_mb=1 conv_zones=8

# The seven conventional zones behind zone 0 are one file. User 1000 owns the files, and its group may write them too.
zonefs mkfs store -L data -U 6ba7b810-9dad-11d1-80b4-00c04fd430c8 -o aggr_cnv,uid=1000,gid=100,perm=660

zonefs run store <<'END'
mount errors=repair
list /
list cnv
stat cnv/0
stat seq

# The owner opens a log, a stranger may not, and one of the group opens the file of conventional zones.
open 0 seq/0 rw uid=1000 gid=100
open 1 seq/1 rw uid=2000 gid=2000
open 1 cnv/0 rw uid=2000 gid=100

# Two blocks across the border of two zones. The byte before them was never written.
write 1 1044480 41*8192
read 1 1044479 3

# 16 blocks, and all that was written becomes durable.
write 0 0 42*65536
sync 0

# Of the next four blocks two are written. With the policy repair the log goes on behind them.
fault 8 write 2
write 0 65536 43*16384
size 0
write 0 73728 44*4096

# The power goes. Of the three blocks that were not durable one is left, and it holds zeros.
power-loss fill=00 8:17
power-on
mount errors=repair
open 0 seq/0 r uid=1000 gid=100
size 0
read 0 61440 16384
umount
close 0
umount
END

# The next day. The device is mounted first, and the log grows from where it ended.
zonefs run store -o errors=repair <<'END'
open 0 seq/0 rw uid=1000 gid=100
open 1 cnv/0 r uid=2000 gid=100
read 0 61440 16384
read 1 1044479 8194
write 0 69632 45*4096
sync 0
stat seq/0
attr
close 0
close 1
umount
END

# Three blocks of its zone's file, from the last that was synced on.
cd store && od -A d -t x1 -j 61440 seq-000008

#!/usr/bin/env bash
# Commands on directories that are refused, each for another cause, and what their exit statuses are.
# shellcheck source=examples/folder.bash
source "$(dirname "$0")/folder.bash"

# Nothing is there, neither a device nor a directory to make one in.
zonefs run disk </dev/null
zonefs add disk capacity_blocks=20 zone_blocks=4 conv_zones=3

# A directory that is no device.
mkdir disk
zonefs run disk </dev/null
zonefs mkfs disk

# Words that ask for no device: an unknown key, one that stands twice, a size in both units, none, and a limit.
zonefs add disk capacity_blocks=20 zone_blocks=4 zones=5
zonefs add disk capacity_blocks=20 zone_blocks=4 zone_blocks=4
zonefs add disk capacity_blocks=20 capacity_mb=1 zone_blocks=4
zonefs add disk capacity_blocks=20
zonefs add disk capacity_blocks=20 zone_blocks=4 conv_zones=6

# Words that aren't of the form of a command.
zonefs run disk -o
zonefs run disk -f </dev/null
zonefs mkfs disk -L -f
zonefs mkfs disk -o perm=888
zonefs mkfs disk -f -f
ls -A disk

# A device is made once, and formatted once unless that is forced.
zonefs add disk capacity_blocks=20 zone_blocks=4 conv_zones=3
zonefs add disk capacity_blocks=20 zone_blocks=4 conv_zones=3
zonefs run disk -o errors=zone-ro </dev/null
zonefs mkfs -L first disk
zonefs mkfs -L second disk
zonefs mkfs disk -f

# Options that don't fit are refused as those of a line are, and the script follows.
zonefs run disk -o errors=panic <<'END'
attr
mount errors=zone-ro
END

# A line that has no form ends the run, and what was written before it stays.
zonefs run disk -o errors=zone-ro <<'END'
open 0 seq/0 w
write 0 0 61*4096
sizes 0
size 0
END
zonefs run disk -o errors=zone-ro <<'END'
stat seq/0
END

# Each of these directories is damaged in one way, and is as it was behind that.
truncate -s 4097 disk/seq-000003
zonefs run disk </dev/null
zonefs mkfs disk -f
truncate -s 4096 disk/seq-000003

mv disk/seq-000004 zone
zonefs run disk </dev/null
mv zone disk/seq-000004

touch disk/notes
zonefs run disk </dev/null
rm disk/notes

sed -i 's/^conv 3$/conv three/' disk/device
zonefs run disk </dev/null
sed -i 's/^conv three$/conv 3/' disk/device

mv disk/device text
zonefs run disk </dev/null
mv text disk/device

# A device that is as it was. Its zone 4 is offline by a marker.
touch disk/seq-000004.off
zonefs run disk <<'END'
zones
END

# So is zone 0, and then nothing can be formatted.
touch disk/cnv-000000.ro
zonefs mkfs disk -f

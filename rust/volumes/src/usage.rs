//! What `volumes help` and `volumes --version` print.

pub const VERSION: &str = concat!("volumes ", env!("CARGO_PKG_VERSION"), "\n");

pub const USAGE: &str = "\
volumes show IMAGE HEADERS
    shows where the volumes lie
volumes read IMAGE HEADERS VOLUME FIRST COUNT FILE [--plaintext]
    copies COUNT sectors, from sector FIRST on, into a new FILE
volumes write IMAGE HEADERS VOLUME FIRST FILE [--plaintext]
    copies FILE, whole sectors of 512 bytes, from sector FIRST on
volumes prepare IMAGE VOLUME FILE --magic MAGIC
    makes a new header for a volume on IMAGE, in a new FILE, deciphered;
    IMAGE is only asked for its size
volumes sample DIR
    makes a sample in DIR: disk.img, outer.header, hidden.header
    (an earlier sample there is made anew, other files are left alone)
volumes demo DIR
    makes the sample, shows it and works on it, refusals included
volumes help, volumes --help, volumes --version

IMAGE is an image file or a block device. Of a volume on a partition give
the partition, such as /dev/sdb1, and not the disk.

HEADERS are deciphered headers, main ones or backups, 512 bytes each:
    --outer FILE         the standard volume's
    --hidden FILE        the hidden volume's
One is enough for a volume alone. With both, writes to the outer volume
that would touch the hidden one are refused. With --outer alone nothing
protects a hidden volume. Headers whose salt is not on IMAGE are refused:
    --risk-wrong-disk    goes on all the same; what is written then may
                         destroy another disk's data

VOLUME is outer or hidden; its sectors have 512 bytes and count from 0.
Where the disk's own sectors have 1,024, 2,048 or 4,096 bytes, only whole
ones are copied: FIRST, COUNT and the sectors of FILE are multiples of 2, 4
or 8. show tells of which; what is refused is told with the whole sectors
around it.
FILE - is standard output or standard input. Standard input is copied to a
nameless file in $TMPDIR (or /tmp) first, since all of a write is judged
before its first byte is written.
Sectors are copied as they stand, enciphered, unless read or write is given
    --plaintext          read deciphers what it copies, write enciphers it,
                         with AES-256 in XTS and the first 64 of the
                         header's key bytes
This is right only for volumes that are enciphered with AES alone, which a
header does not tell: on any other a read gives noise, and a write leaves
noise in the volume. FILE is then in the clear, and so is standard input
while it waits in $TMPDIR. Whoever runs programs on the same machine at the
time may learn something of the keys by timing.
What reaches past the volume's end, or would touch a protected sector, is
refused with the sector in the way, its place in IMAGE, and how much of
what was asked for lies before it.

A header is prepared with a new random salt and new random keys, and an
outer volume with all the room that IMAGE has, where nothing else is said:
    --magic MAGIC        VERA or TRUE
    --host-size BYTES    a size in the place of IMAGE
    --data-start BYTES   the first byte of the data area in IMAGE, and its
    --data-size BYTES    size; a hidden volume needs both
    --sector-size BYTES  of the disk: 512, 1024, 2048 or 4096, else 512; the
                         sizes and the start are multiples of it
    --backup             the volume's backup; it has a salt of its own, and
                         the keys of the main header, so it needs --keys
    --salt FILE          64 bytes, instead of new ones
    --keys FILE          256 bytes, instead of new ones; those of a header
                         are its last 256 bytes
    --header-version N   for VERA 2 to 5, for TRUE 4 or 5; else 5
    --min-program-version N
                         else the one that headers of VeraCrypt or
                         TrueCrypt have, 267 or 1792
FILE has the keys in the clear, and only its owner can read it. It has to be
enciphered before it goes on a disk, which this program does not do.

Exit status:
    0  done
    1  refused; nothing was changed
    2  bad usage, or a file that cannot be used
    3  stopped part-way, by a signal or by an error while writing; the
       message says which sectors were written
";

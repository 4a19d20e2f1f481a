//! What --help prints.

pub const ALL: &str = "\
burst: the pictures of one trigger of a trail camera, sealed in one file

Commands:
  burst record --key FILE --number N --camera N --site-mark MARK --out FILE [--force]
      SHOTS...                seals pictures into a new burst file
  burst list FILE             shows burst number, counts and kept shots; needs no key
  burst check --key FILE FILE
                              tests every tag; shows burst number, site mark, counts
                              and camera number
  burst fetch --key FILE --place N --out PICTURE [--force] FILE
  burst fetch --key FILE --all DIRECTORY [--force] FILE
                              checks the file, then writes one picture or all of them
  burst explain FILE          draws the layout of the file; needs no key
  burst size [--measure] [LENGTH...]
                              sizes up a planned burst: bytes of its file, and how
                              often the permutation runs
  burst card --bytes N --shots S --picture P
                              counts the full bursts that a card holds, and the bytes
                              left
  burst COMMAND --help        says more of a command
  burst --version             shows the version

A shot number counts firings from 1. A place counts kept pictures from 0.

A dash in place of a file is standard input (key, burst, picture of --keep; one of
them) or standard output (--out). A file that is called - is ./-. A file that goes to
standard output is complete and checked before its first byte is written; what the
command has to say goes to standard error then.

Keys:
  A key is read from a file, never from the command line: 16 raw bytes, or 32 hex
  digits with or without a line end. To make one, for a camera or for a whole survey:
      (umask 077; head -c 16 /dev/urandom > survey.key)
  Whoever can read it opens every burst under it, and can make others in the name of
  every camera that has it. Keep it readable for yourself alone:
  `chmod 600 survey.key`.
  Cameras that share a key have different camera numbers. Under one key, a pair of
  camera number and burst number is recorded once only, whatever became of the first
  burst: a pair used twice gives away what the pictures of both bursts have in common.
  Files of edition 1 have no camera number: cameras that still write such files must
  not share a key with each other.

Output files:
  They are written whole or not at all, also where INT, TERM, HUP or another signal
  ends the command, and no file is replaced without --force. With --force the new file
  has owner, group and rights of the old one; where they cannot be kept, it is for its
  owner alone. Other new files follow the umask.
  Until they are complete, they have hidden names, .burst-NUMBER-NUMBER, and only you
  can read them. A signal that ends the command does so after they are placed or
  removed; KILL, the signals of a fault (ILL, TRAP, BUS, FPE, SEGV, SYS), 32 and 33 do
  not wait. These or a power cut may leave such a file or folder beside the output (for
  --all see `burst fetch --help`): it may hold pictures, so remove it. It does not stop
  the next run. If the command itself cannot remove it, it says so and names it.

Exit status:
  0   done
  1   refused: the key is not 16 bytes
  3   refused: a stamp or site mark is not 16 bytes
  7   refused: a tag differs; the file was changed, or the key is another
  9   refused: more than 60 shots
  10  refused: a picture does not have 1 to 1,048,576 bytes
  12  refused: a front rule is broken; this is no whole burst file
  13  refused: there is no picture at that place
  15  refused: the camera number is 0
  16  refused: a full burst does not have 1 to 60 shots
  64  the command line is wrong
  65  list: the file has more than 65,536 bytes
  73  an output file exists already, or the folder of --all is not empty (see --force);
      or an output is not a plain file, or a terminal; or that of --all is not a folder
  74  a file cannot be read or written
  A signal that ends the command shows as with every program (a shell says 130 for
  INT, 143 for TERM, 129 for HUP).
";

pub const RECORD: &str = "\
burst record --key FILE --number N --camera N --site-mark MARK --out FILE [--force]
    SHOTS...

Seals the pictures of one trigger into a new burst file.

  --key FILE         the camera's key: 16 raw bytes, or 32 hex digits; `burst --help`
                     says how to make one, and which cameras may share one
  --number N         the burst number, 0 to 18446744073709551615. A camera uses each
                     burst number once only: one used twice gives away what the
                     pictures of both bursts have in common
  --camera N         the camera number, 1 to 4294967295. Cameras that share a key have
                     different numbers; each may then count its bursts from 1
  --site-mark MARK   where the camera stands, 16 bytes
  --out FILE         the burst file to write; - is standard output
  --force            replaces the file if it exists, and keeps its rights

Shots, in the order of firing, at most 60:
  --keep STAMP PICTURE   a picture that is kept: its stamp of 16 bytes, and its file
                         of 1 to 1,048,576 bytes; - is standard input
  --drop                 a shot whose picture is not kept

MARK and STAMP are hex: and 32 hex digits, or else text of 1 to 16 bytes, which is
filled up with zero bytes. Empty text, as an unset variable of a shell gives it, is
refused with 3, and so is hex: with no digits.

Example:
  burst record --key survey.key --number 7 --camera 12 --site-mark 'north ridge' \\
      --out 7.burst --drop --keep '2024-05-01 06:12' fox.jpg --drop
";

pub const LIST: &str = "\
burst list FILE

Shows what stands in the front of a burst file of at most 65,536 bytes: burst number,
counts, and a line for each kept picture with shot number, record offset and picture
length. It needs no key, and so it tests no tag: `burst check` does. The camera number,
which a file of edition 1 does not have, is told on standard error, so that the list
has the same lines for every file.

It prints `front 12` (exit status 12) for a file that is no whole burst file, and
`front too long` (exit status 65) for a longer one.
";

pub const CHECK: &str = "\
burst check --key FILE FILE

Tests a whole burst file: its front, its closing seal and every record. If all is
right, it shows burst number, site mark, counts and camera number; a file of edition 1
has none. If not, it names the refusal, and the exit status is its number:

  1   the key is not 16 bytes
  12  a front rule is broken: this is no whole burst file
  7   a tag differs. That of the closing seal: the file was changed, or the key is
      another. That of the record of a shot: this record was changed; the key is right
";

pub const FETCH: &str = "\
burst fetch --key FILE --place N --out PICTURE [--force] FILE
burst fetch --key FILE --all DIRECTORY [--force] FILE

Checks a whole burst file as `burst check` does, and only then writes pictures.

  --place N --out PICTURE   the picture of place N to the file PICTURE; - is standard
                            output. Places count kept pictures from 0; they are not
                            shot numbers
  --all DIRECTORY           every kept picture to a file of its own in DIRECTORY, named
                            by its shot number: shot-002 is the second shot. DIRECTORY
                            is new or empty, so that pictures of two bursts are not
                            mixed; it is made if it is not there. If one picture
                            cannot be written, none is
  --force                   replaces files that exist, and writes into a DIRECTORY that
                            is not empty; its other files stay there

A new DIRECTORY is written under a hidden name beside it, .burst-NUMBER-NUMBER, and
renamed when all pictures are there. Into one that is there already they are moved from
a hidden folder of such a name in it, one right after the other, and files that they
replace are kept in the hidden folder until all are moved. INT, TERM, HUP and other
signals that end the command leave nothing of this.
A KILL or a power cut may leave the hidden folder, and then some of the pictures may
stand in a DIRECTORY that was there already; so may the other signals that do not wait
(see `burst --help`), and a failure to remove it, which is told with its name. The hidden
folder may hold pictures, so remove it; files named replaced-shot-NUMBER in it are those
that stood in DIRECTORY before. Beside a new DIRECTORY it stops no later fetch; in a
DIRECTORY it does, with 73 and its name.

It shows shot number, place, length and stamp of each picture. Exit status as of
`burst check`, and 13 if there is no picture at that place, 73 if DIRECTORY is not
empty or PICTURE exists, without --force, or if DIRECTORY is there and is not a folder.
";

pub const EXPLAIN: &str = "\
burst explain FILE

Draws the layout of a burst file, of edition 1 or 2: header, records, index and closing
seal, with their offsets and lengths. It needs no key, and so it tests no tag:
`burst check` does.

For a file that is no whole burst file (exit status 12) it shows what the bytes of the
header say, as far as they are there, and which front rules they break.
";

pub const SIZE: &str = "\
burst size [--measure] [LENGTH...]

Sizes up a planned burst before the trigger, without key and pictures: how many bytes
its file will have, and how often the permutation of ICEPOLE runs while it is recorded,
with twelve rounds (P12) and with six (P6), the closing seal included.

  LENGTH      the bytes of a shot's picture, 1 to 1048576; 0 or - for a shot whose picture
              is not kept. One for each shot in the order of firing, at most 60. None at
              all is a burst without shots
  --measure   also times sealing on this machine, which takes a moment, and shows what
              falls to one P6, with the work on its block, and an estimate of the time
              for all these calls here, a P12 counted as two P6. It is for
              this machine alone: a camera takes its own time. Without --measure no time
              is shown

More than 60 shots are refused with 9, and else a length above 1,048,576 with 10; the
exit status is that number.

Example:
  $ burst size 250000 - 180000
  taken 3 kept 2 dropped 1
  bytes 430160
  P12 calls 3
  P6 calls 3368
";

pub const CARD: &str = "\
burst card --bytes N --shots S --picture P

Counts the full bursts that a card holds, for the line on the carton. Every shot of
them is kept, every picture has the same length, and their files are of the edition that
`burst record` writes. It prints how many they are, the bytes of each file, and the bytes
left, which are fewer than one file has. It needs neither card nor key.

  --bytes N     the bytes of the card: decimal digits, alone or with a unit right after
                them
  --shots S     the shots of each burst, 1 to 60
  --picture P   the bytes of each picture, 1 to 1048576

Units of N, written as here:
  K M G T           powers of 1024: 32G is 34,359,738,368 bytes
  KiB MiB GiB TiB   the same
  KB MB GB TB       powers of 1000, as cards are sold: 32GB is 32,000,000,000 bytes
A card that is sold as 32 GB is 32GB here: 32G counts bursts that it does not hold.

What a file system takes is not in the count. It needs bytes for itself and for its
directories: give as N those that it leaves for files. Each file also takes the whole of
its last cluster, so that a card may hold fewer bursts than are counted.

Shots of 0 or above 60 are refused with 16, and else a length of 0 or above 1,048,576
with 10; the exit status is that number.

Example:
  $ burst card --bytes 32GB --shots 10 --picture 250000
  bursts 12797 bytes of each 2500512 bytes left 947936
";

//! What `--help` prints.

use crate::codes;
use crate::fields;

pub fn all() -> String {
    format!(
        "\
aukpocket: SEG-Y revision 0 reels and their canonical records

  aukpocket read REEL RECORD [--eagle] [--force]
                                               make the record of a reel
  aukpocket write RECORD CODE REEL [--nearest] [--force]
                                               write a record as a reel in code {},
                                               exactly, or by the nearest values of the code
  aukpocket look REEL TRACE BYTE               print one header field, by byte number or name
  aukpocket info FILE [--cards COUNT]          say what a file is and what it holds
  aukpocket cards RECORD                       print the cards, 40 lines of 80 columns
  aukpocket cards RECORD LISTING NEWRECORD (--utf8 | --latin1) [--force]
                                               put the cards of an edited listing in a new record
  aukpocket verify REEL [--eagle]              write and read again in each code, and compare
  aukpocket verify REEL RECORD [--eagle]       compare a record on disk with its reel
  aukpocket compare RECORD RECORD              say which of two records is the lesser, and why
  aukpocket sort RECORD..                      list records in their order, the least first
  aukpocket check [--eagle]                    print one line about the reel on standard input

  aukpocket COMMAND --help                     say more about one command
  aukpocket --version                          print the version

Exit status:
  0  fine
  1  wrong words on the command line, or trouble with a file or memory
  2  refused: a sentence on standard error has the number of the cause, what is wrong and where
  3  verify found a difference, or write --nearest, compare or sort did, which must never happen
  4  compare: the first record is the lesser
  5  compare: the first record is the greater

A record leaves out what carries no meaning in revision 0: bytes 3261 to 3600, and bytes 181 to 240 of
each trace header. read, info and verify count those that aren't 0 and warn of them on standard error;
the exit status stays as it is.

Of a reel in code 1 they also say how many words aren't normal: an old recorder, or a program in between,
wrote them otherwise than a modern one does. The values are the same.

With --eagle a reel is read as one of the Eagle recorder, which has a trailer behind each trace; without it,
as a plain reel. info says when a file could be an Eagle reel. look and write know plain reels alone.

Places are counted from 0, byte numbers, as in the standard, from 1. A whole reel and its record have
to fit in memory, but for the records that compare and sort are given, which are mapped.
",
        codes::numbers()
    )
}

const OUTPUT: &str = "
The output is written under a temporary name in the same folder (aukpocket-NUMBER-NUMBER.partial),
synced to the disk and then given its name. So a run that fails or is killed leaves nothing half-written
under that name, and a run that fails or is interrupted removes the temporary file too. A file that is
there already is kept.

  --force   replace a file that is there already; an input is never replaced
";

const LEFT_OUT: &str = "
The record leaves out bytes 3261 to 3600, and bytes 181 to 240 of each trace header, which carry no
meaning in revision 0, and of an Eagle reel the trailers and the check. Those that aren't 0 are counted,
but for FFFF at a trailer's end, and a warning on standard error says how many; another one has the check
where it isn't blank. The exit status stays as it is.
";

const EAGLE: &str = "
  --eagle   the reel is one of the Eagle recorder: each trace is followed by a trailer of 960 bytes that
            ends in FFFF (else the reel is refused by 20), columns 79 and 80 of card 40 hold a check and
            are taken as blanks, and the code is 1

A record doesn't tell which layout its reel had: an Eagle reel and a plain one that mean the same have the
same record. Nothing on a reel tells it either. Where a reel is refused, and the other layout takes it or at
least has whole traces on it, the sentence says so.
";

const BOTH: &str = "
Some bytes are taken as an Eagle reel and as a plain one, each with a meaning, and a count of traces, of its
own. The option, or its absence, decides; a warning on standard error says that there is another meaning.
";

const NOT_NORMAL: &str = "
Of a reel in code 1 it says how many words aren't normal, of how many, and the share. An IBM word is normal
where the first hexadecimal digit of its fraction isn't 0, unless its characteristic is 0; of the words of
zero 00000000 alone is. An old recorder, or a program in between, wrote words that a modern one doesn't. Their
values are the same and the record holds them exactly; a reel written from the record has the normal words.
";

const NO_VALUE: &str = "
A word of code 5 that is an infinity or a not-a-number has no value, and its reel is refused by 19.
";

const SCALARS: &str = "
Elevations and depths (trace fields 41 to 65, by the scalar in field 69) and coordinates (73 to 85, by
field 71) count by their scaled values: the record has for each trace the smallest power of ten from -4 to
4 at which all of a group's numbers are whole and fit 32 signed bits. Scalars other than 0, 1, -1, and plus
or minus 10, 100, 1000 and 10000 are refused by 18.
";

const FORM: &str = "
In a record the samples of a trace stand in fields of 6000, the last with the rest. Versions before 0.8.0 put
6001 to 8000 in a single field: that is the earlier form. Every command that takes a record takes it, each
trace by itself, and it gives the same reel.
";

const STATUS: &str = "
Exit status: 0 fine, 1 wrong words or trouble with a file or memory, 2 refused.
";

pub fn read() -> String {
    format!(
        "\
aukpocket read REEL RECORD [--eagle] [--force]

Reads the reel and writes its canonical record: the cards, every header number and the exact value of
every sample. Two reels have the same record exactly when they mean the same. A reel has 1 to 32767 samples
a trace and at most 100000 traces.
{EAGLE}{BOTH}{SCALARS}{NO_VALUE}{NOT_NORMAL}{LEFT_OUT}{OUTPUT}{STATUS}"
    )
}

pub fn write() -> String {
    format!(
        "\
aukpocket write RECORD CODE REEL [--nearest] [--force]

Writes the record as a plain reel in a format code:

{}
A code that can't hold some sample exactly is refused by 14: without --nearest nothing is rounded. Reading
the written reel gives the record again, byte for byte, one in the earlier form (below) in the new form.
Elevations and coordinates, and their scalars, are written as they stand in the record: the same values as on
the reel that it was made of, perhaps by other numbers. Nearly every record made before scalars counted is
refused by 13; see EARLIER RECORDS in aukpocket(1), or README.md.

  --nearest   write each sample as the nearest value of the code: of two equally near the one nearer zero;
              beyond the code's range its end, in code 5 the largest finite number

Nothing is refused by 14 then. It says how many samples changed, of how many, and the largest change, where it
is and how large the largest sample is. A warning says how many samples lie beyond the code's range and became
its end. Where a sample changed, the written reel gives another record, and nothing on it says so: keep the
record, which alone is exact. To tell what changed, the written reel is read again before it gets its name: the
record, the reel and a second record have to fit in memory.
{FORM}{OUTPUT}
Exit status: 0 fine, 1 wrong words or trouble with a file or memory, 2 refused, 3 what was read again isn't
what nearest writing counted, which must never happen.
",
        codes::list()
    )
}

pub fn look() -> String {
    format!(
        "\
aukpocket look REEL TRACE BYTE

Prints the signed number in one header field. TRACE is 0 for the binary header, 1 for the first trace.
BYTE is the byte number at which the field begins, or its name. A 0 in trace fields 115 and 117 is
taken as the reel's. All else is the bare number on the reel: no scalar (fields 69 and 71) is applied to
elevations and coordinates. Any fault of the reel is refused first. The reel is a plain one; of an Eagle
reel, look at a reel that was written from its record.
{STATUS}
Fields of the binary header (TRACE 0); samples is also called count:
{}
Fields of a trace header (TRACE 1 and on); samples is also called count:
{}",
        fields::list(&fields::BINARY),
        fields::list(&fields::TRACE)
    )
}

pub fn info() -> String {
    format!(
        "\
aukpocket info FILE [--cards COUNT]

Says by its content whether the file is a record or a reel: a record begins with tag 01 and its length,
010C80, and anything else is judged as a reel. Prints its length, the traces, the samples a trace, the
interval and the code; for a record, the codes that hold it; and the first cards as text (EBCDIC code
page 037, a dot for a control character). A refused file is shown as far as its headers go.

A reel that isn't taken as a plain one and is taken as an Eagle reel is shown as such: `read --eagle` takes
it. A reel that is taken as both is shown as a plain one, and a line that begins with `also` says what it is
as an Eagle reel: each layout gives the bytes its own meaning.

  --cards COUNT   how many cards, 0 to 40; 5 unless given
{FORM}
So of a record with 6001 to 8000 samples a trace the line `form` says which it has: new, earlier, or mixed and
how many traces of each. Where there are more samples it says how many fields a trace has.
{NOT_NORMAL}
Words are counted while the reel is read into memory, so its record has to fit there too; where it doesn't,
a warning says that they weren't counted. A record has values and no words: nothing is said of it.
{LEFT_OUT}{STATUS}"
    )
}

pub fn cards() -> String {
    format!(
        "\
aukpocket cards RECORD [--utf8 | --latin1]
aukpocket cards RECORD LISTING NEWRECORD (--utf8 | --latin1) [--force]

Prints the listing of a record's cards: 40 lines of 80 columns, by EBCDIC code page 037. It is UTF-8 where
the locale (LC_ALL, LC_CTYPE or LANG) says so. Elsewhere it is printable ASCII, with ? for each other
character and a warning that says how many.

With a listing that was edited: writes NEWRECORD, which has the cards of LISTING and all else as in RECORD,
its form too, and says which cards differ. Any listing goes with any record. A record with other cards is no
longer that of its reel, as verify says: keep both.

  --utf8     the listing is UTF-8, whatever the locale
  --latin1   the listing is ISO 8859-1, a byte a character, 3240 bytes; it is never printed on a terminal

A control character (00 to 1F, 7F to 9F) is in UTF-8 the character U+2400 plus its number: 0D is U+240D.
So every line keeps its 80 columns, and nothing is lost on the way back. A character 00 becomes a blank,
as on reading.

What editors do to a listing is mended, and standard error says so: a line of under 80 columns is filled
with blanks, blanks beyond column 80 are cut, blank lines behind the 40 are dropped, a line feed is put at
the end, CR LF is taken as the end of a line where every line has it, and a byte order mark of UTF-8 is
dropped. Under --latin1, 40 lines of exactly 80 characters are taken as they are, control characters too;
those that RECORD doesn't have there are told in a warning.

Anything else beyond column 80, and another count than 40 lines, is refused by 17. A character that code
page 037 doesn't have, a control character as it is (a tab), and bytes that aren't UTF-8, or are under
--latin1, are trouble with the file. The sentence has the line and the column where there is one.
{OUTPUT}{STATUS}"
    )
}

pub fn verify() -> String {
    format!(
        "\
aukpocket verify REEL [--eagle]
aukpocket verify REEL RECORD [--eagle]

With a record, before a tape is destroyed: reads the reel and compares its record with the file RECORD,
byte for byte. The file is read from the disk itself, where the system allows that. The first difference is
named by trace and field or sample; elevations and coordinates stand there as in a record, with their
scalar. What it prints can be kept and handed to `sha256sum -c`: the SHA-256 of both files, and a line that
begins with # and says whether the file is the reel's record. The reel and its record have to fit in memory.
A file in the earlier form, in all traces or in some, is compared in that form. Where it holds the same it is
the reel's record: the line says in which form, and a warning that `read` gives the new one.

Without one: reads the reel, writes its record in each format code, as a plain reel, reads each written reel
again and compares the records byte for byte. Says which codes hold the reel's samples exactly. The record,
one written reel and a second record have to fit in memory.

Neither writes a file.
{FORM}{EAGLE}{BOTH}{NOT_NORMAL}
So a reel written in the reel's own code may have other bytes than the reel, and the same record: where a
word wasn't normal (in code 4: a gain wasn't the smallest; in code 5: a zero had a minus sign), a card byte
was 00, trace field 115 or 117 was 0, elevations or coordinates had another scalar than the record's, or a
byte is left out, as below. No trailers are written.
{LEFT_OUT}
Exit status: 0 fine, 1 wrong words or trouble with a file or memory, 2 the reel is refused, 3 the file is
not the reel's record; or a record came back otherwise or the reel's own code doesn't hold it, which must
never happen.
"
    )
}

const ORDER: &str = "
The order is that of the card bytes, as numbers without a sign; then of the numbers of the binary header; then,
trace by trace, of the numbers of its header and of its samples by their exact values. Header numbers are signed
and count as they stand in the record: elevations and coordinates without their scalars, and the scalars like
every other number. The first that differs decides. Where everything that both have agrees, the record with fewer
traces is the lesser. Two records are equal just when they hold the same, whatever their forms (below).
";

const MAPPED: &str = "
Files are mapped: the records don't have to fit in memory. What can't be mapped, as a pipe, is loaded. They must
not be changed meanwhile. Where the system tells of a change, or a file was cut or can't be read any more, the run
ends with 1 and no answer.
";

pub fn compare() -> String {
    format!(
        "\
aukpocket compare RECORD RECORD

Says whether the first record is lesser than the second, equal to it or greater, and where the two first differ:
a card and its column, a field of the binary header or of a trace, a sample, with what each record has there and
the place; or that the traces of one end first. A sample is shown as an exact product, and as a decimal with as
many digits as tell the two apart. Of equal records it says whether they have the same bytes or differ in form.
Any file that isn't a valid record is refused, the first before the second. Writes no file.
{ORDER}{FORM}{MAPPED}
Exit status: 0 equal, 1 wrong words or trouble with a file or memory, 2 refused, 3 the bytes tell another order
than the library, which must never happen, 4 the first record is the lesser, 5 the first record is the greater.
"
    )
}

pub fn sort() -> String {
    format!(
        "\
aukpocket sort RECORD..

Lists the names of records, as they were given, a line each, the least record first. A record that holds the same
as the one on the line above has `= ` before its name; such records stand in the order of their names. So the
list is the same in whatever order the records are named.

A name that has a line feed, a carriage return or a backslash, or that begins with `= `, stands behind a backslash
and is escaped as sha256sum does it: \\n, \\r, \\\\, and \\= for the first character.

Every file that isn't a valid record is named with what is wrong, and then there is no list. Writes no file.
{ORDER}{FORM}{MAPPED}
Two records whose cards or binary headers differ are told apart by these alone. Where they are the same, both
records are gone through whole for each comparison.

Exit status: 0 fine, 1 wrong words or trouble with a file or memory, 2 refused, 3 the library contradicts itself,
which must never happen.
"
    )
}

pub fn check() -> String {
    format!(
        "\
aukpocket check [--eagle] < REEL

Reads a reel of any size from standard input and prints one line:

  taken T N LENGTH COUNT   T traces of N samples, the length of the record, and how many words aren't normal
  refused NUMBER BESIDE    the number of the cause, and the place or length beside it

It is the line of the program check_reel, which knows plain reels alone, without that program's limits:
there is neither `too long` nor a refusal by 10. COUNT is 0 in every code but 1; `aukpocket read --help` says
which words are normal. The reel and its record have to fit in memory.
Beside a refusal the sentence stands on standard error. Writes no file.
{EAGLE}{STATUS}"
    )
}

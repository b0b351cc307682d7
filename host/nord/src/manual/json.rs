//! The manual's section on JSON. A test asks every command for its object and looks for each field here.

pub const JSON: &str = r#".SH JSON
With
.B \-\-json
a command answers with one object in a line on standard output, and
.B nord run
with one for each line of its script. Each object has "number": 0 where the work is done, else the exit status. Numbers are numbers of pages, of bytes or
of entries, and "pages" is always how many; page numbers are "page", or stand in lists with names of their own. Paths are as they were given.
.PP
What is refused or fails has one shape, also a wrong use: "number", "rule" (the lowest broken rule with 3, else 0) and "error" (the sentence that
standard error has), and behind them what else is known:
.TP
1
"bytes", the image's length.
.TP
3
"sentence" (the rule), "page" and "word" (its first broken place), "first" and "second" (the page's first two holders with rule 8, free else).
.B nord check
adds "what" (what the words there are), "there" ("words" and "octal", "number" where they are one, "says", and "leftovers" where something stands behind
the end of a name), "expected" ("words", and "from" and "to" where numbers of one range are right), the holders' names ("user_name", "file_name",
"type_name"), and "salvage": "mends", and then "changed" and "orphans", how many, or else "number", "rule" and "why".
.TP
9 and 10
"needed" and "there", in pages.
.TP
12
"to", and of the first name or type in the way "field" ("volume", "user", "name" or "type"), "user" and "file" (their indexes, or null), "name", "fill"
("zeros", "apostrophe" or "leftovers"), "behind" (the bytes behind it, in hexadecimal), "leftovers" (as characters, or null), "page" and "word"; then
"in_the_way", how many are, and "short", how many short names and types there are of each fill.
.TP
13
"users", who hold more than they were given ("user", "name", "holds", "given"), then "pages", "given" and "system" of the whole volume, and
"below_zero", by how much unreserved would be.
.TP
a line of a script
"line" and "text", as every object of
.BR "nord run" .
.PP
What is done:
.TP
check
"sound", "visits" (the pages held), "pages".
.TP
list
"name", "pages", "reserved", "unreserved", and "users": "index", "name", "given", "used", and "files": "index", "name", "type", "pages", "kind", "opens",
"created".
.TP
map
The same, "holders" (the holder of each page) and "output" (the picture's path, or null).
.TP
a holder
"holder" (in words), "kind" (the library's number of it), "user", "file", "position".
.TP
who
"page" and the holder's fields.
.TP
find
"user", and of a file "file".
.TP
address
"page", "user", "file", "position".
.TP
page
"page", "pages", "holders" (the first two, with names), "more_holders", "reserved" (its bit, or null), "sound", "broken" (what
.B nord check
tells, or null), and "words": "word", "value", "octal", "broken", "is" (to each holder "what", "says", "first", "words", "leftovers"); of one word
also "characters" and "bits".
.TP
read
"pages", "bytes", "output".
.TP
write
"user", "file", "pages", "created" (whether the file was not there).
.TP
import
"user" (as given), "imported", "left", "pages", and "files": "path", "name", "type", and "user", "file", "pages", "created" of one that was not left.
.TP
export
"folder", "exported", "left", "pages", and "files": "user", "file", "name", "type", "pages", "output", "written".
.TP
user
"user", and of add "name", of give and take "pages".
.TP
file
"user", "file", of grow and shrink "pages", and of grow "data", the numbers of the new data pages.
.TP
format
"volume", "pages", "bit_page", "bit_pages".
.TP
sample
"volume", "pages".
.TP
convert
"to", "changed", and of these "volume", "users", "files", "types".
.TP
salvage
"changed" and "changes", every changed word ("page", "word", "old", "new") by page and word; "users", those whose used count changes ("user", "name",
"old", "new"); "unreserved" ("old", "new"); "held", the pages marked free that are held; "orphans", the pages reserved that nobody holds; "dry_run",
"replaced" (whether the image file was), "folder" and "written" (where the orphans are, and how many files were written; null without
.BR \-\-orphans ).
"#;

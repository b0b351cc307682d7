//! The arguments of every command, and its help with an example.

use crate::limits::{most_pages, pages_to_a_bit_page};
use crate::map::NARROWEST;
use crate::names::{FileName, UserName};
use crate::typed::Number;
use clap::{Args, Parser, Subcommand, ValueEnum, ValueHint};
use std::path::PathBuf;

/// Check, list and change NORD File System disk images, by a proved library.
#[derive(Parser, Debug)]
#[command(name = "nord", version, after_help = NAMES)]
pub struct Cli {
    #[command(subcommand)]
    pub command: Command,
}

const NAMES: &str = concat!(
    "A user is named DOCK, a file DOCK/READS:DATA or, without a type, DOCK/READS. An index is a number after @: user @0, file @0/@3.
A name is 1 to 16 of A-Z, 0-9 and hyphen, a type 0 to 4 of them. The apostrophe that ends a short one in an image is no part of it: it is
never shown, and a name given with it is refused (2).
A file is a whole number of pages of 2,048 bytes. Images are high byte first, 8 to ",
    most_pages!(),
    " pages.
Exit status: 0 done; 1 to 14 the library's refusal; 64 wrong use; 74 input or output; 75 locked or changed by somebody else.
A refused or failed command leaves the image as it was. `nord help COMMAND` has an example for each command."
);

/// A command that asks an image and changes nothing.
#[derive(Args, Debug)]
pub struct Ask {
    /// The image file; for a command that asks, - is standard input
    pub image: PathBuf,
    /// Answer with a JSON object
    #[arg(long)]
    pub json: bool,
}

/// A command that replaces an image.
#[derive(Args, Clone, Debug)]
pub struct Change {
    /// The image file
    pub image: PathBuf,
    /// Answer with a JSON object
    #[arg(long)]
    pub json: bool,
    /// How long to wait for another writer of this image; 0 fails at once
    #[arg(long, value_name = "SECONDS", default_value_t = 60)]
    pub wait: u64,
}

/// Whether an unsound image is looked at too.
#[derive(Args, Debug)]
pub struct Look {
    /// Look at an unsound image too: what can be read, each doubtful part marked; the image is only read
    #[arg(long)]
    pub unsound: bool,
}

/// A salvage, and what becomes of pages that nobody holds.
#[derive(Args, Debug)]
pub struct Salvage {
    #[command(flatten)]
    pub at: Change,
    /// Say what would be changed, and leave the image as it is
    #[arg(long)]
    pub dry_run: bool,
    /// First copy each page that is reserved and that nobody holds to a file page-NUMBER.bin in this folder; none is written over
    #[arg(long, value_name = "FOLDER", value_hint = ValueHint::DirPath)]
    pub orphans: Option<PathBuf>,
}

/// Host's files that are copied in.
#[derive(Args, Debug)]
pub struct Import {
    #[command(flatten)]
    pub at: Change,
    /// Whose files they become: DOCK, or by index @0
    pub user: UserName,
    /// The host's files, and folders with all files in them
    #[arg(required = true, value_name = "PATH")]
    pub paths: Vec<PathBuf>,
    /// Leave files that are there as they are, and say so; without it they are replaced
    #[arg(long)]
    pub no_clobber: bool,
    /// The number that new files get as their time of creation
    #[arg(long, value_name = "NUMBER", default_value_t = 0)]
    pub created: u32,
}

/// Files that are copied out to a folder.
#[derive(Args, Debug)]
pub struct Export {
    #[command(flatten)]
    pub at: Ask,
    /// Whose files: DOCK for all of them, DOCK/PATTERN for some; * stands for any letters, ? for one
    #[arg(value_name = "USER[/PATTERN]")]
    pub files: String,
    /// The host's folder, made where it is not there
    pub folder: PathBuf,
    /// Leave host's files that are there as they are, and say so; without it they are replaced
    #[arg(long)]
    pub no_clobber: bool,
}

/// Lines that are run on one image.
#[derive(Args, Debug)]
pub struct Run {
    #[command(flatten)]
    pub at: Change,
    /// The host's file with the lines; standard input by default and for -
    pub script: Option<PathBuf>,
    /// Go on after a line that is refused: it changes nothing, and the others are kept
    #[arg(long)]
    pub keep_going: bool,
}

#[derive(Subcommand, Debug)]
pub enum Command {
    /// Judge the ten rules of a sound image, and say where the lowest broken one is broken
    #[command(after_help = "Example:\n  nord check disk.img\n  nord check disk.img --json")]
    Check(Ask),
    /// List the volume, its users and their files
    #[command(
        after_help = "Example:\n  nord list disk.img\n  nord list disk.img --json\n  nord list disk.img --unsound\n\nWith --unsound an unsound image is listed as far as its words can be read. The first line has the lowest broken rule and its\nplace; a line with something wrong in it begins with ? and ends in what is doubtful."
    )]
    List {
        #[command(flatten)]
        at: Ask,
        #[command(flatten)]
        look: Look,
    },
    /// Format an image, or make a new one of so many pages
    #[command(
        after_help = "Example:\n  nord format disk.img YARD --pages 154\n  nord format pack.img PACK --pages 37035\n\nWithout --pages the image file is there, keeps its size, and loses its users and files. Where it is a sound volume that has files,\n--force has to be given; without it the command says how many there are and changes nothing (64)."
    )]
    Format {
        #[command(flatten)]
        at: Change,
        /// The volume's name
        name: String,
        #[arg(long, value_name = "COUNT", help = PAGES)]
        pages: Option<Number>,
        #[arg(long, value_name = "PAGE", help = BIT_PAGE)]
        bit_page: Option<Number>,
        /// Format also over a sound volume that has files, which are lost
        #[arg(long, conflicts_with = "pages")]
        force: bool,
    },
    /// Convert what stands behind short names and types: zeros alone to an apostrophe and zeros, or back
    #[command(
        after_help = "Example:\n  nord convert disk.img --to apostrophe\n  nord convert disk.img --to zeros\n\nOld volumes have zeros alone behind names of less than 16 letters and types of less than 4; those that are written now end\nin an apostrophe. Both are sound, but another program may want one of the two. There and back gives the same image, byte\nfor byte. All of them have to be in the one fill before: where one is not, the command is refused (12), names it and changes none."
    )]
    Convert {
        #[command(flatten)]
        at: Change,
        /// What is to stand behind every short name and type: apostrophe (one, and then zeros) or zeros (alone)
        #[arg(long, value_enum, value_name = "FILL")]
        to: Ending,
    },
    /// Mend the bits and counts of a volume whose pointers are good, as after a power cut, and say every word that changes
    #[command(
        after_help = "Example:\n  nord salvage disk.img --dry-run\n  nord salvage disk.img --orphans reads\n\nThe bits of all pages, the users' used counts and unreserved are written anew from what the pointers hold; nothing else is\nchanged. Pages that are reserved and that nobody holds become free: they keep their words until a file takes them, and --orphans\ncopies them out before. An image whose pointers, names or files' entries break a rule is refused (3), and one where a user holds\nmore than he was given, or where more is given than there is, too (13)."
    )]
    Salvage(Salvage),
    /// Copy out every file whose entry and pointers are right, also of an unsound image, and list the others with the place of their fault
    #[command(
        after_help = "Example:\n  nord rescue disk.img files\n\nThe image needs a right length and no more, and is only read. A file is copied out where rules 6 and 7 hold for it and nobody else\nholds one of its pages; bits and counts do not matter. It goes to FOLDER/USER/NAME.TYPE, or NAME alone where the type is empty; the\nfolder of a user whose name is not legal, or that of a lower user, is his index as @7. Nothing that is there is written over: a file\nwith the same content is left as it is, and where one has other content nothing is copied out. The others are listed. The exit\nstatus is 0 where the work is done, also if some are left."
    )]
    Rescue {
        #[command(flatten)]
        at: Ask,
        /// Where the files go; made where it is not there
        folder: PathBuf,
    },
    /// Add and delete users, give and take pages
    #[command(
        subcommand,
        after_help = "Example:\n  nord user add disk.img DOCK\n  nord user give disk.img DOCK 100"
    )]
    User(User),
    /// Create, grow, shrink, delete and open files
    #[command(
        subcommand,
        after_help = "Example:\n  nord file create disk.img DOCK/READS:DATA\n  nord file grow disk.img DOCK/READS:DATA 8"
    )]
    File(File),
    /// Copy a whole file out of an image
    #[command(
        after_help = "Example:\n  nord read disk.img DOCK/READS:DATA reads.bin\n  nord read disk.img @0/@3 reads.bin --unsound\n\nThe output is 2,048 bytes for each page: a NORD file has no length in bytes of its own. With --unsound the pages are found by the\nfile's pointers; one that is not to be found is written as zeros, and every doubtful position is told on standard error."
    )]
    Read {
        #[command(flatten)]
        at: Ask,
        #[arg(help = FILE)]
        file: FileName,
        /// The host's file, replaced whole; standard output by default and for -
        output: Option<PathBuf>,
        #[command(flatten)]
        look: Look,
    },
    /// Copy a host's file into an image, whole or not at all
    #[command(
        after_help = "Example:\n  nord write disk.img DOCK/READS:DATA reads.bin\n\nThe file is created where it is not there, and grows or shrinks to fit. The last page is filled with zeros: a NORD file\nhas no length in bytes of its own. A contiguous file cannot change its page count, so the input has to fit exactly."
    )]
    Write {
        #[command(flatten)]
        at: Change,
        #[arg(help = FILE)]
        file: FileName,
        /// The host's file; standard input for -
        input: PathBuf,
        /// Create a contiguous file; one of that name must not be there
        #[arg(long)]
        contiguous: bool,
        /// The number that a new file gets as its time of creation
        #[arg(long, value_name = "NUMBER", default_value_t = 0)]
        created: u32,
    },
    /// Copy host's files and folders into an image, all of them or none
    #[command(after_help = IMPORT)]
    Import(Import),
    /// Copy a user's files out to a folder
    #[command(after_help = EXPORT)]
    Export(Export),
    /// Run lines of commands on one image: one lock, one check, one replacement
    #[command(after_help = RUN)]
    Run(Run),
    /// Find the index of a user or a file by name
    #[command(after_help = "Example:\n  nord find disk.img DOCK\n  nord find disk.img DOCK/READS:DATA")]
    Find {
        #[command(flatten)]
        at: Ask,
        /// DOCK for a user, DOCK/READS:DATA for a file
        name: String,
    },
    /// Say on which page of the image a page of a file lies
    #[command(after_help = "Example:\n  nord address disk.img DOCK/READS:DATA 0")]
    Address {
        #[command(flatten)]
        at: Ask,
        #[arg(help = FILE)]
        file: FileName,
        /// The page's position in the file, from 0
        position: Number,
    },
    /// Say who holds a page of the image
    #[command(
        after_help = "Example:\n  nord who disk.img 5\n  nord who disk.img 5 --unsound\n\nWith --unsound the pointers say who holds a page: the first two, whether there are more, and the page's bit; what is doubtful is\nmarked with ?."
    )]
    Who {
        #[command(flatten)]
        at: Ask,
        /// The page's number
        page: Number,
        #[command(flatten)]
        look: Look,
    },
    /// Show a page's words: octal as in the manual, decimal, and what each is
    #[command(
        after_help = "Example:\n  nord page disk.img 2\n  nord page disk.img 2 16\n  nord page disk.img 2 --unsound\n\nThe image may be unsound, with --unsound and without: the word at which the lowest broken rule is broken is marked. Lines that repeat are folded as *."
    )]
    Page {
        #[command(flatten)]
        at: Ask,
        /// The page's number
        page: Number,
        /// Only this word, 0 to 1,023, with its characters and bits
        word: Option<Number>,
        #[command(flatten)]
        look: Look,
    },
    /// Draw the image: a cell for each page, or for several of a large pack, coloured by its holder
    #[command(
        after_help = "Example:\n  nord map disk.img\n  nord map disk.img --svg disk.svg\n  nord map disk.img --unsound\n\nWith --unsound a page that two hold is 2, one that is held and whose bit is clear is !, and one whose bit is set and that nobody\nholds is ?; the legend counts them. All others are as their first holder."
    )]
    Map {
        #[command(flatten)]
        at: Ask,
        /// Write the picture to an SVG file
        #[arg(long, value_name = "FILE")]
        svg: Option<PathBuf>,
        /// Characters in a line of the text, 20 or more; by default the terminal's, or 80
        #[arg(long, value_name = "N", value_parser = width)]
        width: Option<u32>,
        /// Colours in the text
        #[arg(long, value_enum, default_value_t = Colour::Auto)]
        colour: Colour,
        #[command(flatten)]
        look: Look,
    },
    /// Make a sample disk: volume YARD of 154 pages with user DOCK and two files
    #[command(after_help = "Example:\n  nord sample sample.img")]
    Sample(Ask),
    /// Print the manual page
    #[command(after_help = "Example:\n  nord manual | man -l -")]
    Manual,
    /// Print the completions for a shell
    #[command(after_help = "Example:\n  nord completions bash > ~/.local/share/bash-completion/completions/nord")]
    Completions {
        /// The shell
        #[arg(value_enum)]
        shell: clap_complete::Shell,
    },
}

const PAGES: &str = concat!(
    "Make a new image file of so many pages, 8 to ",
    most_pages!(),
    "; there must be none of that name"
);

const BIT_PAGE: &str = concat!(
    "The first page of the bit file, which has a page for each ",
    pages_to_a_bit_page!(),
    " pages of the volume, rounded up; the middle page by default"
);

const IMPORT: &str = "Example:
  nord import disk.img DOCK reads.bin notes/
  nord import disk.img DOCK notes/ --no-clobber

A host's file becomes USER/NAME:TYPE, and the command says which. The name is what stands before the last point, the type what
stands behind it (a point at the beginning does not count). Small letters become capitals, and whatever is not a letter A-Z, a digit
or a hyphen becomes a hyphen; a name is cut to 16 letters, a type to 4. Where two files of one import would get the same name and
type, the later ones get -2, -3 and so on at the end of the name. Folders are gone through in the order of names, with the folders
in them; a folder's own name is no part of a file's. The last page of each file is filled with zeros. Where one file is refused, none
is copied.";

const EXPORT: &str = "Example:
  nord export disk.img DOCK reads/
  nord export disk.img 'DOCK/*:DATA' reads/

NAME:TYPE becomes the host's file NAME.TYPE, and NAME: without a type NAME. A pattern without a colon speaks of the name alone, with
any type. All files are written beside their places first, and only then put there: where one fails, none is.";

const RUN: &str = "Example:
  nord run disk.img script.txt
  printf 'user add FLOCK\\nuser give FLOCK 20\\nwrite FLOCK/NOTE:TEXT note.txt\\n' | nord run disk.img

A line is a command without nord and without the image: user, file, format, convert, salvage, write, import, and those that ask. Words
with spaces are in quotes, ' or \"; # begins a comment. The lines are read before the first is run. Where one is refused, the command
says its number and its text, and the image is as it was before all of them; with --keep-going that line alone changes nothing. What a
line writes to the host, as read and export do, is written when the line is run. With --json there is an object in a line for each line.";

const FILE: &str = "The file: DOCK/READS:DATA, or by index @0/@3";

#[derive(Subcommand, Debug)]
pub enum User {
    /// Add a user, with no pages given
    #[command(after_help = "Example:\n  nord user add disk.img DOCK")]
    Add {
        #[command(flatten)]
        at: Change,
        /// The new user's name
        name: String,
    },
    /// Delete a user who has no files
    #[command(after_help = "Example:\n  nord user delete disk.img DOCK")]
    Delete {
        #[command(flatten)]
        at: Change,
        /// The user: DOCK, or by index @0
        user: UserName,
    },
    /// Give a user pages of the unreserved ones
    #[command(after_help = "Example:\n  nord user give disk.img DOCK 100")]
    Give {
        #[command(flatten)]
        at: Change,
        /// The user: DOCK, or by index @0
        user: UserName,
        /// How many pages
        count: Number,
    },
    /// Take back pages that a user does not use
    #[command(after_help = "Example:\n  nord user take disk.img DOCK 10")]
    Take {
        #[command(flatten)]
        at: Change,
        /// The user: DOCK, or by index @0
        user: UserName,
        /// How many pages
        count: Number,
    },
}

#[derive(Subcommand, Debug)]
pub enum File {
    /// Create an empty indexed file, or a contiguous one of so many pages
    #[command(
        after_help = "Example:\n  nord file create disk.img DOCK/READS:DATA\n  nord file create disk.img DOCK/LAMBS:DATA --contiguous 10"
    )]
    Create {
        #[command(flatten)]
        at: Change,
        /// The new file: DOCK/READS:DATA
        file: FileName,
        /// Make it contiguous, of so many pages of zeros
        #[arg(long, value_name = "COUNT")]
        contiguous: Option<Number>,
        /// The number that the file gets as its time of creation
        #[arg(long, value_name = "NUMBER", default_value_t = 0)]
        created: u32,
    },
    /// Grow an indexed file by pages of zeros, all or none
    #[command(after_help = "Example:\n  nord file grow disk.img DOCK/READS:DATA\n  nord file grow disk.img DOCK/READS:DATA 8")]
    Grow {
        #[command(flatten)]
        at: Change,
        #[arg(help = FILE)]
        file: FileName,
        /// How many pages
        #[arg(default_value = "1")]
        count: Number,
    },
    /// Shrink an indexed file by its last pages, all or none
    #[command(after_help = "Example:\n  nord file shrink disk.img DOCK/READS:DATA\n  nord file shrink disk.img DOCK/READS:DATA 8")]
    Shrink {
        #[command(flatten)]
        at: Change,
        #[arg(help = FILE)]
        file: FileName,
        /// How many pages
        #[arg(default_value = "1")]
        count: Number,
    },
    /// Delete a file
    #[command(after_help = "Example:\n  nord file delete disk.img DOCK/READS:DATA")]
    Delete {
        #[command(flatten)]
        at: Change,
        #[arg(help = FILE)]
        file: FileName,
    },
    /// Note that a file was opened
    #[command(after_help = "Example:\n  nord file open disk.img DOCK/READS:DATA")]
    Open {
        #[command(flatten)]
        at: Change,
        #[arg(help = FILE)]
        file: FileName,
    },
}

#[derive(Clone, Copy, Debug, PartialEq, Eq, ValueEnum)]
pub enum Colour {
    Auto,
    Always,
    Never,
}

/// What short names and types are to end in.
#[derive(Clone, Copy, Debug, PartialEq, Eq, ValueEnum)]
pub enum Ending {
    Apostrophe,
    Zeros,
}

impl User {
    /// The image, and how it is replaced.
    pub fn at(&self) -> &Change {
        match self {
            User::Add { at, .. } | User::Delete { at, .. } | User::Give { at, .. } | User::Take { at, .. } => at,
        }
    }
}

impl File {
    /// The image, and how it is replaced.
    pub fn at(&self) -> &Change {
        match self {
            File::Create { at, .. } | File::Grow { at, .. } | File::Shrink { at, .. } => at,
            File::Delete { at, .. } | File::Open { at, .. } => at,
        }
    }
}

impl Command {
    /// Whether the answer is wanted as JSON.
    pub fn json(&self) -> bool {
        match self {
            Command::Check(at) | Command::Sample(at) => at.json,
            Command::List { at, .. } | Command::Rescue { at, .. } => at.json,
            Command::Read { at, .. } | Command::Find { at, .. } | Command::Address { at, .. } => at.json,
            Command::Who { at, .. } | Command::Page { at, .. } | Command::Map { at, .. } => at.json,
            Command::Format { at, .. } | Command::Convert { at, .. } | Command::Write { at, .. } => at.json,
            Command::User(command) => command.at().json,
            Command::File(command) => command.at().json,
            Command::Salvage(with) => with.at.json,
            Command::Import(with) => with.at.json,
            Command::Export(with) => with.at.json,
            Command::Run(with) => with.at.json,
            Command::Manual | Command::Completions { .. } => false,
        }
    }
}

/// The width of a map.
fn width(text: &str) -> Result<u32, String> {
    match text.parse::<Number>()?.value {
        width if width as usize >= NARROWEST => Ok(width),
        _ => Err(format!("a line of the map has {NARROWEST} characters or more")),
    }
}

//! The plan of a run: a cycle has every kind of round, on volumes of every size that matters; a run is at least one cycle.

/// The volume that a round of salvages damages: with entries on several pages, with a long file, or one that no calls give.
#[derive(Clone, Copy)]
pub enum Ground {
    Entries,
    LongFile,
    Scattered,
}

/// What a round does.
#[derive(Clone, Copy)]
pub enum Kind {
    /// Calls by chance from a format on.
    Sequence { calls: u32 },
    /// Calls by chance on a volume that is all given and nearly used.
    Full,
    /// Contiguous files, as long as the longest run and one page longer.
    Runs,
    /// A file around 512 and around 1,024 pages.
    LongFile { from: u32 },
    /// Users around 64, or around 256.
    Users { from: u32 },
    /// Files of a user around 256.
    Files,
    /// 256 users with 256 files each.
    AllFiles,
    /// Image lengths that are wrong, and the shortest and longest that are right.
    Lengths,
    /// Calls on a sound volume that no calls give.
    Scattered { calls: u32 },
    /// Each kind of place so often, rules by chance and two faults at once, with a call on each broken image.
    Damaged { times: u32 },
    /// Each rule broken once, and some by chance.
    DamagedLarge,
    /// Pages with two holders of each pair of kinds, so often.
    Twice { times: u32 },
    /// Each kind of place, so often, on volumes whose long files share their pages.
    Long { times: u32 },
    /// Images made to cost a check much.
    Hostile,
    /// Scripts by chance, of so many steps each.
    Scripts { scripts: u32, steps: u32 },
    /// Scripts past the edges of users, files and index blocks.
    EdgeScripts,
    /// Scripts for each rule, broken so often.
    DamagedScripts { times: u32 },
    /// Scripts that ask who holds each page, and read pages of each file.
    AskingScripts,
    /// Scripts that begin with a salvage, for each room that its list may have, on a volume damaged by chance so often.
    SalvageScripts { images: u32 },
    /// Searches for free pages, on a volume for each of their edges.
    Searches,
    /// Searches past 100 full words of the bit file.
    LargeSearches,
    /// Names and types, with words for each of their edges.
    Names,
    /// Conversions, with words for each of their edges, on a volume that calls give, or on another.
    Converts { scattered: bool },
    /// So many volumes converted there and back.
    ThereAndBack { volumes: u32 },
    /// Salvages, with a damaged volume for each of their edges, so often.
    Salvages { ground: Ground, times: u32 },
    /// A few salvages of a volume on which each call takes long.
    SalvagesLarge,
    /// So many volumes, each damaged by chance several times and salvaged.
    Salvaged { volumes: u32 },
    /// Searches where two pages of the bit file meet.
    BorderSearches,
    /// A fresh volume, with several bit pages or one: formats at each place, who holds them, limits of counts, wrong and stale bits in each.
    Packs,
    /// A volume whose pages below 65,536 are held by one file: all others, and what calls take, have a high word.
    HighPages,
}

/// How a round gets its volume's size: one of its own, or by chance between two.
#[derive(Clone, Copy)]
pub enum Size {
    Of(u32),
    Between(u32, u32),
}

/// Rounds of one cycle: how often, the kind, the size.
pub const CYCLE: &[(u32, Kind, Size)] = &[
    (10, Kind::Sequence { calls: 200 }, Size::Of(8)),
    (10, Kind::Sequence { calls: 200 }, Size::Of(9)),
    (10, Kind::Sequence { calls: 200 }, Size::Of(16)),
    (10, Kind::Sequence { calls: 200 }, Size::Of(17)),
    (10, Kind::Sequence { calls: 200 }, Size::Of(32)),
    (10, Kind::Sequence { calls: 200 }, Size::Of(154)),
    (60, Kind::Sequence { calls: 250 }, Size::Between(8, 80)),
    (4, Kind::Sequence { calls: 100 }, Size::Of(512)),
    (4, Kind::Sequence { calls: 100 }, Size::Of(1_100)),
    (4, Kind::Sequence { calls: 100 }, Size::Of(2_048)),
    (1, Kind::Sequence { calls: 60 }, Size::Of(16_384)),
    (1, Kind::Sequence { calls: 30 }, Size::Between(2_049, 16_383)),
    (30, Kind::Full, Size::Between(8, 48)),
    (25, Kind::Runs, Size::Between(12, 160)),
    (4, Kind::LongFile { from: 508 }, Size::Of(1_100)),
    (2, Kind::LongFile { from: 1_021 }, Size::Of(1_100)),
    (2, Kind::LongFile { from: 1_021 }, Size::Between(1_200, 2_048)),
    (1, Kind::LongFile { from: 508 }, Size::Of(16_384)),
    (6, Kind::Users { from: 61 }, Size::Between(30, 160)),
    (6, Kind::Users { from: 253 }, Size::Between(40, 160)),
    (8, Kind::Files, Size::Between(60, 520)),
    (1, Kind::AllFiles, Size::Of(16_384)),
    (2, Kind::Lengths, Size::Of(8)),
    (1, Kind::Lengths, Size::Of(9)),
    (1, Kind::Lengths, Size::Of(140_734)),
    (120, Kind::Scattered { calls: 25 }, Size::Between(8, 200)),
    (20, Kind::Scattered { calls: 25 }, Size::Of(8)),
    (6, Kind::Scattered { calls: 25 }, Size::Of(512)),
    (6, Kind::Scattered { calls: 20 }, Size::Of(1_100)),
    (6, Kind::Scattered { calls: 20 }, Size::Of(2_048)),
    (1, Kind::Scattered { calls: 30 }, Size::Of(16_384)),
    (90, Kind::Damaged { times: 2 }, Size::Between(16, 160)),
    (20, Kind::Damaged { times: 1 }, Size::Between(8, 16)),
    (4, Kind::Damaged { times: 1 }, Size::Of(1_100)),
    (2, Kind::Damaged { times: 1 }, Size::Of(2_048)),
    (1, Kind::DamagedLarge, Size::Of(16_384)),
    (6, Kind::Twice { times: 2 }, Size::Between(45, 90)),
    (10, Kind::Long { times: 2 }, Size::Between(45, 90)),
    (1, Kind::Hostile, Size::Of(16_384)),
    (60, Kind::Scripts { scripts: 6, steps: 30 }, Size::Between(8, 80)),
    (10, Kind::Scripts { scripts: 6, steps: 40 }, Size::Of(154)),
    (2, Kind::Scripts { scripts: 4, steps: 40 }, Size::Of(1_100)),
    (1, Kind::Scripts { scripts: 2, steps: 20 }, Size::Of(16_384)),
    (4, Kind::EdgeScripts, Size::Between(70, 160)),
    (2, Kind::EdgeScripts, Size::Of(1_100)),
    (20, Kind::DamagedScripts { times: 2 }, Size::Between(8, 160)),
    (20, Kind::AskingScripts, Size::Between(8, 160)),
    (12, Kind::AskingScripts, Size::Between(600, 700)),
    (30, Kind::SalvageScripts { images: 4 }, Size::Between(8, 160)),
    (1, Kind::SalvageScripts { images: 4 }, Size::Of(1_100)),
    (10, Kind::Searches, Size::Between(160, 240)),
    (6, Kind::LargeSearches, Size::Between(1_760, 2_048)),
    (1, Kind::LargeSearches, Size::Of(16_384)),
    (5, Kind::Names, Size::Between(20, 32)),
    (1, Kind::Names, Size::Between(33, 80)),
    (4, Kind::Converts { scattered: false }, Size::Between(26, 32)),
    (2, Kind::Converts { scattered: false }, Size::Between(33, 48)),
    (3, Kind::Converts { scattered: true }, Size::Between(26, 60)),
    (5, Kind::ThereAndBack { volumes: 50 }, Size::Between(16, 160)),
    (3, Kind::Salvages { ground: Ground::Entries, times: 2 }, Size::Between(26, 64)),
    (8, Kind::Salvages { ground: Ground::Scattered, times: 2 }, Size::Between(16, 160)),
    (3, Kind::Salvages { ground: Ground::Scattered, times: 2 }, Size::Of(8)),
    (3, Kind::Salvages { ground: Ground::Scattered, times: 2 }, Size::Of(32)),
    (3, Kind::Salvages { ground: Ground::LongFile, times: 2 }, Size::Of(1_100)),
    (1, Kind::SalvagesLarge, Size::Of(16_384)),
    (10, Kind::Salvaged { volumes: 5 }, Size::Between(8, 160)),
    (1, Kind::BorderSearches, Size::Between(16_450, 16_600)),
    (1, Kind::Packs, Size::Of(16_384)),
    (1, Kind::Packs, Size::Of(16_385)),
    (1, Kind::Packs, Size::Of(32_768)),
    (1, Kind::Packs, Size::Of(32_769)),
    (1, Kind::Packs, Size::Of(37_035)),
    (1, Kind::Packs, Size::Of(140_733)),
    (1, Kind::HighPages, Size::Of(140_733)),
    (1, Kind::Sequence { calls: 20 }, Size::Between(16_385, 33_000)),
    (1, Kind::Scattered { calls: 10 }, Size::Between(16_385, 33_000)),
    (1, Kind::Scripts { scripts: 1, steps: 15 }, Size::Between(16_385, 33_000)),
    (1, Kind::DamagedLarge, Size::Of(16_385)),
    (1, Kind::SalvagesLarge, Size::Of(16_385)),
];

/// One round: its kind and size by its number in the cycle.
pub fn nth_of_cycle(mut number: u64) -> (Kind, Size) {
    for &(times, kind, size) in CYCLE {
        if number < u64::from(times) {
            return (kind, size);
        }
        number -= u64::from(times);
    }
    unreachable!("the number is below the cycle's length")
}

pub fn rounds_of_a_cycle() -> u64 {
    CYCLE.iter().map(|&(times, ..)| u64::from(times)).sum()
}

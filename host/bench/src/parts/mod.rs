//! The parts of a run: each makes its tables and hands its figures to the goals.

mod beside;
mod calls;
mod files;
mod growth;
mod hostile;
mod instructions;
mod memory;
mod packs;
mod runs;
mod salvage;
mod searches;

use crate::goals::Goals;
use crate::report::{Report, Table};
use crate::scratch::Scratch;
use crate::timing::{Effort, QUICK, THOROUGH};
use crate::volumes::{full, many, singles, yard, Volume, LARGE_VOLUME};
use crate::{machine, nearly_full, progress};
use std::io;

/// A pack that is measured: its name, what is laid out, and its pages.
pub type Pack = (&'static str, fn(u32) -> Volume, u32);

/// The pages of the packs of 75 and of 288 MB; no image has more than the latter.
const PACK_75: u32 = 37_035;
const PACK_288: u32 = proved::MOST_PAGES as u32;

/// How large a run is.
pub struct Plan {
    pub effort: Effort,
    /// For processes, whose start takes long beside a check.
    pub process_effort: Effort,
    /// Pages of the image that many files go into.
    pub files: u32,
    /// Pages of the large volumes, and of those of the growth.
    pub large: u32,
    pub growth: Vec<u32>,
    /// Volumes of several bit pages.
    pub packs: Vec<Pack>,
    /// Users of the hostile images, 256 files each; and the pages of those that are as large as a pack.
    pub hostile_users: u32,
    pub hostile_pack: u32,
    /// For the latter, of which one check takes long.
    pub hostile_effort: Effort,
    /// Whether callgrind counts every call, or one only.
    pub all_instructions: bool,
}

impl Plan {
    pub fn thorough() -> Plan {
        Plan {
            effort: THOROUGH,
            process_effort: Effort { sample: 0.005, ..THOROUGH },
            files: LARGE_VOLUME,
            large: LARGE_VOLUME,
            growth: vec![1_000, 2_000, 4_000, 8_000, LARGE_VOLUME, 32_768, PACK_75, 65_536, 100_000, PACK_288],
            packs: vec![
                ("few75", full, PACK_75),
                ("many75", many, PACK_75),
                ("few288", full, PACK_288),
                ("many288", many, PACK_288),
            ],
            hostile_users: 256,
            hostile_pack: PACK_288,
            hostile_effort: Effort { rounds: 7, ..THOROUGH },
            all_instructions: true,
        }
    }

    pub fn quick() -> Plan {
        Plan {
            effort: QUICK,
            process_effort: QUICK,
            files: 8_000,
            large: 2_500,
            growth: vec![1_000, 1_500, LARGE_VOLUME + 1],
            packs: vec![("few75", full, LARGE_VOLUME + 100), ("many288", many, 2_600)],
            hostile_users: 4,
            hostile_pack: 2_600,
            hostile_effort: QUICK,
            all_instructions: false,
        }
    }
}

/// A run as it goes.
pub struct Run {
    pub plan: Plan,
    pub scratch: Scratch,
    pub report: Report,
    pub goals: Goals,
}

impl Run {
    /// A run at its start: the machine is told.
    fn new(plan: Plan) -> io::Result<Run> {
        let mut run = Run {
            plan,
            scratch: Scratch::new()?,
            report: Report::default(),
            goals: Goals::default(),
        };
        run.report.add(machine::table());
        progress::show("laying out the volumes");
        Ok(run)
    }

    /// Ends with the goals.
    fn ended(mut self) -> Report {
        self.report.add(self.goals.table());
        self.report
    }
}

/// Does the part on nearly full volumes alone; gives the report.
pub fn run_searches(plan: Plan) -> io::Result<Report> {
    let mut run = Run::new(plan)?;
    let nearly_full = nearly_full::all(run.plan.large);
    run.report.add(contents(nearly_full.iter()));
    searches::measure(&mut run, &nearly_full);
    Ok(run.ended())
}

/// Does the part on salvage alone; gives the report.
pub fn run_salvage(plan: Plan) -> io::Result<Report> {
    let mut run = Run::new(plan)?;
    let volumes = volumes(run.plan.large);
    run.report.add(contents(volumes.iter()));
    salvage::measure(&mut run, &volumes)?;
    Ok(run.ended())
}

/// Does the parts on e2fsck and mcopy alone; gives the report.
pub fn run_beside(plan: Plan) -> io::Result<Report> {
    let mut run = Run::new(plan)?;
    let volumes = volumes(run.plan.large);
    run.report.add(contents(volumes.iter()));
    beside::measure(&mut run, &volumes)?;
    files::measure(&mut run)?;
    Ok(run.ended())
}

/// Does the part on packs alone; gives the report.
pub fn run_packs(plan: Plan) -> io::Result<Report> {
    let mut run = Run::new(plan)?;
    packs::measure(&mut run)?;
    Ok(run.ended())
}

/// Does all parts; gives the report.
pub fn run(plan: Plan) -> io::Result<Report> {
    let mut run = Run::new(plan)?;
    let volumes = volumes(run.plan.large);
    let nearly_full = nearly_full::all(run.plan.large);
    run.report.add(contents(volumes.iter().chain(&nearly_full)));
    calls::measure(&mut run, &volumes);
    searches::measure(&mut run, &nearly_full);
    runs::measure(&mut run);
    beside::measure(&mut run, &volumes)?;
    files::measure(&mut run)?;
    salvage::measure(&mut run, &volumes)?;
    growth::measure(&mut run);
    hostile::measure(&mut run);
    instructions::measure(&mut run, &volumes)?;
    memory::measure(&mut run, &volumes)?;
    drop((volumes, nearly_full));
    packs::measure(&mut run)?;
    Ok(run.ended())
}

/// The yard's disk, and the large ones with so many pages.
pub fn volumes(large: u32) -> [Volume; 4] {
    [yard(), full(large), many(large), singles(large)]
}

/// The volumes and what is in them.
fn contents<'a>(volumes: impl Iterator<Item = &'a Volume>) -> Table {
    let mut table = contents_table("The volumes");
    volumes.for_each(|volume| table.row(content(volume)));
    table
}

fn contents_table(title: &'static str) -> Table {
    Table::new(title, "", &["volume", "content", "users", "files", "bytes in files", "pages held"])
}

fn content(volume: &Volume) -> Vec<String> {
    let bytes = crate::report::grouped(volume.data_bytes());
    let held = format!("{} of {}", volume.held(), volume.pages());
    let (users, files) = (volume.files.len().to_string(), volume.file_count().to_string());
    vec![volume.name.clone(), volume.about.clone(), users, files, bytes, held]
}

//! A disagreement told in full, and kept in a folder that `--replay` reads.

use crate::both::{page_and_word, Both, Disagreement};
use crate::tally::Tally;
use crate::text;
use crate::words::{from_bytes, to_bytes};
use std::fs;
use std::path::{Path, PathBuf};

/// Steps that are told; all of them are kept.
const SHOWN: usize = 60;

/// All that is to be known of a disagreement.
pub fn told(seen: &Disagreement) -> String {
    let last = seen.steps.last().map_or(String::new(), ToString::to_string);
    let mut lines = vec![
        format!("DISAGREEMENT on an image of {} words", seen.start.len()),
        format!("  step:    {last}"),
        format!("  what:    {}", seen.what),
        format!("  proved:  {}", seen.proved),
        format!("  second:  {}", seen.second),
    ];
    lines.push(match seen.word {
        None => "  images:  the same".to_string(),
        Some((at, proved, second)) => {
            let (page, word) = page_and_word(at);
            format!("  images:  page {page} word {word} is the first to differ: proved {proved}, second {second}")
        }
    });
    let hidden = seen.steps.len().saturating_sub(SHOWN);
    lines.push(format!("  steps so far: {}, the last {} of them:", seen.steps.len(), seen.steps.len() - hidden));
    let shown = seen.steps.iter().skip(hidden);
    lines.extend(shown.map(|step| format!("    {step}")));
    lines.join("\n")
}

/// Keeps the image before the first step, the one before the last, and the steps.
pub fn keep(seen: &Disagreement, folder: &Path) -> std::io::Result<()> {
    fs::create_dir_all(folder)?;
    fs::write(folder.join("start"), to_bytes(&seen.start))?;
    let steps: Vec<String> = seen.steps.iter().map(|step| format!("{step}\n")).collect();
    fs::write(folder.join("steps"), steps.concat())?;
    fs::write(folder.join("before"), to_bytes(&before_last(seen)))
}

/// The image before the last step: up to there the two had agreed.
fn before_last(seen: &Disagreement) -> Vec<u16> {
    let mut image = seen.start.clone();
    let agreed = seen.steps.len().saturating_sub(1);
    for step in &seen.steps[..agreed] {
        match step {
            text::Step::Word { at, value } => image[*at] = *value,
            text::Step::Call { lent, call } => {
                let words = lent.unwrap_or(image.len());
                call.on_proved(&mut image[..words]);
            }
            text::Step::Run { lent, script } => {
                let words = lent.unwrap_or(image.len());
                script.on_proved(&mut image[..words]);
            }
        }
    }
    image
}

/// Goes through a kept folder again, telling every answer. True where all agree.
pub fn replay(folder: &str) -> Result<bool, String> {
    let folder = PathBuf::from(folder);
    let read = |name: &str| fs::read(folder.join(name)).map_err(|error| format!("{}: {error}", folder.join(name).display()));
    let mut both = Both::new(from_bytes(&read("start")?));
    let steps = String::from_utf8_lossy(&read("steps")?).into_owned();
    for line in steps.lines() {
        match again(&mut both, text::step(line)?) {
            Ok(answers) => println!("{line}: {answers}"),
            Err(seen) => {
                println!("{}", told(&seen));
                return Ok(false);
            }
        }
    }
    Ok(true)
}

/// A step once more; gives its answers in words.
fn again(both: &mut Both, step: text::Step) -> Result<String, Box<Disagreement>> {
    let tally = &mut Tally::default();
    Ok(match step {
        text::Step::Word { at, value } => {
            both.put(&[(at, value)]);
            "set".to_string()
        }
        text::Step::Call { lent, call } => {
            let answered = both.lend(lent, call, tally)?;
            let changes = answered.list.get(..answered.call.value as usize).unwrap_or_default();
            format!("{}, then check {}", text::answer_and_changes_in_words(&answered.call, changes), answered.check)
        }
        text::Step::Run { lent, script } => {
            let ran = both.run(lent, script, tally)?;
            format!("{}, then check {}", text::replies_in_words(&ran.played), ran.check)
        }
    })
}

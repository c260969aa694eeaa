//! The built program `relay` and the reference model on generated jobs.

use crate::compare::{compare, Asked, Case, Counted};
use generator::{damaged_job, job, random_job, Random};
use reference::relay;

/// Compares on all jobs, and says how many differ.
pub fn compare_jobs(asked: &Asked) -> Result<(), String> {
    let is_refused = |text: &str| text.starts_with("refused");
    let counted = compare(asked, "compare", case, is_refused)?;
    let Counted { done, such, differ } = counted;
    println!(
        "generated jobs: {done} relayed and compared, {such} of them refused, {differ} differ"
    );
    match differ {
        0 if such < done || asked.count < 10 => Ok(()),
        0 => Err(String::from("every job was refused, which compares little")),
        _ => Err(String::from("the program and the model differ")),
    }
}

fn case(random: &mut Random) -> Case {
    let job = any_job(random);
    Case {
        wanted: relay(&job),
        shown: format!("the job: {}\n", hex(&job)),
        words: vec![],
        input: job,
    }
}

/// Good jobs, jobs with one fault, and any bytes.
fn any_job(random: &mut Random) -> Vec<u8> {
    match random.below(5) {
        0..=2 => job(random).bytes(),
        3 => damaged_job(random).bytes,
        _ => random_job(random),
    }
}

/// The job in hex, as far as it is short enough to show.
fn hex(job: &[u8]) -> String {
    let shown: String = job
        .iter()
        .take(60)
        .map(|byte| format!("{byte:02X}"))
        .collect();
    let more = if job.len() > 60 { ".." } else { "" };
    format!("{shown}{more}, {} bytes", job.len())
}

#[cfg(test)]
mod tests {
    use super::*;

    #[test]
    fn jobs_of_every_kind_arise() {
        let texts: Vec<String> = (0..400)
            .map(|case| relay(&any_job(&mut Random::for_case(1, case))))
            .collect();
        for number in [20, 50, 51, 52, 53, 54] {
            let wanted = format!("refused {number}\n");
            assert!(texts.contains(&wanted), "{number} never arose");
        }
        let refused = texts.iter().filter(|text| text.starts_with("refused"));
        assert!((50..300).contains(&refused.count()));
    }
}

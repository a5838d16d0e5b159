//! 02, W5: the table's run over a host that comes in bursts.

use super::*;
use strlib::{Carried, Note};

pub fn fresh() -> Carried {
    Carried {
        state: 1,
        read: 0,
        total: 0,
        note: None,
        stopped: false,
    }
}

fn no_run_could_make(note: Note, read: usize) -> bool {
    !(1..=32).contains(&note.string)
        || note.pos2 as u128 > read as u128 + 1
        || !(1..=note.pos2).contains(&note.pos1)
}

/// What is carried on; the caller still has what it gave.
pub fn burst(carried: &Carried, burst: &[u8], words: &[u16]) -> Result<Carried, Refusal> {
    refuse(3, burst.len() > 300)?;
    refuse(3, carried.total as u128 + burst.len() as u128 > 65_536)?;
    refuse(2, burst.iter().any(|byte| *byte > 127))?;
    refuse(10, words.is_empty())?;
    let states = words[0] as usize;
    refuse(10, !(2..=242).contains(&states))?;
    refuse(10, words.len() < 1 + 130 * states)?;
    refuse(10, carried.state >= states)?;
    refuse(10, carried.state == 0 && !carried.stopped)?;
    refuse(10, carried.state != 0 && carried.stopped)?;
    refuse(10, carried.total < carried.read)?;
    refuse(
        10,
        carried
            .note
            .is_some_and(|note| no_run_could_make(note, carried.read)),
    )?;

    let mut run = *carried;
    run.total += burst.len();
    if run.stopped {
        return Ok(run);
    }
    enter(&mut run, words)?;
    for character in burst {
        run.state = words[1 + 130 * run.state + *character as usize] as usize;
        run.read += 1;
        refuse(10, run.state >= states)?;
        if run.state == 0 {
            run.stopped = true;
            break;
        }
        enter(&mut run, words)?;
    }
    Ok(run)
}

fn enter(run: &mut Carried, words: &[u16]) -> Result<(), Refusal> {
    let f = words[1 + 130 * run.state + 128] as usize;
    let length = words[1 + 130 * run.state + 129] as usize;
    refuse(10, f > 32)?;
    if f > 0 {
        refuse(10, length > run.read)?;
        run.note = Some(Note {
            string: f,
            pos1: run.read - length + 1,
            pos2: run.read + 1,
        });
    }
    Ok(())
}

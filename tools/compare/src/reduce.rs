//! Makes a call smaller as long as it still differs.

use crate::call::{Call, OwnedCall};

/// How many trials a reduction may take.
const TRIALS: usize = 20_000;

/// How many of them one pass over the bytes may take.
const PASS: usize = 3_000;

/// The smallest form found of a call for which a test holds.
pub fn reduce(call: &OwnedCall, mut differs: impl FnMut(&Call) -> bool) -> OwnedCall {
    let mut best = call.clone();
    let mut trials = 0;
    let mut smaller = true;
    while smaller && trials < TRIALS {
        smaller = false;
        while let Some(trial) = plainer(&best).into_iter().find(|t| {
            trials += 1;
            differs(&t.call())
        }) {
            best = trial;
            smaller = true;
            if trials > TRIALS {
                break;
            }
        }
        let mut pass = 0;
        let mut size = best.bytes.len().next_power_of_two();
        while size > 0 && pass < PASS {
            let mut at = 0;
            while at < best.bytes.len() && pass < PASS {
                pass += 1;
                let trial = shorter(&best, at, size);
                match trial.into_iter().find(|t| differs(&t.call())) {
                    Some(trial) => {
                        best = trial;
                        smaller = true;
                    }
                    None => at += size,
                }
            }
            size /= 2;
        }
        trials += pass;
    }
    best
}

/// The call without a stretch of its bytes: at its offset, and with its end where it was.
fn shorter(call: &OwnedCall, at: usize, size: usize) -> [OwnedCall; 2] {
    let trial = without(call, at, size);
    let mut late = trial.clone();
    let gone = (call.bytes.len() - trial.bytes.len()) as u32;
    late.offset = call.offset.saturating_add(gone);
    if call.ask.spans() {
        late.a = trial.a.saturating_add(gone);
        late.b = trial.b.saturating_add(gone);
    }
    [trial, late]
}

/// The call without a stretch of its bytes; cursors, spans and names behind the stretch move with it.
fn without(call: &OwnedCall, at: usize, size: usize) -> OwnedCall {
    let mut trial = call.clone();
    let end = (at + size).min(trial.bytes.len());
    trial.bytes.drain(at..end);
    let moved = |place: u32| {
        let place = place as usize;
        let gone = place.clamp(at, end) - at;
        (place - gone) as u32
    };
    trial.from = moved(call.from);
    if call.ask.spans() {
        let shift = |position: u32| match position.checked_sub(call.offset) {
            Some(place) => call.offset + moved(place),
            None => position,
        };
        trial.a = shift(call.a);
        trial.b = shift(call.b);
    }
    if call.ask.sheets() && well_shaped(call) {
        for row in trial.sheet[5..].chunks_mut(4) {
            let behind = moved(row[0] + row[1]);
            row[0] = moved(row[0]);
            row[1] = behind - row[0];
        }
    }
    trial
}

/// Whether each row's name range can be moved without a sum that wraps.
fn well_shaped(call: &OwnedCall) -> bool {
    call.sheet.len() >= 5
        && call.sheet.len() % 4 == 1
        && call.sheet[5..]
            .chunks(4)
            .all(|r| (r[0] as usize).saturating_add(r[1] as usize) <= call.bytes.len())
}

/// The call with one of its numbers made plainer.
fn plainer(call: &OwnedCall) -> Vec<OwnedCall> {
    let mut trials = Vec::new();
    if call.offset > 7 {
        for offset in [0, 7] {
            let mut trial = call.clone();
            trial.offset = offset;
            if call.ask.spans() {
                trial.a = call.a.wrapping_sub(call.offset).wrapping_add(offset);
                trial.b = call.b.wrapping_sub(call.offset).wrapping_add(offset);
            }
            trials.push(trial);
        }
    }
    if call.ask.lends() && call.room > 0 {
        for room in [call.room / 2, call.room - 1] {
            let mut trial = call.clone();
            trial.room = room;
            trials.push(trial);
        }
    }
    if call.ask.sheets() {
        trials.extend(fewer_dependencies(call));
    }
    trials.extend((0..call.list.len()).map(|gone| {
        let mut trial = call.clone();
        trial.list.remove(gone);
        trial
    }));
    trials
}

/// A sheet of good shape with one dependency, or the last item, left out.
fn fewer_dependencies(call: &OwnedCall) -> Vec<OwnedCall> {
    let sheet = &call.sheet;
    let (n, e) = match sheet[..] {
        [n, e, 5, a, b, ..] if a == 5 + 4 * n && b == a + 4 * e && b as usize == sheet.len() => {
            (n as usize, e as usize)
        }
        _ => return Vec::new(),
    };
    let mut trials = Vec::new();
    for gone in 0..e {
        let mut trial = call.clone();
        trial
            .sheet
            .drain(5 + 4 * n + 4 * gone..5 + 4 * n + 4 * gone + 4);
        for item in trial.sheet[5..5 + 4 * n].chunks_mut(4) {
            let holds = (item[2] as usize..(item[2] as usize).saturating_add(item[3] as usize))
                .contains(&gone);
            item[3] -= holds as u32;
            item[2] -= (item[2] as usize > gone) as u32;
        }
        trial.sheet[1] -= 1;
        trial.sheet[4] -= 4;
        trials.push(trial);
    }
    if n > 0 && sheet[5 + 4 * (n - 1) + 3] == 0 {
        let mut trial = call.clone();
        trial.sheet.drain(5 + 4 * (n - 1)..5 + 4 * n);
        trial.sheet[0] -= 1;
        trial.sheet[3] -= 4;
        trial.sheet[4] -= 4;
        trials.push(trial);
    }
    trials
}
